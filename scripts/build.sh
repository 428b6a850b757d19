#!/bin/sh
# scripts/build.sh NAME..: proves and builds each where it is not there or a source has changed: the programs strips and grade to target/bin;
# libpelshaqu.a, the library, libplanner.a, of planning and grading by file alone, and libtest_exports.a, for the tests, to target/staticlib.
# version: writes target/version, the project's version, the commit and the kit, a line each.
set -u
library=$(dirname -- "$(readlink -f -- "$0")")
. "$library/program.sh"
for name; do
    case $name in
    strips | grade) built ;;
    libplanner.a) archived planner_c ;;
    libpelshaqu.a) archived pelshaqu ;;
    libtest_exports.a) archived test_exports ;;
    version) note || fail 3 "$root/target/version: cannot be written" ;;
    *) fail 2 "nothing that is built" ;;
    esac
done

#!/bin/sh
# Whether the commands that the gate needs are there. Names what is missing, with the Debian packages that have it, and ends with status 1.
set -u
missing=
packages=

# needs COMMAND PACKAGE
needs() {
    if ! command -v "$1" >/dev/null; then
        missing="$missing $1"
        case " $packages " in
        *" $2 "*) ;;
        *) packages="$packages $2" ;;
        esac
    fi
}
needs cc gcc
needs c++ g++
needs make make
needs pkg-config pkg-config
needs cargo cargo
needs rustc rustc
needs python3 python3
needs awk mawk
needs nm binutils
needs readelf binutils
needs cmp diffutils
needs diff diffutils
needs find findutils
needs xargs findutils
needs od coreutils
needs realpath coreutils
needs install coreutils
if ! command -v rt >/dev/null; then
    echo "needed and not here: rt, which is of the Rattle kit and of no package" >&2
fi
if [ -n "$missing" ]; then
    echo "needed and not here:$missing" >&2
    echo "on Debian: apt-get install$packages" >&2
fi
[ -z "$missing" ] && command -v rt >/dev/null || exit 1
for command in git valgrind groff; do
    command -v "$command" >/dev/null || echo "not here, and what needs it is left out: $command"
done

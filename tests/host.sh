#!/bin/sh
# The example host in C, compiled against the archive and run: it must print what its expected output says. So must it with a shared library
# that is made of the archive, which is position independent. A host with functions plan_job and grade_plan of its own goes by the prefix.
set -eu
cd "$(dirname "$0")/.."
out=$(mktemp -d)
trap 'rm -rf "$out"' EXIT
archive=target/staticlib/libpelshaqu.a
warnings='-std=c99 -Wall -Wextra -Wpedantic -Wconversion -Werror'
# shellcheck disable=SC2086
cc $warnings -O2 -o "$out/host" examples/host/host.c "$archive"
"$out/host" > "$out/said"
cmp "$out/said" examples/host/expected.txt

# -z text: no relocation of the code.
cc -shared -Wl,-z,text -o "$out/libpelshaqu.so" -Wl,--whole-archive "$archive" -Wl,--no-whole-archive
# shellcheck disable=SC2086
cc $warnings -O2 -o "$out/shared" examples/host/host.c -L"$out" -lpelshaqu -Wl,-rpath,"$out"
"$out/shared" > "$out/said"
cmp "$out/said" examples/host/expected.txt

cat > "$out/own.c" <<'CODE'
#include <stdio.h>
#define PELSHAQU_PREFIXED
#include "pelshaqu.h"
int plan_job(void);
int grade_plan(void);
int plan_job(void) { return 100; }
int grade_plan(void) { return 200; }
int main(void) {
    uint8_t job[PELSHAQU_JOB_RECORD], plan[PELSHAQU_PLAN_RECORD], grade[1] = {0};
    size_t len = pelshaqu_put_machine(job, 1, 0);
    uint32_t planned = pelshaqu_plan_job(job, len, PELSHAQU_BISECTION, plan, sizeof plan);
    uint32_t graded = pelshaqu_grade_plan(job, len, plan, sizeof plan, grade, sizeof grade);
    printf("%u %u %u %d %d\n", planned, graded, grade[0], plan_job(), grade_plan());
    return 0;
}
CODE
# own NAME WORDS..: links it with these words, and runs it
own() {
    name=$1
    shift
    # shellcheck disable=SC2086
    cc $warnings -Iinclude -o "$out/$name" "$out/own.c" "$@"
    "$out/$name" > "$out/said"
    [ "$(cat "$out/said")" = '0 0 1 100 200' ] || { echo "tests/host.sh: FAILED, functions of its own: $(cat "$out/said")"; exit 1; }
}
own own-shared -L"$out" -lpelshaqu -Wl,-rpath,"$out"
if command -v objcopy >/dev/null 2>&1; then
    objcopy --weaken-symbol=plan_job --weaken-symbol=grade_plan "$archive" "$out/own.a"
    own own-weak "$out/own.a"
else
    echo "tests/host.sh: SKIPPED functions of its own beside the archive: objcopy is not here"
fi
echo "tests/host.sh: the example host says what it should"

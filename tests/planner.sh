#!/bin/sh
# The archive of planning and grading by file alone, libplanner.a, by hosts in C that take of the header only its limits and its two calls. It
# has those two names. The example host says what its expected output says. The host that watches its buffers passes as it is, under valgrind,
# and with the compiler's checks of memory. The stack that the two calls take is what include/pelshaqu.h and docs/PROMISES.md say.
# GUARD_EXTRA: further words for the compiler, by which tests/faults puts a fault in front.
set -u
cd "$(dirname "$0")/.." || exit 1
out=$(mktemp -d)
trap 'rm -rf "$out"' EXIT
archive=target/staticlib/libplanner.a
fail() {
    echo "tests/planner.sh: FAILED, $1"
    exit 1
}
[ -f "$archive" ] || fail "no archive: run 'sh scripts/build.sh libplanner.a' first"

names=$(nm -g --defined-only "$archive" | awk 'NF == 3 { print $3 }' | LC_ALL=C sort | tr '\n' ' ')
[ "$names" = "grade_plan plan_job " ] || fail "its names: $names"

cc -std=c99 -Wall -Wextra -Werror -O2 -o "$out/host" tests/planner/host.c "$archive" || fail "the example host does not compile"
"$out/host" >"$out/said" || fail "the example host"
cmp "$out/said" examples/host/expected.txt || fail "the example host says something else"

# build NAME WORDS..
build() {
    name=$1
    shift
    # shellcheck disable=SC2086
    cc -std=c99 -Wall -Wextra -Werror -g "$@" -o "$out/$name" tests/planner/guard.c ${GUARD_EXTRA-} "$archive"
}

build plain -O2 || fail "it does not compile"
"$out/plain" || fail "as it is"

if command -v valgrind >/dev/null 2>&1; then
    valgrind -q --error-exitcode=9 --leak-check=full --errors-for-leak-kinds=all "$out/plain" || fail "under valgrind"
    echo "tests/planner.sh: valgrind has nothing to say"
else
    echo "tests/planner.sh: SKIPPED under valgrind, which is not here"
fi

echo 'int main(void) { return 0; }' >"$out/empty.c"
if cc -fsanitize=address,undefined -o "$out/empty" "$out/empty.c" 2>/dev/null && "$out/empty" 2>/dev/null; then
    build checked -O1 -fsanitize=address,undefined -fno-sanitize-recover=all || fail "it does not compile with -fsanitize"
    "$out/checked" || fail "with -fsanitize=address,undefined"
    echo "tests/planner.sh: -fsanitize=address,undefined has nothing to say"
else
    echo "tests/planner.sh: SKIPPED with -fsanitize=address, which this compiler has not"
fi

if command -v c++ >/dev/null 2>&1; then
    echo '#include "include/pelshaqu.h"' >"$out/header.cc"
    c++ -I. -Wall -Wextra -Werror -fsyntax-only "$out/header.cc" || fail "the header in C++"
    echo "tests/planner.sh: the header passes as C++"
else
    echo "tests/planner.sh: SKIPPED the header in C++, whose compiler is not here"
fi

# in_header NAME, in_promises NAME: the KB of stack that the comment above a call gives, and the page
in_header() {
    sed 's/^ \*//' include/pelshaqu.h | awk -v name="$1" '
        { text = text " " $0 }
        END {
            gsub(/[ \t]+/, " ", text)
            text = substr(text, 1, index(text, "uint32_t " name "("))
            while (at = index(text, "/*")) text = substr(text, at + 2)
            if (match(text, /at most [0-9]+ KB of stack/)) print substr(text, RSTART + 8) + 0
        }'
}

in_promises() {
    awk -v name="$1" '
        { text = text " " $0 }
        END { if (match(text, "[0-9]+ KB for `" name "`")) print substr(text, RSTART) + 0 }' docs/PROMISES.md
}

# holds NAME BYTES TEXT KB: at most so many KB of 1,000 bytes, and at least nine tenths of them
holds() {
    [ -n "$4" ] || fail "$3 does not say how many KB of stack $1 takes"
    [ "$2" -le $((1000 * $4)) ] || fail "$1 takes $2 bytes of stack, and $3 says $4 KB"
    [ "$2" -ge $((900 * $4)) ] || fail "$1 takes $2 bytes of stack, less than nine tenths of the $4 KB that $3 says"
}

# With -z now the dynamic linker binds memset and memcpy before any call.
# shellcheck disable=SC2086
cc -std=c99 -Wall -Wextra -Werror -O2 -pthread -Wl,-z,now -o "$out/stack" tests/planner/stack.c ${GUARD_EXTRA-} "$archive" || fail "the stack's test does not compile"
taken=$("$out/stack") || fail "the stack: $taken"
for name in plan_job grade_plan; do
    bytes=$(echo "$taken" | sed -n "s/.*$name \([0-9]*\) bytes.*/\1/p")
    holds $name "$bytes" include/pelshaqu.h "$(in_header $name)"
    holds $name "$bytes" docs/PROMISES.md "$(in_promises $name)"
done
echo "tests/planner.sh: stack: $taken, as the header and docs/PROMISES.md say"

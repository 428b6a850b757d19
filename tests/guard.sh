#!/bin/sh
# The hosts in C that watch their buffers: as they are, under valgrind, and with the compiler's checks of memory. Then the header as C and as
# C++, and the stack that each call takes, which is to be what include/pelshaqu.h and docs/PROMISES.md say.
# GUARD_EXTRA: further words for the compiler, by which tests/faults puts a fault in front.
set -u
cd "$(dirname "$0")/.." || exit 1
out=$(mktemp -d)
trap 'rm -rf "$out"' EXIT
archive=target/staticlib/libpelshaqu.a
fail() {
    echo "tests/guard.sh: FAILED, $1"
    exit 1
}
[ -f "$archive" ] || fail "no archive: run 'sh scripts/build.sh libpelshaqu.a' first"

# The two hosts: the calls by file, and those by lists.
hosts='guard lists'

# build WORDS..: both of them
build() {
    for host in $hosts; do
        # shellcheck disable=SC2086
        cc -std=c99 -Wall -Wextra -Werror -g "$@" -o "$out/$host" "tests/guard/$host.c" ${GUARD_EXTRA-} "$archive" || return 1
    done
}

# runs WORDS..: both of them, behind these words
runs() {
    for host in $hosts; do
        "$@" "$out/$host" || return 1
    done
}

build -O2 || fail "it does not compile"
runs env || fail "as it is"

if command -v valgrind >/dev/null 2>&1; then
    runs valgrind -q --error-exitcode=9 --leak-check=full --errors-for-leak-kinds=all || fail "under valgrind"
    echo "tests/guard.sh: valgrind has nothing to say"
else
    echo "tests/guard.sh: SKIPPED under valgrind, which is not here"
fi

echo 'int main(void) { return 0; }' >"$out/empty.c"
if cc -fsanitize=address,undefined -o "$out/empty" "$out/empty.c" 2>/dev/null && "$out/empty" 2>/dev/null; then
    build -O1 -fsanitize=address,undefined -fno-sanitize-recover=all || fail "it does not compile with -fsanitize"
    runs env || fail "with -fsanitize=address,undefined"
    echo "tests/guard.sh: -fsanitize=address,undefined has nothing to say"
else
    echo "tests/guard.sh: SKIPPED with -fsanitize=address, which this compiler has not"
fi

# The header alone, with every warning an error; by C++ too, in which a host may be written.
strict='-Wall -Wextra -Wpedantic -Wconversion -Wsign-conversion -Wshadow -Werror'
echo '#include "include/pelshaqu.h"' >"$out/header.c"
cp "$out/header.c" "$out/header.cc"
# shellcheck disable=SC2086
cc -std=c99 -I. $strict -Wstrict-prototypes -fsyntax-only "$out/header.c" || fail "the header in C"
if command -v c++ >/dev/null 2>&1; then
    # shellcheck disable=SC2086
    c++ -std=c++11 -I. $strict -fsyntax-only "$out/header.cc" || fail "the header in C++"
    echo "tests/guard.sh: the header passes as C99 and as C++"
else
    echo "tests/guard.sh: the header passes as C99; SKIPPED in C++, whose compiler is not here"
fi

# in_header NAME, in_promises NAME: the bytes of stack that the comment above a call gives, and the page. '<1000' is less than 1 KB.
in_header() {
    sed 's/^ \*//' include/pelshaqu.h | awk -v name="$1" '
        { text = text " " $0 }
        END {
            gsub(/[ \t]+/, " ", text)
            if (!(at = index(text, "uint32_t " name "("))) exit
            text = substr(text, 1, at)
            while (at = index(text, "/*")) text = substr(text, at + 2)
            if (match(text, /at most [0-9.]+ KB of stack/)) printf "%d\n", 1000 * substr(text, RSTART + 8) + 0.5
            if (text ~ /less than 1 KB of stack/) print "<1000"
        }'
}

in_promises() {
    awk -v name="$1" '
        { text = text " " $0 }
        END { if (match(text, "[0-9]+ KB for `" name "`")) print 1000 * substr(text, RSTART) }' docs/PROMISES.md
}

# holds NAME BYTES TEXT SAID: at most what the text says, and at least nine tenths of it
holds() {
    case $4 in
    '') fail "$3 does not say how many KB of stack $1 takes" ;;
    '<'*) [ "$2" -lt "${4#<}" ] || fail "$1 takes $2 bytes of stack, and $3 says less than ${4#<}" ;;
    *)
        [ "$2" -le "$4" ] || fail "$1 takes $2 bytes of stack, and $3 says $4"
        [ $((10 * $2)) -ge $((9 * $4)) ] || fail "$1 takes $2 bytes of stack, less than nine tenths of the $4 that $3 says"
        ;;
    esac
}

# Every function that the header declares is measured. With -z now the dynamic linker binds memset and memcpy before any call.
# shellcheck disable=SC2086
cc -std=c99 -Wall -Wextra -Werror -O2 -pthread -Wl,-z,now -o "$out/stack" tests/guard/stack.c ${GUARD_EXTRA-} "$archive" || fail "the stack's test does not compile"
"$out/stack" >"$out/taken" || fail "the stack: $(cat "$out/taken")"
sed -n 's/^uint32_t \([a-z_]*\)(.*/\1/p' include/pelshaqu.h | LC_ALL=C sort >"$out/declared"
cut -d ' ' -f 1 "$out/taken" | LC_ALL=C sort | cmp -s - "$out/declared" || fail "the stack: not of each function that the header declares"
while read -r name bytes; do
    holds "$name" "$bytes" include/pelshaqu.h "$(in_header "$name")"
    case $name in
    plan_job | grade_plan) holds "$name" "$bytes" docs/PROMISES.md "$(in_promises "$name")" ;;
    esac
done <"$out/taken"
echo "tests/guard.sh: stack in bytes: $(paste -s -d , "$out/taken" | sed 's/,/, /g'), as the header and docs/PROMISES.md say"

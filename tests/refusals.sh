#!/bin/sh
# The refusals stand in the table of docs/REFUSALS.md, a number and its short meaning to a row. Every other text that gives them must
# have the same numbers and the same words, and the definitions must have the same numbers. It needs sh, sed and awk; with a C compiler
# the texts of the header are printed by a program too.
set -u
case $0 in
*/*) cd "${0%/*}/.." || exit 1 ;;
*) cd .. || exit 1 ;;
esac
passed=0
failed=0

# same NAME WANTED GOT
same() {
    if [ "$2" = "$3" ]; then
        passed=$((passed + 1))
        return
    fi
    failed=$((failed + 1))
    printf 'tests/refusals.sh: %s differs\n  wanted:\n%s\n  got:\n%s\n' "$1" "$2" "$3" >&2
}

# Each text as lines 'NUMBER: MEANING', in its own order.
in_table() {
    awk -F ' *[|] *' '$2 ~ /^[0-9]+$/ { print $2 ": " $3 }' docs/REFUSALS.md
}

# 'N  meaning', perhaps with a brace and a remark behind it
in_header() {
    awk '/^ \* +[0-9]+  / { sub(/^ \* +/, ""); sub(/ *[}].*/, ""); n = $1; sub(/^[0-9]+ +/, ""); print n ": " $0 }' include/pelshaqu.h
}

# The header's names of refusals, as they stand between the comment that begins 'The refusals by their numbers' and the text of each:
# 'NUMBER: TEXT' of each case, the number being that of the case's name. A name without a case is told, and a case without a name.
in_texts() {
    awk '/^\/\* The refusals by their numbers/ { inside = 1 }
        inside && /^#define PELSHAQU_/ {
            if ($3 in used) print "the number " $3 " has two names"
            used[$3] = 1
            number[$2] = $3
            next
        }
        inside && /^    case / {
            name = $2
            sub(/:$/, "", name)
            if (!(name in number)) { print name " has no number"; next }
            if ($0 !~ /return "/) getline
            text = $0
            if (text !~ /return ".*";$/) { print name " has no text"; next }
            sub(/^.*return "/, "", text)
            sub(/";$/, "", text)
            print number[name] ": " text
            delete number[name]
        }
        inside && /^    default: / { sub(/^.*return "/, ""); sub(/";$/, ""); print "any other: " $0 }
        inside && /^}/ { inside = 0 }
        END { for (name in number) print name " has no text" }' include/pelshaqu.h
}

# The texts that a compiled program gets, of each number from 0 to two above the last, if there is a compiler.
in_program() {
    cat >"$work/texts.c" <<'CODE'
#include <stdio.h>
#include "include/pelshaqu.h"
int main(void) {
    for (uint32_t n = 0; n <= LAST; n++) printf("%u: %s\n", n, pelshaqu_refusal_text(n));
    return 0;
}
CODE
    cc -std=c99 -I. -DLAST="$1" -o "$work/texts" "$work/texts.c" && "$work/texts"
}

# The numbers of each call by lists, in their order, as lines 'NAME: NUMBERS': in the header behind 'Refusals, in this order', and on the
# page in the row of the function that the C function is. What stands in brackets is a remark.
in_comments() {
    sed 's/^ \*//' include/pelshaqu.h | awk '
        /^\/\*/ { text = "" }
        { text = text " " $0 }
        /^uint32_t pelshaqu_/ {
            name = $2
            sub(/\(.*/, "", name)
            sub(/\*\/.*/, "", text)
            if (!sub(/^.*Refusals?(, in this order)?: /, "", text)) next
            sub(/Takes .*/, "", text)
            gsub(/\([^)]*\)/, "", text)
            sub(/by method 4/, "", text)
            gsub(/[^0-9]+/, " ", text)
            print name ": " text
        }' | sed 's/ *$//; s/:  */: /'
}

in_rows() {
    awk -F ' *[|] *' '
        $2 ~ /^`[a-z]+::[a-z_]+`/ {
            name = $2
            sub(/^`/, "", name)
            sub(/`.*$/, "", name)
            numbers = $5
            sub(/by method 4/, "", numbers)
            gsub(/[^0-9]+/, " ", numbers)
            row[name] = numbers
        }
        $2 ~ /^`pelshaqu_/ && $3 ~ /::/ {
            gsub(/`/, "")
            print $2 ": " ($3 in row ? row[$3] : "no row of " $3)
        }' docs/API.md | sed 's/ *$//; s/:  */: /'
}

# in_help SCRIPT, in_manual PAGE
in_help() {
    sed -n '/^usage()/,/^END/p' "$1" | awk '/^  [0-9]+  / { n = $1; sub(/^ +[0-9]+ +/, ""); print n ": " $0 }'
}

in_manual() {
    awk '/^\.SH/ { inside = $2 == "REFUSALS" } inside && /^[0-9]+$/ { n = $0; getline; print n ": " $0 }' "$1"
}

# The numbers of definitions: 'test N (' under a comment that begins 'Refusal N: '. Each number once, in rising order.
in_definitions() {
    sed -n 's/^\(.*[ =]\)\{0,1\}test \([0-9][0-9]*\) (.*/\2/p' "$@" |
        awk '{ seen[$1 + 0] = 1; if ($1 + 0 > most) most = $1 + 0 } END { for (n = 0; n <= most; n++) if (seen[n]) print n }'
}

# The tests whose number is another than the one quoted above them.
misquoted() {
    awk '/^-- Refusal [0-9]+: / { quoted = $3; gsub(/[^0-9]/, "", quoted) }
        match($0, /test [0-9]+ \(/) {
            n = substr($0, RSTART + 5, RLENGTH - 7)
            if (n != quoted) print FILENAME ": test " n " under the quote of " quoted
        }' "$@"
}

# of FROM TO: the table's lines from one number to the other
of() {
    in_table | awk -v from="$1" -v to="$2" '$1 + 0 >= from && $1 + 0 <= to'
}

# What a job file can give, in the order of the tests.
of_file() {
    of 2 4
    of 15 15
    of 5 6
    of 16 16
    of 7 8
}

# What planning a job can give behind that: by its holds, and by its holds and the method.
of_holds() {
    of 17 17
}

of_holds_and_method() {
    of 17 18
}

# What a plan file can give, in the order of the tests.
of_plan() {
    of 12 12
    of 11 11
    of 13 13
}

all=$(in_table)
numbers=$(in_table | sed 's/:.*//')
same "the table's numbers, which are to rise by one" "$(in_table | awk '{ print NR }')" "$numbers"
same "the number of refusals in the table, which is not to be 0" yes "$([ -n "$all" ] && echo yes || echo no)"
same "include/pelshaqu.h, what the C calls can give" "$(of 1 1; of_file; of 9 9; of_holds_and_method; of 9 9; of_plan)" "$(in_header)"
same "include/pelshaqu.h, the text of each refusal" "$(echo '0: accepted'; in_table; echo 'any other: no such refusal')" "$(in_texts)"
same "include/pelshaqu.h, the order of each call by lists" "$(in_rows)" "$(in_comments)"
same "the calls by lists in include/pelshaqu.h, of which there are eleven" 11 "$(in_comments | awk 'END { print NR }')"
last=$(in_table | awk 'END { print NR }')
if command -v cc >/dev/null 2>&1; then
    work=$(mktemp -d)
    trap 'rm -rf "$work"' EXIT
    same "include/pelshaqu.h, the texts that a program gets" \
        "$(echo '0: accepted'; in_table; echo "$((last + 1)): no such refusal"; echo "$((last + 2)): no such refusal")" "$(in_program $((last + 2)))"
else
    echo "tests/refusals.sh: SKIPPED the texts that a program gets: no C compiler is here"
fi
same "./strips --help, what a file can give" "$(of_file; of_holds)" "$(in_help strips)"
same "docs/strips.1, what a file can give" "$(of_file; of_holds)" "$(in_manual docs/strips.1)"
same "./grade --help, what two files can give" "$(of_file; of_plan)" "$(in_help grade)"
same "docs/grade.1, what two files can give" "$(of_file; of_plan)" "$(in_manual docs/grade.1)"
same "the definitions' numbers" "$numbers" "$(in_definitions crates/chain/specs/Refusal.antt crates/jobs/specs/Parse.antt)"
same "the definitions under their quotes" "" "$(misquoted crates/chain/specs/Refusal.antt crates/jobs/specs/Parse.antt)"

if [ "$failed" -ne 0 ]; then
    echo "tests/refusals.sh: FAILED, $failed of $((passed + failed)) checks"
    exit 1
fi
echo "tests/refusals.sh: $passed checks passed, $last refusals"

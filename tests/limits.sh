#!/bin/sh
# The limits stand in crates/chain/specs/Limits.antt. The texts below that give one of them, or an amount that follows from one, must have
# the figure that follows: it is looked for by the few words beside it, and fails where the words are there no more. The texts for users
# speak of no more tiles or machines than one above the limit, as an example of a refusal does. It needs sh, sed, awk and od.
set -u
cd "$(dirname "$0")/.." || exit 1
figures=0
failed=0

wrong() {
    failed=$((failed + 1))
    echo "tests/limits.sh: $1" >&2
}

# numbers FILE PLACE WORDS: each number that stands at the '#' of the words, without commas and '_'. The place is a sentence of the
# scope ('1.1'), the beginning of a line, or nothing for the whole file. How the text is broken into lines does not matter.
numbers() {
    awk -v place="$2" -v words="$3" '
        BEGIN {
            at = index(words, "#")
            before = substr(words, 1, at - 1)
            behind = substr(words, at + 1)
            if (place ~ /^[0-9]+\.[0-9]+$/) { split(place, of, "."); place = of[2] ". " }
        }
        /^## / { section = $2 }
        index($0, place) == 1 || place == "" {
            if (of[1] != "" && section != of[1]) next
            line = $0
            sub(/^ \*( |$)/, " ", line)
            text = text " " line
        }
        END {
            gsub(/[ \t]+/, " ", text)
            while (match(text, /[0-9]([0-9,_]*[0-9])?/)) {
                passed = passed substr(text, 1, RSTART - 1)
                number = substr(text, RSTART, RLENGTH)
                text = substr(text, RSTART + RLENGTH)
                if (substr(passed, length(passed) - length(before) + 1) == before && substr(text, 1, length(behind)) == behind) {
                    digits = number
                    gsub(/[,_]/, "", digits)
                    print digits
                }
                passed = substr(passed, length(passed) - 99 > 1 ? length(passed) - 99 : 1) number
            }
        }' "$1"
}

# says FILE PLACE WORDS FIGURE: the figure stands at the '#' of the words, once or more, and no other does
says() {
    found=$(numbers "$1" "$2" "$3")
    [ -n "$found" ] || wrong "$1${2:+, $2}: nothing like '$3', which is to give $4"
    for number in $found; do
        figures=$((figures + 1))
        [ "$number" = "$4" ] || wrong "$1${2:+, $2}: '$3' has $number, and it is $4"
    done
}

# within FILE: no more tiles or machines than one above the limit
within() {
    [ -r "$1" ] || wrong "$1 is not there"
    for number in $(numbers "$1" '' '# machines'); do
        [ "$number" -le $((machines + 1)) ] || wrong "$1: $number machines, and a job has at most $machines"
    done
    for number in $(numbers "$1" '' '# tiles'); do
        [ "$number" -le $((tiles + 1)) ] || wrong "$1: $number tiles, and a job has at most $tiles"
    done
}

# limit NAME
limit() {
    number=$(sed -n "s/^$1 = \([0-9][0-9]*\)\$/\1/p" crates/chain/specs/Limits.antt)
    case $number in
    '' | *[!0-9]*)
        echo "tests/limits.sh: FAILED, no number of $1 in crates/chain/specs/Limits.antt" >&2
        exit 1
        ;;
    esac
    echo "$number"
}
tiles=$(limit max_tasks) && weight=$(limit max_weight) && machines=$(limit max_processors) && speed=$(limit max_speed) &&
    startup=$(limit max_startup) && bound_load=$(limit max_bound_load) && bound_speed=$(limit max_bound_speed) || exit 1
# The greatest hold, which has 16 bits and no other limit.
hold=$((256 * 256 - 1))
# The records of the longest job file, which is of the second edition; one record more than it has, and than the longest plan file.
job_records=$((1 + machines + tiles))
job_bytes=$((8 * (job_records + 1)))
plan_bytes=$((16 * (machines + 1)))
# The room of a listing, as crates/listing/specs/Room.antt has it: a first line, and one for each of four methods, with a field of 21
# bytes for a separator.
listing=$((84 + 4 * (126 + 21 * (machines + 1))))

# grouped NUMBER: with its commas
grouped() {
    echo "$1" | sed ':again
s/^\([0-9]*[0-9]\)\([0-9]\{3\}\)/\1,\2/
t again'
}

# The scope
text=docs/SCOPE.md
says $text 1.1 'tiles, 0 to #' "$tiles"
says $text 1.2 'weight w, 0 to #' "$weight"
says $text 1.3 'machines, 1 to #' "$machines"
says $text 1.4 'speed e, 1 to #' "$speed"
says $text 2.9 'load of 0 to #' "$bound_load"
says $text 2.9 'speed of 1 to #' "$bound_speed"
says $text '| 8 |' 'more than # tiles' "$tiles"
says $text 8.7 '# bytes for a listing' "$listing"
says $text 11.4 'Speed # is taken' "$speed"
says $text 11.4 'speeds 0 and #' $((speed + 1))
says $text 11.5 'Weight # is taken' "$weight"
says $text 11.5 'weight #' $((weight + 1))
says $text 11.6 '# machines are taken' "$machines"
says $text 11.6 'none and #' $((machines + 1))
says $text 11.6 '# tiles' $((tiles + 1))
says $text 11.7 '# tiles are taken' "$tiles"
says $text 11.7 '; # are refused' $((tiles + 1))
says $text 15.3 'up to # machines' "$machines"
says $text 17.1 'c, 0 to #' "$startup"
says $text 17.5 'c = # is taken' "$startup"
says $text 17.5 'taken; # is refused' $((startup + 1))
says $text 17.17 'file has # records' "$job_records"
says $text 18.2 '16 bits, 0 to #' "$hold"

# The pages for users
text=README.md
says $text '' '1 to # machines' "$machines"
says $text '' 'at most # tiles' "$tiles"
text=docs/FORMATS.md
says $text '' 'speed, 1 to #' "$speed"
says $text '' 'weight, 0 to #' "$weight"
says $text '' '1 to # machines' "$machines"
says $text '' '0 to # tiles' "$tiles"
says $text '' 'c, 0 to #' "$startup"
says $text '' 'first edition has # +' "$machines"
says $text '' "first edition has $machines + # =" "$tiles"
says $text '' "$(grouped "$tiles") = # records" $((machines + tiles))
says $text '' "$(grouped $((machines + tiles))) records, # bytes" $((8 * (machines + tiles)))
says $text '' 'one more: # records' "$job_records"
says $text '' "$(grouped "$job_records") records, # bytes" $((8 * job_records))
says $text '' 'A hold of # is 00 08' "$tiles"
says $text '' 'the most, #, is ff ff' "$hold"
text=docs/REFUSALS.md
says $text '| 16 |' 'c = #' $((startup + 1))
says $text '| 16 |' 'work is 0 to #' "$startup"
says $text '| 5 |' 'or of #' $((speed + 1))
says $text '| 5 |' '1 to #' "$speed"
says $text '| 6 |' 'of weight #' $((weight + 1))
says $text '| 6 |' '0 to #' "$weight"
says $text '| 7 |' 'more than #' "$machines"
says $text '| 8 |' 'more than # tiles' "$tiles"
says $text '| 8 |' 'and # tiles' $((tiles + 1))
says $text '| 9 |' '# bytes for a listing' "$listing"
says $text '| 10 |' 'load of at most #' "$bound_load"
says $text '| 10 |' 'speed of 1 to #' "$bound_speed"
says $text '' 'they take in at most # bytes' "$job_bytes"
says $text '' 'at most # bytes of a plan file' "$plan_bytes"
says docs/PROMISES.md '' 'fewer than # bytes' "$listing"
says docs/PROMISES.md '' 'up to # machines' "$machines"
says docs/PROMISES.md '' '# machines are taken' "$machines"
says docs/PROMISES.md '' 'taken and # refused' $((machines + 1))
says docs/DECISIONS.md '' 'loads are at most # ×' "$tiles"
says docs/DECISIONS.md '' '× # and fit 32 bits' "$weight"
says docs/DECISIONS.md '' 'a local array of # numbers' $((tiles + 1))
# shellcheck disable=SC2016
says docs/DECISIONS.md '' 'proofs/Limits`, # and' "$machines"
# shellcheck disable=SC2016
says docs/DECISIONS.md '' "proofs/Limits\`, $machines and #" $((machines + 1))
says docs/DECISIONS.md '' 'room of a listing, #' "$listing"
says docs/DECISIONS.md '' '# tiles on' $((8 * machines))
says docs/DECISIONS.md '' 'tiles on # machines' "$machines"
says docs/WHY.md '' 'any stored job has # machines' "$machines"
says docs/WHY.md '' 'a row of # is refused' $((machines + 1))
says docs/WHY.md '' 'a job of up to # machines' "$machines"
says docs/TESTING.md '' "of $(grouped "$tiles") × #" "$machines"
says docs/API.md '' 'start-up work c, 0 to #' "$startup"
halved=1
while [ $((2 * halved)) -le "$machines" ]; do halved=$((2 * halved)); done
says docs/API.md '' '16, 32 or #; a job within' "$halved"
says include/pelshaqu.h '' '16, 32 or # machines of one speed' "$halved"
says docs/TESTING.md '' '32 and # machines are halved' "$halved"
says docs/TESTING.md '' 'other numbers up to # give 14' "$machines"
says docs/TESTING.md '' "up to # machines and $(grouped "$tiles") tiles" "$halved"
says docs/TESTING.md '' "up to $halved machines and # tiles" "$tiles"
text=docs/BENCHMARKS.md
says $text '- **Jobs**' 'N = # tiles on' $((8 * machines))
says $text '- **Jobs**' 'on P = # machines' "$machines"
says $text '- **Jobs**' '# on 64' "$tiles"
says $text '- **Jobs**' '# on 16' "$tiles"
says $text '' 'A job has at most # machines' "$machines"
says $text '' 'the largest job, # tiles' "$tiles"
says $text '' "the largest job, $(grouped "$tiles") tiles on # machines" "$machines"
says $text '' '100 on), at most #' "$weight"
says $text '' 'The largest job, N = #' "$tiles"
says $text '' "The largest job, N = $(grouped "$tiles") on P = #" "$machines"

# The helps and the manual pages
says strips '' 'speed (1 to #)' "$speed"
says strips '' 'weight (0 to #)' "$weight"
says strips '' 'At most # bytes are read' "$job_bytes"
says docs/strips.1 '' 'speed, 1 to #' "$speed"
says docs/strips.1 '' 'weight, 0 to #' "$weight"
says docs/strips.1 '' 'At most # bytes are read' "$job_bytes"
says strips '' 'start-up work (0 to #)' "$startup"
says docs/strips.1 '' 'start-up work, 0 to #' "$startup"
for text in strips docs/strips.1; do
    says $text '' '1 to # machines' "$machines"
    says $text '' 'at most # tiles' "$tiles"
done
for text in grade docs/grade.1; do
    says $text '' 'Of the job at most # bytes' "$job_bytes"
    says $text '' 'of the plan at most #' "$plan_bytes"
done
for text in strips docs/strips.1 grade docs/grade.1 include/pelshaqu.h; do
    says $text '' 'no machine, or more than #' "$machines"
    says $text '' 'more than # tiles' "$tiles"
done

# The command, its manual page and the pages on texts and Python
text=docs/pelshaqu.1
says $text '' 'a weight is 0 to #' "$weight"
says $text '' 'a speed 1 to #' "$speed"
says $text '' 'start-up work 0 to #' "$startup"
says $text '' 'can take, 0 to #' "$hold"
text=docs/TEXT.md
says $text '| weight |' '| 0 to #' "$weight"
says $text '| speed |' '| 1 to #' "$speed"
says $text '| hold |' '| 0 to #' "$hold"
says $text '| start-up work |' '| 0 to #' "$startup"
says docs/PYTHON.md '' 'a hold above #' "$hold"
text=python/pelshaqu/command.py
says $text '' 'start-up work 0 to #' "$weight"
says $text '' 'speeds 1 to #' "$speed"
says $text '' '1 to # machines' "$machines"
says $text '' 'at most # tiles' "$tiles"

# The header
text=include/pelshaqu.h
says $text '#define PELSHAQU_MAX_MACHINES' 'PELSHAQU_MAX_MACHINES #' "$machines"
says $text '#define PELSHAQU_MAX_TILES' 'PELSHAQU_MAX_TILES #' "$tiles"
says $text '#define PELSHAQU_MAX_STARTUP' 'PELSHAQU_MAX_STARTUP #' "$startup"
says $text '#define PELSHAQU_MAX_HOLD' 'PELSHAQU_MAX_HOLD #' "$hold"
says $text '#define PELSHAQU_MAX_SPEED' 'PELSHAQU_MAX_SPEED #' "$speed"
says $text '#define PELSHAQU_MAX_WEIGHT' 'PELSHAQU_MAX_WEIGHT #' "$weight"
says $text '#define PELSHAQU_MAX_BOUND_LOAD' 'PELSHAQU_MAX_BOUND_LOAD UINT64_C(#)' "$bound_load"
says $text '#define PELSHAQU_MAX_BOUND_SPEED' 'PELSHAQU_MAX_BOUND_SPEED UINT64_C(#)' "$bound_speed"
says $text '#define PELSHAQU_LISTING' 'PELSHAQU_LISTING #' "$listing"
says $text '' 'start-up work, 0 to #' "$startup"
says $text '' 'each machine, 1 to #' "$speed"
says $text '' 'machines, P: 1 to #' "$machines"
says $text '' 'each tile, 0 to #' "$weight"
says $text '' 'tiles, N: 0 to #' "$tiles"
says $text '' 'start-up work (0 to #)' "$startup"
says $text '' 'speed (1 to #)' "$speed"
says $text '' 'weight (0 to #)' "$weight"
says $text '' '1 to # machines' "$machines"
says $text '' '0 to # tiles' "$tiles"

# The code of the calls, and plain Rust beside them
for text in crates/refusals/src/lib.rt bench/src/plain.rs; do
    says $text '' 'MAX_TASKS: usize = #;' "$tiles"
    says $text '' 'MAX_WEIGHT: u32 = #;' "$weight"
    says $text '' 'MAX_PROCESSORS: usize = #;' "$machines"
    says $text '' 'MAX_SPEED: u32 = #;' "$speed"
    says $text '' 'MAX_STARTUP: u32 = #;' "$startup"
    says $text '' 'MAX_BOUND_LOAD: u64 = #;' "$bound_load"
    says $text '' 'MAX_BOUND_SPEED: u64 = #;' "$bound_speed"
done

# The largest example
text=examples/README.md
# shellcheck disable=SC2016
row='| `large2` |'
says $text "$row" '| #, weights' "$tiles"
says $text "$row" 'weights up to #' "$weight"
says $text "$row" '| #, speeds' "$machines"
says $text "$row" 'speeds up to #' "$speed"
awk -v row="$row" 'index($0, row) == 1 && /the largest job allowed, of the first edition/ { found = 1 } END { exit !found }' $text ||
    wrong "$text, $row: not called 'the largest job allowed, of the first edition'"
# The first byte of a record is its kind.
records=$(od -An -v -tu1 examples/large2.job | awk '{ for (i = 1; i <= NF; i++) if (bytes++ % 8 == 0) kind[$i]++ }
    END { print kind[1] + 0, kind[2] + 0, bytes + 0 }')
figures=$((figures + 2))
[ "$records" = "$machines $tiles $((8 * (machines + tiles)))" ] ||
    wrong "examples/large2.job has $records (machines, tiles, bytes), and the largest job of the first edition $machines $tiles $((8 * (machines + tiles)))"

for text in README.md docs/API.md docs/WHY.md docs/FORMATS.md docs/REFUSALS.md docs/strips.1 docs/grade.1 strips grade include/pelshaqu.h \
    examples/README.md; do
    within $text
done

if [ "$failed" -ne 0 ]; then
    echo "tests/limits.sh: FAILED, $failed wrong"
    exit 1
fi
echo "tests/limits.sh: $figures figures, each as it follows from crates/chain/specs/Limits.antt"

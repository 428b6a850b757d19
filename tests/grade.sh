#!/bin/sh
# Runs the program `grade`, which a check has built, and the script ./grade, and compares what they say of plan files.
# GRADE_PROGRAM: another program in its place, by which tests/faults tries faulty ones.
set -eu
cd "$(dirname "$0")/.."
program=${GRADE_PROGRAM-target/bin/grade}
[ -x "$program" ] || {
    echo "tests/grade.sh: no $program; run 'sh scripts/build.sh grade' first" >&2
    exit 1
}
work=$(mktemp -d)
trap 'chmod -R u+rwx "$work"; rm -rf "$work"' EXIT
passed=0
failed=0

. tests/common

# says NAME LINE JOB PLAN: the program answers the line, and has nothing to say on standard error
says() {
    printf '%s\n' "$2" >"$work/wanted"
    "$program" "$3" "$4" >"$work/got" 2>"$work/said" </dev/null || :
    same "$1" "$work/wanted" "$work/got"
    [ ! -s "$work/said" ] || equal "$1: standard error" "" "$(cat "$work/said")"
}

# begins: what $work/said begins with
begins() {
    head -c 7 "$work/said"
}

# silent NAME WORD..: nothing on standard output, and a message on standard error
silent() {
    name=$1
    shift
    "$program" "$@" >"$work/out" 2>"$work/said" </dev/null || :
    equal "$name: nothing on standard output" 0 "$(wc -c <"$work/out" | tr -d ' ')"
    equal "$name: said so" "grade: yes" "$(begins)$([ "$(wc -c <"$work/said")" -gt 12 ] && echo yes || echo no)"
}

# fields VALUE..: numbers of 32 bits, as a plan file has them, four to a record
fields() {
    for value; do
        printf "$(bytes "$value")"
    done
}

# empty_parts COUNT: records of machines of speed 1 without tiles, in a job without tiles
empty_parts() {
    repeated "$1" "$(bytes 0)$(bytes 0)$(bytes 0)$(bytes 1)"
}

# judged NAME LINE: what is said of $work/job beside the longest plan
judged() {
    says "$1" "$2" "$work/job" "$long"
}

a=examples/A.job
best=examples/A-best.plan

# the example plans
says "a best plan" best "$a" "$best"
says "a valid plan" valid "$a" examples/A-valid.plan
says "an untrue plan" "refused 13" "$a" examples/A-untrue.plan
says "a best plan with other separators" best examples/D.job examples/D-other.plan
says "a best plan with start-up work" best examples/N.job examples/N-best.plan
says "a valid plan with start-up work" valid examples/N.job examples/N-valid.plan
says "a plan whose loads have no start-up work" "refused 13" examples/N.job examples/N-first.plan
says "a best plan with holds" best examples/S.job examples/S-best.plan
says "a valid plan with holds" valid examples/S.job examples/S-valid.plan
says "a plan that breaks a hold" "refused 11" examples/S.job examples/S-broken.plan
says "the same plan without holds" best "$a" examples/S-broken.plan
says "a plan beside another job" "refused 11" examples/B.job "$best"
says "job and plan exchanged" "refused 3" "$best" "$a"
says "a job for both" "refused 12" "$a" "$a"

# the table of examples/README.md says the same of each, and of all
awk -F ' *[|] *' '$2 ~ /[.]plan`$/ { gsub(/`/, ""); print $4, $2 }' examples/README.md >"$work/rows"
for plan in examples/*.plan; do
    name=$(basename "$plan")
    equal "examples/README.md, $name" "$("$program" "examples/${name%%-*}.job" "$plan") $name" "$(grep " $name\$" "$work/rows" || :)"
done

# every division of A to E: each as it must be
# divisions JOB LAST WORD..: the words of 0 0 LAST, 0 1 LAST and so on
divisions() {
    job=$1
    last=$2
    shift 2
    s=0
    for word; do
        examples/make-plan "examples/$job.job" 0 "$s" "$last" >"$work/plan"
        says "$job, 0 $s $last" "$word" "examples/$job.job" "$work/plan"
        s=$((s + 1))
    done
}
divisions A 3 valid best valid valid
divisions B 5 valid best valid valid valid valid
divisions C 0 best
divisions D 2 best best best
divisions E 1 best best
divisions N 3 best valid valid valid

# N in the first edition, whose best plan is another, and with start-up work 0, with which the same is said
examples/make-job 1 4 : 1 4 4 >"$work/first.job"
examples/make-job startup 0 1 4 : 1 4 4 >"$work/none.job"
for word in "0 0 3 valid" "0 1 3 best" "0 2 3 valid" "0 3 3 valid"; do
    # shellcheck disable=SC2086
    set -- $word
    examples/make-plan "$work/first.job" "$1" "$2" "$3" >"$work/plan"
    says "N without start-up work, $1 $2 $3" "$4" "$work/first.job" "$work/plan"
    says "N with start-up work 0, $1 $2 $3" "$4" "$work/none.job" "$work/plan"
    says "N, $1 $2 $3 with the loads of the first edition" "refused 13" examples/N.job "$work/plan"
done

# S, whose second machine holds one tile: every division of A, and those with loads that are untrue, of which 11 is said first
examples/make-job 1 3 holds 65535 65535 : 1 3 8 >"$work/wide.job"
for word in "0 0 3 refused 11" "0 1 3 refused 11" "0 2 3 best" "0 3 3 valid"; do
    # shellcheck disable=SC2086
    set -- $word
    line=${word#? ? ? }
    examples/make-plan "$a" "$1" "$2" "$3" >"$work/plan"
    says "S, $1 $2 $3" "$line" examples/S.job "$work/plan"
    # with holds that are no limit for three tiles
    says "A with the greatest holds, $1 $2 $3" "$("$program" "$a" "$work/plan")" "$work/wide.job" "$work/plan"
    {
        head -c 8 "$work/plan"
        printf '\377'
        tail -c +10 "$work/plan"
    } >"$work/untrue"
    case $line in refused*) ;; *) line="refused 13" ;; esac
    says "S, $1 $2 $3 with an untrue load" "$line" examples/S.job "$work/untrue"
    printf '\000' | cat "$work/plan" - >"$work/longer"
    says "S, $1 $2 $3 and a byte more" "refused 12" examples/S.job "$work/longer"
done

# five tiles on machines that hold 1, 3 and 2: a share with as many tiles as the hold, and with one more, at each place; two holds broken
examples/make-job 1 1 5 holds 1 3 2 : 1 1 1 1 1 >"$work/held.job"
examples/make-job 1 1 5 : 1 1 1 1 1 >"$work/free.job"
for word in "0 1 3 5 best" "0 0 3 5 valid" "0 1 4 5 valid" "0 2 4 5 refused 11" "0 0 4 5 refused 11" "0 1 2 5 refused 11" "0 2 2 5 refused 11" \
    "0 5 5 5 refused 11" "0 0 0 5 refused 11" "0 0 5 5 refused 11"; do
    # shellcheck disable=SC2086
    set -- $word
    examples/make-plan "$work/free.job" "$1" "$2" "$3" "$4" >"$work/plan"
    says "holds 1 3 2, $1 $2 $3 $4" "${word#? ? ? ? }" "$work/held.job" "$work/plan"
done
# a hold of two bytes
# shellcheck disable=SC2046
set -- $(awk 'BEGIN { for (i = 0; i < 257; i++) print 1 }')
examples/make-job 1 1 holds 1 256 : "$@" >"$work/held.job"
examples/make-job 1 1 : "$@" >"$work/free.job"
examples/make-plan "$work/held.job" 0 1 257 >"$work/plan"
says "holds 1 and 256, 0 1 257" best "$work/held.job" "$work/plan"
says "holds 1 and 256, 0 1 257, without the holds" valid "$work/free.job" "$work/plan"
for s in 0 2 128 256 257; do
    examples/make-plan "$work/free.job" 0 $s 257 >"$work/plan"
    says "holds 1 and 256, 0 $s 257" "refused 11" "$work/held.job" "$work/plan"
done
# a hold with start-up work: N with hold 2 on machine 2, whose best plan without the hold breaks it
examples/make-job startup 3 1 4 holds 0 2 : 1 4 4 >"$work/held.job"
for word in "0 0 3 refused 11" "0 1 3 best" "0 2 3 valid" "0 3 3 valid"; do
    # shellcheck disable=SC2086
    set -- $word
    examples/make-plan examples/N.job "$1" "$2" "$3" >"$work/plan"
    says "N with hold 2 on machine 2, $1 $2 $3" "${word#? ? ? }" "$work/held.job" "$work/plan"
done
# holds that add up to too little: there is no division, so 11 is said, of a plan of the right length; 17 is for planning
examples/make-job 1 3 holds 1 1 : 1 3 8 >"$work/held.job"
for s in 0 1 2 3; do
    examples/make-plan "$a" 0 $s 3 >"$work/plan"
    says "A with holds 1 1, 0 $s 3" "refused 11" "$work/held.job" "$work/plan"
done
says "A with holds 1 1, an empty plan" "refused 12" "$work/held.job" /dev/null

# the plans of strips, as its listings give them
for job in examples/*.job; do
    # shellcheck disable=SC2046
    examples/make-plan "$job" $(tail -n 1 "${job%.job}.txt" | cut -d ' ' -f 7-) >"$work/$(basename "$job" .job).plan"
    says "$job: the listing's plan" best "$job" "$work/$(basename "$job" .job).plan"
done

# the plans of plan_job, by each method, of either archive that has it
if command -v cc >/dev/null 2>&1 && [ -f target/staticlib/libplanner.a ] && [ -f target/staticlib/libpelshaqu.a ]; then
    cat >"$work/write.c" <<'CODE'
#include <stdio.h>
#include <stdlib.h>
#include "pelshaqu.h"
int main(int count, char **words) {
    static uint8_t job[INTAKE], plan[PELSHAQU_MAX_PLAN];
    size_t len = fread(job, 1, sizeof job, stdin), machines = 0, front;
    if (count != 2 || plan_job(job, len, (uint32_t)atoi(words[1]), plan, sizeof plan) != 0) return 1;
    front = job[0] == 3;
    while (8 * (front + machines) < len && job[8 * (front + machines)] == 1) machines++;
    return fwrite(plan, 16, machines, stdout) != machines;
}
CODE
    for archive in libplanner libpelshaqu; do
        cc -std=c99 -Iinclude -DINTAKE="$job_intake" -o "$work/write" "$work/write.c" "target/staticlib/$archive.a"
        for job in examples/*.job; do
            # the methods that the listing has: with holds the first three
            for method in $(tail -n +2 "${job%.job}.txt" | cut -d ' ' -f 1); do
                "$work/write" "$method" <"$job" >"$work/plan"
                says "$job: the plan of plan_job by method $method, $archive" best "$job" "$work/plan"
            done
            same "$job: the plan of plan_job is the listing's, $archive" "$work/$(basename "$job" .job).plan" "$work/plan"
        done
    done
else
    echo "tests/grade.sh: SKIPPED the plans of plan_job, for which there is no C compiler or no archive"
fi

# refusals of the job, each beside a plan that is wrong too
: >"$work/empty"
says "an empty job" "refused 7" "$work/empty" "$best"
says "an empty job and an empty plan" "refused 7" "$work/empty" "$work/empty"
says "the null device" "refused 7" /dev/null /dev/null
for length in 1 7 9 33 39; do
    head -c "$length" "$a" >"$work/job"
    says "a job of $length bytes" "refused 2" "$work/job" "$best"
    says "a job of $length bytes, an empty plan" "refused 2" "$work/job" "$work/empty"
done
# refused NUMBER NAME: by what is in $work/job, beside a plan of the right length, an empty one and a longer one
refused() {
    says "$2" "refused $1" "$work/job" "$best"
    says "$2, an empty plan" "refused $1" "$work/job" "$work/empty"
    says "$2, a longer plan" "refused $1" "$work/job" "$a"
}
record 4 1 >"$work/job"
refused 3 "kind 4"
record $((1 + 256)) 1 >"$work/job"
refused 3 "byte 1 of a machine not zero"
for place in 256 65536 16777216; do
    {
        record 1 1
        record $((2 + place)) 1
    } >"$work/job"
    refused 3 "byte 1, 2 or 3 of a tile not zero, $place"
    {
        record $((3 + place)) 1
        record 1 1
    } >"$work/job"
    refused 3 "byte 1, 2 or 3 of start-up work not zero, $place"
done
{
    record 1 1
    record 2 1
    record 1 1
} >"$work/job"
refused 4 "a machine after a tile"
record 3 1 >"$work/job"
refused 7 "start-up work alone"
record 3 1 >>"$work/job"
refused 15 "start-up work twice"
{
    cat "$a"
    record 3 $((startup + 1))
} >"$work/job"
refused 15 "start-up work behind the tiles"
record 3 $((startup + 1)) | cat - "$a" >"$work/job"
refused 16 "start-up work 1,000,001"
{
    record 3 $((startup + 1))
    record 1 0
} >"$work/job"
refused 16 "start-up work 1,000,001 and speed 0"
record 3 "$startup" | cat - "$a" >"$work/job"
says "start-up work 1,000,000, a plan without it" "refused 13" "$work/job" "$best"
record 1 10001 >"$work/job"
refused 5 "speed 10,001"
{
    record 1 1
    record 2 1000001
} >"$work/job"
refused 6 "weight 1,000,001"
record 2 5 >"$work/job"
refused 7 "no machine"

# rows: as many machines as there may be, and more, beside a plan of as many records
for row in $((machines - 1)) "$machines"; do
    records "$row" 1 1 >"$work/job"
    empty_parts "$row" >"$work/plan"
    says "$row machines" best "$work/job" "$work/plan"
    says "$row machines, an empty plan" "refused 12" "$work/job" "$work/empty"
done
for row in $(too_long); do
    records "$row" 1 1 >"$work/job"
    empty_parts "$row" >"$work/plan"
    refused 7 "$row machines"
    says "$row machines and as many records" "refused 7" "$work/job" "$work/plan"
    record 2 1 >>"$work/job"
    refused 7 "$row machines and a tile"
    record 2 1000001 >>"$work/job"
    refused 6 "$row machines and a bad weight"
    {
        records $((row - 1)) 1 1
        record 1 0
    } >"$work/job"
    refused 5 "$row machines, the last speed 0"
done
{
    record 1 1
    records "$tiles" 2 0
} >"$work/job"
fields 0 "$tiles" 0 1 >"$work/plan"
says "$(figure "$tiles") tiles" best "$work/job" "$work/plan"
record 2 0 >>"$work/job"
refused 8 "$(figure $((tiles + 1))) tiles"
{
    records $((machines + 1)) 1 1
    records $((tiles + 1)) 2 0
} >"$work/job"
refused 7 "$((machines + 1)) machines and $(figure $((tiles + 1))) tiles"
{
    records "$machines" 1 1
    records $((tiles + 1)) 2 0
} >"$work/job"
refused 8 "$machines machines and $(figure $((tiles + 1))) tiles"

# refusals of the plan, in their order
# plan NAME LINE VALUE..: a plan of A with these fields
plan() {
    name=$1
    line=$2
    shift 2
    fields "$@" >"$work/plan"
    says "$name" "$line" "$a" "$work/plan"
}
plan "A's best plan, field by field" best 0 1 1 1 1 3 11 3
plan "A's quick plan, field by field" valid 0 2 4 1 2 3 8 3
plan "a gap" "refused 11" 0 1 1 1 2 3 8 3
plan "an overlap" "refused 11" 0 2 4 1 1 3 11 3
plan "another start" "refused 11" 1 1 0 1 1 3 11 3
plan "another end" "refused 11" 0 2 4 1 2 2 0 3
plan "a separator past the end" "refused 11" 0 2 4 1 2 4 8 3
plan "a separator that falls" "refused 11" 0 4 12 1 4 3 0 3
plan "a load of the first record untrue" "refused 13" 0 1 2 1 1 3 11 3
plan "a load of the last record untrue" "refused 13" 0 1 1 1 1 3 10 3
plan "a speed of the first record untrue" "refused 13" 0 1 1 2 1 3 11 3
plan "a speed of the last record untrue" "refused 13" 0 1 1 1 1 3 11 4
plan "loads exchanged" "refused 13" 0 1 11 1 1 3 1 3
plan "a load's highest byte" "refused 13" 0 1 16777217 1 1 3 11 3
plan "an untrue load before a gap" "refused 11" 0 1 9 9 2 3 8 3
plan "one record" "refused 12" 0 3 12 1
plan "three records" "refused 12" 0 1 1 1 1 3 11 3 3 3 0 1
plan "one record with nothing right in it" "refused 12" 9 9 9 9
plan "an untrue load and a field more" "refused 12" 0 1 9 9 2 3 8 3 0
says "an empty plan" "refused 12" "$a" "$work/empty"
for length in 1 15 16 17 31; do
    head -c "$length" "$best" >"$work/plan"
    says "a plan of $length bytes" "refused 12" "$a" "$work/plan"
done

# longer plans: a byte, a record, up to the end of what is taken in, past it, far past it
size=$(wc -c <"$best")
for more in 1 2 15 16 17 $((longest_plan - size - 1)) $((longest_plan - size)) $((longest_plan - size + 1)) \
    $((plan_intake - size - 1)) $((plan_intake - size)) $((plan_intake - size + 1)) $((plan_intake - size + 2)) 4096 100000 1000000; do
    {
        cat "$best"
        head -c "$more" /dev/zero
    } >"$work/plan"
    says "a plan and $more bytes more" "refused 12" "$a" "$work/plan"
done
long=$work/large2.plan
equal "large2: its bytes" "$longest_first" "$(wc -c <examples/large2.job | tr -d ' ')"
make_longest
equal "the longest job: its bytes" "$longest_job" "$(wc -c <"$work/longest" | tr -d ' ')"
says "the longest job, without start-up work: the plan of large2" best "$work/longest" "$long"
equal "large2: the bytes of its plan" "$longest_plan" "$(wc -c <"$long" | tr -d ' ')"
for more in 1 8 15 16 17 32 100000; do
    {
        cat "$long"
        head -c "$more" /dev/zero
    } >"$work/plan"
    says "the longest plan and $more bytes more" "refused 12" examples/large2.job "$work/plan"
done
for less in 1 16 17 $((longest_plan - 1)); do
    head -c "$((longest_plan - less))" "$long" >"$work/plan"
    says "the longest plan less $less bytes" "refused 12" examples/large2.job "$work/plan"
done
{
    head -c $((longest_plan - 1)) "$long"
    printf '\177'
} >"$work/plan"
says "the longest plan, its last byte changed" "refused 13" examples/large2.job "$work/plan"
{
    head -c $((longest_plan - 16)) "$long"
    printf '\377'
    tail -c 15 "$long"
} >"$work/plan"
says "the longest plan, a gap before its last record" "refused 11" examples/large2.job "$work/plan"

# longer jobs
records 2 2 1 >"$work/tail"
for more in 1 4 7 8 9 15 16; do
    {
        cat "$work/longest"
        head -c "$more" "$work/tail"
    } >"$work/job"
    says "a job of $(figure $((longest_job + more))) bytes" "refused $([ "$more" -lt 8 ] && echo 2 || echo 8)" "$work/job" "$long"
done
around_intake
{
    cat "$work/longest"
    head -c 300000 /dev/zero
} >"$work/job"
says "zeros behind the longest job" "refused 3" "$work/job" "$long"
records $((job_intake / 8 + 1)) 1 1 >"$work/job"
says "$(figure $((job_intake / 8 + 1))) machines" "refused 7" "$work/job" "$long"

# pipes as files
printf 'best\n' >"$work/wanted"
cat "$a" | "$program" /dev/stdin "$best" >"$work/got"
same "the job by a pipe" "$work/wanted" "$work/got"
cat "$best" | "$program" "$a" /dev/stdin >"$work/got"
same "the plan by a pipe" "$work/wanted" "$work/got"

# in_pieces FILE SIZE..: writes the file in pieces, with a pause after each, then the rest
in_pieces() {
    file=$1
    shift
    at=1
    for size; do
        tail -c "+$at" "$file" | head -c "$size"
        at=$((at + size))
        sleep 0.02
    done
    tail -c "+$at" "$file"
}
mkfifo "$work/jobs" "$work/plans"

# piped NAME LINE: the program on two pipes, which the writers whose ids are in $writers fill; it is not to wait for writers that stay
piped() {
    begun=$(date +%s)
    "$program" "$work/jobs" "$work/plans" >"$work/got" 2>"$work/said" </dev/null || :
    took=$(($(date +%s) - begun))
    # shellcheck disable=SC2086
    kill $writers 2>/dev/null || :
    printf '%s\n' "$2" >"$work/wanted"
    same "$1" "$work/wanted" "$work/got"
    equal "$1: in time" yes "$([ "$took" -lt 6 ] && echo yes || echo "$took s")"
}
in_pieces "$a" 1 3 7 9 11 >"$work/jobs" &
writers=$!
in_pieces "$best" 1 1 1 1 3 9 1 >"$work/plans" &
writers="$writers $!"
piped "both by pipes, in pieces" best
in_pieces "$work/longest" 4096 8000 1 >"$work/jobs" &
writers=$!
in_pieces "$long" 5 2000 1 16 >"$work/plans" &
writers="$writers $!"
piped "the longest by pipes, in pieces" best
{
    in_pieces "$work/longest" $((longest_job - 1))
    sleep 0.02
    head -c 8 "$work/tail"
    exec sleep 8
} >"$work/jobs" 2>/dev/null &
writers=$!
cat "$long" >"$work/plans" &
writers="$writers $!"
piped "a writer of the job that has given enough and does not close" "refused 8"
cat "$a" >"$work/jobs" &
writers=$!
{
    in_pieces "$best" 20
    sleep 0.02
    head -c $((plan_intake - size)) /dev/zero
    exec sleep 8
} >"$work/plans" 2>/dev/null &
writers="$writers $!"
piped "a writer of the plan that has given enough and does not close" "refused 12"
{
    cat "$best"
    printf 'x'
} >"$work/plans" &
writers=$!
cat "$a" >"$work/jobs" &
writers="$writers $!"
piped "a plan by a pipe, one byte too long" "refused 12"

# names
cp "$a" "$work/a job, früh"
cp "$best" "$work/ a  plan"
says "names with spaces" best "$work/a job, früh" "$work/ a  plan"
# longer LENGTH FILE: a name of the file with so many bytes
longer() {
    awk -v n="$1" -v name="$2" 'BEGIN { s = "./" name; if ((n - length(s)) % 2) s = ".//" name
        while (length(s) < n) s = "./" s
        print s }'
}
says "a name of 1,000 bytes" best "$(longer 1000 "$a")" "$(longer 1001 "$best")"
says "a name of 4,095 bytes" best "$(longer 4095 "$a")" "$(longer 4095 "$best")"
for length in 4096 4097 5000 70000; do
    silent "a job's name of $length bytes" "$(longer "$length" "$a")" "$best"
    silent "a plan's name of $length bytes" "$a" "$(longer "$length" "$best")"
done

# files that are not there or cannot be read, and wrong usage
silent "no such job" "$work/none" "$best"
silent "no such plan" "$a" "$work/none"
silent "a folder as the job" examples "$best"
silent "a folder as the plan" "$a" examples
silent "a job within a file" "$a/x" "$best"
silent "an empty name for the job" "" "$best"
silent "an empty name for the plan" "$a" ""
silent "no argument"
silent "one argument" "$a"
silent "three arguments" "$a" "$best" "$best"
silent "an empty third argument" "$a" "$best" ""
# A job that is refused, beside a plan that is not there: there is nothing to judge.
silent "a bad job and no such plan" "$work/empty" "$work/none"
cp "$a" "$work/closed.job"
cp "$best" "$work/closed.plan"
chmod 000 "$work/closed.job" "$work/closed.plan"
closed=yes
if [ -r "$work/closed.job" ]; then
    echo "tests/grade.sh: SKIPPED files that may not be read, since this user may read all"
    closed=
else
    silent "a job that may not be read" "$work/closed.job" "$best"
    silent "a plan that may not be read" "$a" "$work/closed.plan"
fi

# standard input and output that are not there
printf 'best\n' >"$work/wanted"
"$program" "$a" "$best" >"$work/got" <&-
same "standard input closed" "$work/wanted" "$work/got"
if [ -w /dev/full ]; then
    "$program" "$a" "$best" >/dev/full 2>"$work/said" || :
    equal "a full device: said so" "grade: " "$(begins)"
else
    echo "tests/grade.sh: SKIPPED a full device, which is not here"
fi
cp "$a" "$work/job"
cp "$best" "$work/plan"
"$program" "$work/job" "$work/plan" >&- 2>"$work/said" || :
equal "standard output closed: said so" "grade: " "$(begins)"
same "standard output closed: the job stays" "$a" "$work/job"
same "standard output closed: the plan stays" "$best" "$work/plan"

# the script: what it writes, and its exit status
# status NAME STATUS COMMAND..
status() {
    name=$1
    wanted=$2
    shift 2
    got=0
    "$@" >"$work/out" 2>"$work/said" </dev/null || got=$?
    equal "script, $name" "$wanted" "$got"
}
# graded NAME LINE STATUS COMMAND..
graded() {
    line=$2
    status "$1" "$3" "$4" "$5" "$6"
    equal "script, $1: line" "$line" "$(cat "$work/out")"
    equal "script, $1: standard error" "" "$(cat "$work/said")"
}
# wrong NAME COMMAND..: exit status 2, nothing on standard output, a message
wrong() {
    name=$1
    shift
    status "$name" 2 "$@"
    equal "script, $name: nothing on standard output" "" "$(cat "$work/out")"
    equal "script, $name: said so" "grade: " "$(begins)"
}
graded "a best plan" best 0 ./grade "$a" "$best"
graded "a valid plan" valid 0 ./grade "$a" examples/A-valid.plan
graded "an untrue plan" "refused 13" 1 ./grade "$a" examples/A-untrue.plan
graded "a gap" "refused 11" 1 ./grade examples/B.job "$best"
graded "an empty plan" "refused 12" 1 ./grade "$a" "$work/empty"
graded "an empty job" "refused 7" 1 ./grade "$work/empty" "$best"
graded "names with spaces" best 0 ./grade "$work/a job, früh" "$work/ a  plan"
got=$(cd examples && ../grade A.job A-valid.plan) || got="status $?"
equal "script, from another folder" valid "$got"
got=$(cat "$best" | ./grade "$a" /dev/stdin) || got="status $?"
equal "script, the plan by a pipe" best "$got"
status "--help" 0 ./grade --help
equal "script, --help: first line" "usage: ./grade JOB PLAN" "$(head -n 1 "$work/out")"
equal "script, --help: standard error" "" "$(cat "$work/said")"
for number in 2 3 4 5 6 7 8 11 12 13 15 16; do
    equal "script, --help: refusal $number" 1 "$(grep -c "^ *$number " "$work/out")"
done
status "--version" 0 ./grade --version
equal "script, --version: its line" "grade (pelshaqu) $(cat VERSION), commit " "$(sed 's/commit .*/commit /' "$work/out")"
wrong "no argument" ./grade
wrong "one argument" ./grade "$a"
wrong "three arguments" ./grade "$a" "$best" "$best"
wrong "an unknown option" ./grade --fast "$a" "$best"
wrong "an empty name" ./grade "" "$best"
wrong "an empty name for the plan" ./grade "$a" ""
wrong "no such job" ./grade "$work/none" "$best"
wrong "no such plan" ./grade "$a" "$work/none"
wrong "a folder as the job" ./grade examples "$best"
wrong "a folder as the plan" ./grade "$a" examples
wrong "a name of 5,000 bytes" ./grade "$(longer 5000 "$a")" "$best"
if [ -n "$closed" ]; then
    wrong "a job that may not be read" ./grade "$work/closed.job" "$best"
    wrong "a plan that may not be read" ./grade "$a" "$work/closed.plan"
fi
got=$(./grade -- "$a" "$best") || got="status $?"
equal "script, behind --" best "$got"
for odd in "$(printf '\377 job')" '&1' -; do
    cp "$a" "$work/$odd"
    got=$(cd "$work" && "$OLDPWD/grade" "$odd" "$OLDPWD/$best") || got="status $?"
    equal "script, a file with the name '$odd'" best "$got"
done
# A copy whose program cannot be built, and one whose program says nothing, or something else.
mkdir -p "$work/root/crates/grade" "$work/root/bin" "$work/root/target/bin"
cp -r grade scripts crates.txt "$work/root/"
printf '#!/bin/sh\necho "no proof"\nexit 1\n' >"$work/root/bin/rt"
chmod +x "$work/root/bin/rt"
status "a build that fails" 3 env PATH="$work/root/bin:$PATH" "$work/root/grade" "$a" "$best"
equal "script, a build that fails: nothing on standard output" "" "$(cat "$work/out")"
equal "script, a build that fails: said so" 1 "$(grep -c 'no proof' "$work/said")"
for word in '' good 'best best'; do
    printf '#!/bin/sh\necho "%s"\n' "$word" >"$work/root/target/bin/grade"
    chmod +x "$work/root/target/bin/grade"
    status "a program that says '$word'" 3 "$work/root/grade" "$a" "$best"
    equal "script, a program that says '$word': nothing on standard output" "" "$(cat "$work/out")"
    equal "script, a program that says '$word': said so" "grade: " "$(begins)"
done
if [ -w /dev/full ]; then
    got=0
    ./grade "$a" "$best" >/dev/full 2>/dev/null || got=$?
    equal "script, a full device" 3 "$got"
fi

# What the pages show is what the script says, and how much they say is read is what is.
shown=0
for page in README.md docs/grade.1; do
    # A command, './grade JOB PLAN' or without './' as it is installed, and the line under it.
    sed -n 's/^[ $]*\(\.\/\)\{0,1\}grade examples/examples/;/^examples.*plan$/{N;s/\n *\([^ ]\)/ says \1/p;}' "$page" >"$work/shown"
    while read -r job plan says line; do
        [ "$says" = says ] || continue
        got=$(./grade "$job" "$plan") || :
        equal "$page, $job $plan" "$line" "$got"
        shown=$((shown + 1))
    done <"$work/shown"
done
equal "grades that the pages show" 5 "$shown"
taken="$(figure "$job_intake") $(figure "$plan_intake")"
equal "how much is read, ./grade --help" "$taken" "$(./grade --help | tr '\n' ' ' | sed -n 's/.*at most \([0-9,]*\) bytes are read and of the plan at most \([0-9,]*\),.*/\1 \2/p')"
equal "how much is read, docs/grade.1" "$taken" "$(tr '\n' ' ' <docs/grade.1 | sed -n 's/.*at most \([0-9,]*\) bytes are read and of the plan at most \([0-9,]*\),.*/\1 \2/p')"
equal "how much is read, docs/REFUSALS.md" "$taken" "$(tr '\n' ' ' <docs/REFUSALS.md | sed -n 's/.*take in at most \([0-9,]*\) bytes,.*takes in at most \([0-9,]*\) bytes.*/\1 \2/p')"

if [ "$failed" -ne 0 ]; then
    echo "tests/grade.sh: $failed of $((passed + failed)) checks failed" >&2
    exit 1
fi
echo "tests/grade.sh: $passed checks passed"

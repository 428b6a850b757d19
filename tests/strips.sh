#!/bin/sh
# Runs the program `strips`, which a check has built, and the script ./strips, and compares what they write.
# STRIPS_PROGRAM: another program in its place, by which tests/faults tries faulty ones.
set -eu
cd "$(dirname "$0")/.."
program=${STRIPS_PROGRAM-target/bin/strips}
[ -x "$program" ] || {
    echo "tests/strips.sh: no $program; run 'sh scripts/build.sh strips' first" >&2
    exit 1
}
work=$(mktemp -d)
trap 'rm -rf "$work"' EXIT
passed=0
failed=0

. tests/common

# gives NAME LINE: the program answers the line to what is in $work/job
gives() {
    printf '%s\n' "$2" >"$work/wanted"
    "$program" <"$work/job" >"$work/got"
    same "$1" "$work/wanted" "$work/got"
}

# first NAME LINE: the listing of what is in $work/job begins with the line
first() {
    equal "$1" "$2" "$("$program" <"$work/job" | head -n 1)"
}

# judged NAME LINE
judged() {
    gives "$1" "$2"
}

# the longest example is the longest job of the first edition that there may be; in the second it has a record more
equal "large2: its bytes" "$longest_first" "$(wc -c <examples/large2.job | tr -d ' ')"
equal "large2: its tiles and machines" "tiles $tiles machines $machines" \
    "$("$program" <examples/large2.job | head -n 1 | cut -d ' ' -f 1-4)"
make_longest
equal "the longest job: its bytes" "$longest_job" "$(wc -c <"$work/longest" | tr -d ' ')"
"$program" <"$work/longest" >"$work/got"
same "the longest job, without start-up work: the listing of large2" examples/large2.txt "$work/got"

# every example, whole, by a pipe, and in pieces that end within a record
for job in examples/*.job; do
    "$program" <"$job" >"$work/got"
    same "$job" "${job%.job}.txt" "$work/got"
    cat "$job" | "$program" >"$work/got"
    same "$job by a pipe" "${job%.job}.txt" "$work/got"
    {
        head -c 3 "$job"
        sleep 0.1
        tail -c +4 "$job" | head -c 1000
        sleep 0.1
        tail -c +1004 "$job" | head -c 9999
        sleep 0.1
        tail -c +11003 "$job"
    } | "$program" >"$work/got"
    same "$job in pieces" "${job%.job}.txt" "$work/got"
done

# byte by byte
{
    i=1
    while [ "$i" -le 40 ]; do
        tail -c "+$i" examples/A.job | head -c 1
        sleep 0.01
        i=$((i + 1))
    done
} | "$program" >"$work/got"
same "A byte by byte" examples/A.txt "$work/got"

# refusals
: >"$work/job"
gives "empty file" "refused 7"
: | "$program" >"$work/got"
echo "refused 7" >"$work/wanted"
same "empty pipe" "$work/wanted" "$work/got"
for length in 1 2 3 4 5 6 7 9 33 39; do
    head -c "$length" examples/A.job >"$work/job"
    gives "$length bytes" "refused 2"
done
record 4 1 >"$work/job"
gives "kind 4" "refused 3"
record 0 1 >"$work/job"
gives "kind 0" "refused 3"
# damaged KIND PLACE BYTE: a record with another byte
damaged() {
    record "$1" 1 | head -c "$2"
    printf "$3"
    record "$1" 1 | tail -c "+$(($2 + 2))"
}
for byte in '\001' '\200' '\377'; do
    damaged 1 1 "$byte" >"$work/job"
    gives "byte 1 of a machine is $byte" "refused 3"
    for place in 1 2 3; do
        {
            damaged 3 "$place" "$byte"
            cat examples/A.job
        } >"$work/job"
        gives "byte $place of the start-up work is $byte" "refused 3"
        for tile in 2 3 4; do
            {
                head -c $((8 * tile)) examples/A.job
                damaged 2 "$place" "$byte"
                tail -c "+$((8 * tile + 9))" examples/A.job
            } >"$work/job"
            gives "byte $place of tile $((tile - 1)) of A is $byte" "refused 3"
        done
    done
done
{
    record 1 1
    record 2 1
    record 1 1
} >"$work/job"
gives "machine after tile" "refused 4"
record 1 0 >"$work/job"
gives "speed 0" "refused 5"
record 1 10001 >"$work/job"
gives "speed 10,001" "refused 5"
record 1 10000 >"$work/job"
first "speed 10,000" "tiles 0 machines 1 total 0"
{
    record 1 1
    record 2 1000001
} >"$work/job"
gives "weight 1,000,001" "refused 6"
record 2 5 >"$work/job"
gives "no machine" "refused 7"

# the second edition
record 3 1 >"$work/job"
gives "start-up work alone" "refused 7"
record 3 $((startup + 1)) >"$work/job"
gives "start-up work 1,000,001" "refused 16"
record 1 0 >>"$work/job"
gives "start-up work 1,000,001 and speed 0" "refused 16"
{
    record 3 "$startup"
    record 1 1
} >"$work/job"
first "start-up work 1,000,000" "tiles 0 machines 1 total 0"
for last in 0 1 "$startup" $((startup + 1)); do
    {
        cat examples/A.job
        record 3 "$last"
    } >"$work/job"
    gives "start-up work $last behind the tiles" "refused 15"
    {
        record 1 1
        record 3 "$last"
        record 1 0
    } >"$work/job"
    gives "start-up work $last behind a machine" "refused 15"
    {
        record 3 1
        record 3 "$last"
        record 1 1
    } >"$work/job"
    gives "start-up work twice, then $last" "refused 15"
done
# with start-up work 0 the listing is that of the first edition, but for bidding's allowance on one machine
for job in examples/[A-E].job examples/large1.job; do
    record 3 0 | cat - "$job" >"$work/job"
    "$program" <"$work/job" >"$work/got"
    same "$job with start-up work 0" "${job%.job}.txt" "$work/got"
done
examples/make-job startup 0 5 : 4 0 3 >"$work/job"
printf '%s\n' "tiles 3 machines 1 total 7" "1 0 0 7 5 0 0 3" "2 1 2 7 5 0 0 3" "3 1 6 7 5 0 0 3" "4 0 0 7 5 0 0 3" >"$work/wanted"
"$program" <"$work/job" >"$work/got"
same "one machine with start-up work 0" "$work/wanted" "$work/got"
examples/make-job startup 2 5 : 4 0 3 >"$work/job"
printf '%s\n' "tiles 3 machines 1 total 7" "1 0 0 9 5 286 0 3" "2 2 2 9 5 286 0 3" "3 1 6 9 5 286 0 3" "4 0 0 9 5 286 0 3" >"$work/wanted"
"$program" <"$work/job" >"$work/got"
same "one machine with start-up work 2" "$work/wanted" "$work/got"

# holds: the jobs of the scope's section 18, each with the listing that its table gives
awk -F ' *[|] *' '/^## / { inside = /^## 18 / }
    inside && $2 ~ /^[A-Z]$/ { print $2 "|" ($6 == "none" ? "" : "startup " $6 " ") $4 " holds " $5 " : " ($3 == "none" ? "" : $3) "|" $7 "|" $8 "|" $9 "|" $10 "|" $11 }' \
    docs/SCOPE.md >"$work/rows"
equal "docs/SCOPE.md, section 18: the jobs of its table" "R S T U V W X Y" "$(cut -d '|' -f 1 "$work/rows" | tr '\n' ' ' | sed 's/ $//')"
while IFS='|' read -r name words separators bottleneck imbalance counts allowances; do
    # shellcheck disable=SC2086
    examples/make-job $words >"$work/job"
    printf '%s\n' "$words" | awk -v s="$separators" -v b="$bottleneck" -v i="$imbalance" -v counts="$counts" -v allowances="$allowances" '
        { weights = $0; sub(/.*:/, "", weights); n = split(weights, w, " "); for (k = 1; k <= n; k++) total += w[k]
          machines = split(s, none, " ") - 1; sub(/\//, " ", b); methods = split(counts, c, ", "); split(allowances, a, ", ")
          printf "tiles %d machines %d total %d\n", n, machines, total
          for (m = 1; m <= methods; m++) print m, c[m], a[m], b, i, s }' >"$work/listing"
    "$program" <"$work/job" >"$work/got"
    same "job $name of the scope" "$work/listing" "$work/got"
    equal "job $name of the scope: its lines" 4 "$(wc -l <"$work/got" | tr -d ' ')"
done <"$work/rows"

# lists NAME LINE WORD..: the listing of the job that make-job makes of the words, which has holds, begins with the line, and then has a line
# of each of the first three methods; or it is a refusal, the line alone
lists() {
    name=$1
    line=$2
    shift 2
    examples/make-job "$@" >"$work/job"
    "$program" <"$work/job" >"$work/lines"
    case $line in
    refused*) methods= ;;
    *) methods='1 2 3 ' ;;
    esac
    equal "$name" "$line, $methods" "$(head -n 1 "$work/lines"), $(tail -n +2 "$work/lines" | cut -d ' ' -f 1 | tr '\n' ' ')"
}
# holds that add up to just enough, to just too little, and with one machine without a limit
lists "holds that add up to N" "tiles 3 machines 2 total 15" 3 1 holds 1 2 : 2 9 4
lists "holds that add up to N - 1" "refused 17" 3 1 holds 1 1 : 2 9 4
lists "holds that add up to N - 1, the other way round" "refused 17" 3 1 holds 2 1 : 2 9 4 1
lists "one limit of two" "tiles 3 machines 2 total 15" 3 1 holds 1 0 : 2 9 4
lists "the other limit of two" "tiles 3 machines 2 total 15" 3 1 holds 0 1 : 2 9 4
lists "hold 1 and a tile" "tiles 1 machines 1 total 7" 5 holds 1 : 7
lists "hold 1 and two tiles" "refused 17" 5 holds 1 : 7 7
lists "hold 1 and two tiles of weight 0" "refused 17" 5 holds 1 : 0 0
lists "hold 1 and no tiles" "tiles 0 machines 1 total 0" 5 holds 1 :
lists "start-up work and holds that add up to N" "tiles 3 machines 2 total 9" startup 3 1 4 holds 1 2 : 1 4 4
lists "start-up work and holds that add up to N - 1" "refused 17" startup 3 1 4 holds 1 1 : 1 4 4
lists "three holds that add up to N - 1" "refused 17" 1 1 5 holds 1 1 2 : 1 1 1 1 1
lists "holds whose sum has 17 bits, 0 in the lower 16" "tiles 2 machines 2 total 3" 1 1 holds 32768 32768 : 1 2
lists "the greatest hold" "tiles 2 machines 1 total 3" 1 holds 65535 : 1 2
for job in "A 1 3 holds 0 0 : 1 3 8" "C 7 2 holds 0 0 :" "N startup 3 1 4 holds 0 0 : 1 4 4"; do
    # shellcheck disable=SC2086
    examples/make-job ${job#* } >"$work/job"
    "$program" <"$work/job" >"$work/got"
    same "${job%% *} with holds that are all 0" "examples/${job%% *}.txt" "$work/got"
done
# both bytes of a hold: 257 tiles on machines that hold 1 and 256, 256 and 1, 0x0100 and 0x0001
# shellcheck disable=SC2046
set -- $(awk 'BEGIN { for (i = 0; i < 257; i++) print 1 }')
lists "holds 1 and 256" "tiles 257 machines 2 total 257" 1 1 holds 1 256 : "$@"
equal "holds 1 and 256: the only division" "0 1 257" "$(tail -n 1 "$work/lines" | cut -d ' ' -f 7-)"
lists "holds 256 and 1" "tiles 257 machines 2 total 257" 1 1 holds 256 1 : "$@"
equal "holds 256 and 1: the only division" "0 256 257" "$(tail -n 1 "$work/lines" | cut -d ' ' -f 7-)"
lists "holds 1 and 256, and a tile more" "refused 17" 1 1 holds 1 256 : "$@" 1
lists "holds 255 and 1" "refused 17" 1 1 holds 255 1 : "$@"
# the hold's place: each machine of C in turn, by each of its two bytes
for place in 2 3; do
    for at in 0 1; do
        {
            head -c $((8 * at + place)) examples/C.job
            printf '\001'
            tail -c "+$((8 * at + place + 2))" examples/C.job
        } >"$work/job"
        printf '%s\n' "tiles 0 machines 2 total 0" "1 0 0 0 7 0 0 0 0" "2 1 1 0 7 0 0 0 0" "3 1 1 0 7 0 0 0 0" >"$work/wanted"
        "$program" <"$work/job" >"$work/got"
        same "C with 1 in byte $place of machine $((at + 1))" "$work/wanted" "$work/got"
    done
done
# 17 behind every test of the file
{
    machine 1 1
    record 2 1
    record 2 1000001
} >"$work/job"
gives "hold 1 and two tiles, the second too heavy" "refused 6"
{
    machine 1 1
    record 2 1
    record $((2 + 256)) 1
} >"$work/job"
gives "hold 1 and two tiles, byte 1 of the second not zero" "refused 3"
{
    machine 1 1
    record 2 1
    machine 1 1
} >"$work/job"
gives "hold 1, a tile, and a machine" "refused 4"
{
    machine 1 1
    record 2 1
    record 3 1
} >"$work/job"
gives "hold 1, a tile, and start-up work" "refused 15"
{
    machine 1 0
    records 2 2 1
} >"$work/job"
gives "hold 1, speed 0 and two tiles" "refused 5"
{
    record 3 $((startup + 1))
    machine 1 1
    records 2 2 1
} >"$work/job"
gives "hold 1, two tiles and start-up work 1,000,001" "refused 16"
{
    machine 1 1
    records 2 2 1
    printf '\002'
} >"$work/job"
gives "hold 1, two tiles and a byte" "refused 2"
{
    records $((machines + 1)) "$(held 1)" 1
    records $((machines + 2)) 2 1
} >"$work/job"
gives "$((machines + 1)) machines with hold 1 and a tile too many" "refused 7"
{
    machine 1 1
    records $((tiles + 1)) 2 0
} >"$work/job"
gives "hold 1 and $(figure $((tiles + 1))) tiles" "refused 8"
# the longest row and the most tiles, with holds that add up to enough and to one less
{
    records $((machines - 1)) "$(held 1)" 1
    machine $((tiles - machines + 1)) 1
    records "$tiles" 2 0
} >"$work/job"
first "the most machines and tiles, holds that add up to N" "tiles $tiles machines $machines total 0"
{
    records $((machines - 1)) "$(held 1)" 1
    machine $((tiles - machines)) 1
    records "$tiles" 2 0
} >"$work/job"
gives "the most machines and tiles, holds that add up to N - 1" "refused 17"
{
    records "$machines" "$(held 65535)" 1
    records "$tiles" 2 0
} >"$work/job"
first "the most machines and tiles, the greatest holds" "tiles $tiles machines $machines total 0"
# the longest job with the greatest hold on each machine: the plan of large2, by three methods
{
    record 3 0
    od -An -v -tu1 -w8 examples/large2.job | awk '$1 == 1 { $3 = $4 = 255 } { for (i = 1; i <= 8; i++) printf "\\%03o", $i }' >"$work/escaped"
    printf "$(cat "$work/escaped")"
} >"$work/job"
equal "large2 with the greatest holds: its bytes" "$longest_job" "$(wc -c <"$work/job" | tr -d ' ')"
"$program" <"$work/job" >"$work/got"
equal "large2 with the greatest holds: methods, bottleneck, imbalance, separators" \
    "$(sed -n '2,4p' examples/large2.txt | cut -d ' ' -f 1,4-)" "$(tail -n +2 "$work/got" | cut -d ' ' -f 1,4-)"

# rows: as many machines as there may be, and more
for row in $((machines - 1)) "$machines"; do
    records "$row" 1 1 >"$work/job"
    first "$row machines" "tiles 0 machines $row total 0"
done
for row in $(too_long); do
    records "$row" 1 1 >"$work/job"
    gives "$row machines" "refused 7"
    record 2 1 >>"$work/job"
    gives "$row machines and a tile" "refused 7"
    record 2 1000001 >>"$work/job"
    gives "$row machines and a bad weight" "refused 6"
    {
        records $((row - 1)) 1 1
        record 1 0
    } >"$work/job"
    gives "$row machines, the last speed 0" "refused 5"
done
{
    record 1 1
    records "$tiles" 2 0
} >"$work/job"
first "$(figure "$tiles") tiles" "tiles $tiles machines 1 total 0"
record 2 0 >>"$work/job"
gives "$(figure $((tiles + 1))) tiles" "refused 8"
{
    records $((machines + 1)) 1 1
    records $((tiles + 1)) 2 0
} >"$work/job"
gives "$((machines + 1)) machines and $(figure $((tiles + 1))) tiles" "refused 7"
{
    records "$machines" 1 1
    records $((tiles + 1)) 2 0
} >"$work/job"
gives "$machines machines and $(figure $((tiles + 1))) tiles" "refused 8"

# around the end of what is taken in
records 4 2 1 >"$work/tail"
for more in 1 2 3 4 5 6 7; do
    {
        cat "$work/longest"
        head -c "$more" "$work/tail"
    } >"$work/job"
    gives "$(figure $((longest_job + more))) bytes" "refused 2"
done
for more in 8 9 15 16; do
    {
        cat "$work/longest"
        head -c "$more" "$work/tail"
    } >"$work/job"
    gives "$(figure $((longest_job + more))) bytes" "refused 8"
done
# of the first edition, whose longest job is a record shorter
for more in 1 7 8 9 15 16 17 24; do
    {
        cat examples/large2.job
        head -c "$more" "$work/tail"
    } >"$work/job"
    gives "$(figure $((longest_first + more))) bytes of the first edition" "refused $(case $more in 8 | 16 | 17 | 24) echo 8 ;; *) echo 2 ;; esac)"
done
around_intake
for more in 1 4 7; do
    {
        cat "$work/row"
        record 1 1
        record 1 1 | head -c "$more"
    } >"$work/job"
    gives "$(figure $((job_intake + more))) bytes of machines" "refused 7"
done
{
    cat "$work/longest"
    head -c 100000 /dev/zero
} >"$work/job"
gives "zeros behind the longest job" "refused 3"
{
    records $((job_intake / 8)) 1 1
    head -c 300000 /dev/zero
} >"$work/job"
gives "a longer file, $(figure $((job_intake / 8))) machines" "refused 7"
{
    {
        cat "$work/longest"
        sleep 0.1
        head -c 4 "$work/tail"
        sleep 0.1
        tail -c +5 "$work/tail"
        head -c 300000 /dev/zero
    } 2>/dev/null || :
} | "$program" >"$work/got"
echo "refused 8" >"$work/wanted"
same "a longer file in pieces" "$work/wanted" "$work/got"

# nothing at all: from the null device, and from a pipe that is left open for a moment
echo "refused 7" >"$work/wanted"
"$program" </dev/null >"$work/got"
same "the null device" "$work/wanted" "$work/got"
sleep 0.3 | "$program" >"$work/got"
same "a pipe that gives nothing and closes late" "$work/wanted" "$work/got"

# pauses at a record's end, within a record, and at each byte around the end of what is taken in
{
    head -c $((longest_job - 8)) "$work/longest"
    sleep 0.1
    tail -c 8 "$work/longest"
    sleep 0.1
} | "$program" >"$work/got"
same "a pause before the last record and after it" examples/large2.txt "$work/got"
{
    head -c $((longest_job - 4)) "$work/longest"
    tail -c 4 "$work/longest" >"$work/rest"
    for i in 1 2 3 4; do
        sleep 0.02
        tail -c "+$i" "$work/rest" | head -c 1
    done
} | "$program" >"$work/got"
same "the last bytes one by one" examples/large2.txt "$work/got"

# a writer that has given more than is taken in and does not close: the answer comes all the same
mkfifo "$work/pipe"
{
    cat "$work/longest"
    head -c 8 "$work/tail"
    exec sleep 5
} >"$work/pipe" 2>/dev/null &
writer=$!
begun=$(date +%s)
"$program" <"$work/pipe" >"$work/got"
took=$(($(date +%s) - begun))
kill "$writer" 2>/dev/null || :
echo "refused 8" >"$work/wanted"
same "a writer that does not close" "$work/wanted" "$work/got"
equal "a writer that does not close: not waited for" yes "$([ "$took" -lt 4 ] && echo yes || echo "$took s")"

# output that cannot be written: a word on standard error
if [ -w /dev/full ]; then
    "$program" <examples/A.job >/dev/full 2>"$work/said" || :
    echo "strips: the listing cannot be written" >"$work/wanted"
    same "a full device: said so" "$work/wanted" "$work/said"
else
    echo "tests/strips.sh: SKIPPED a full device, which is not here"
fi
"$program" <&- >"$work/got" 2>"$work/said" || :
: >"$work/wanted"
same "standard input closed: nothing is listed" "$work/wanted" "$work/got"
echo "strips: standard input cannot be read" >"$work/wanted"
same "standard input closed: said so" "$work/wanted" "$work/said"

# input that cannot be read: nothing on standard output, a word on standard error
"$program" <. >"$work/got" 2>"$work/said" || :
: >"$work/wanted"
same "a directory: nothing is listed" "$work/wanted" "$work/got"
echo "strips: standard input cannot be read" >"$work/wanted"
same "a directory: said so" "$work/wanted" "$work/said"

# the script: what it writes, and its exit status
# status NAME STATUS COMMAND..
status() {
    name=$1
    wanted=$2
    shift 2
    got=0
    "$@" >"$work/out" 2>"$work/err" </dev/null || got=$?
    equal "$name" "$wanted" "$got"
}
status "script, a file" 0 ./strips examples/B.job
same "script, a file: listing" examples/B.txt "$work/out"
got=0
./strips <examples/B.job >"$work/out" || got=$?
equal "script, standard input" 0 "$got"
same "script, standard input: listing" examples/B.txt "$work/out"
(cd examples && ../strips -- C.job) >"$work/out"
same "script, from another folder" examples/C.txt "$work/out"
cp examples/D.job "$work/a job"
status "script, a name with a space" 0 ./strips "$work/a job"
same "script, a name with a space: listing" examples/D.txt "$work/out"
status "script, a refusal" 1 ./strips -
equal "script, a refusal: line" "refused 7" "$(cat "$work/out")"
status "script, --help" 0 ./strips --help
equal "script, --help: first line" "usage: ./strips [FILE]" "$(head -n 1 "$work/out")"
status "script, --version" 0 ./strips --version
equal "script, --version: its line" "strips (pelshaqu) $(cat VERSION), commit " "$(sed 's/commit .*/commit /' "$work/out")"
status "script, no such file" 2 ./strips "$work/none"
equal "script, no such file: said so" "strips: $work/none: no such file" "$(cat "$work/err")"
equal "script, no such file: nothing listed" "" "$(cat "$work/out")"
status "script, a directory" 2 ./strips examples
status "script, two files" 2 ./strips examples/A.job examples/B.job
status "script, unknown option" 2 ./strips --fast

if [ "$failed" -ne 0 ]; then
    echo "tests/strips.sh: $failed of $((passed + failed)) checks failed" >&2
    exit 1
fi
echo "tests/strips.sh: $passed checks passed"

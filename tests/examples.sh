#!/bin/sh
# examples/make-job writes the example jobs and examples/make-plan the example plans, and nothing where their words are no job's numbers
# or no division.
set -eu
cd "$(dirname "$0")/.."
work=$(mktemp -d)
trap 'rm -rf "$work"' EXIT
checks=0

fail() {
    echo "tests/examples.sh: $1" >&2
    exit 1
}

# gives COMMAND NAME WORD..: with the words the command gives the file's bytes
gives() {
    command=$1
    name=$2
    shift 2
    "$command" "$@" >"$work/made" || fail "$name: refused"
    cmp -s "$work/made" "$name" || fail "$name: other bytes"
    checks=$((checks + 1))
}

# makes NAME WORD..: the words give the example's bytes
makes() {
    name=$1
    shift
    gives examples/make-job "examples/$name.job" "$@"
}

# plans NAME JOB WORD..: the words give the plan's bytes
plans() {
    gives examples/make-plan "$@"
}

# stops COMMAND WORD..: exit 2, and no byte written
stops() {
    status=0
    "$@" >"$work/job" 2>"$work/said" || status=$?
    [ "$status" = 2 ] || fail "'$*': exit $status"
    [ ! -s "$work/job" ] || fail "'$*': bytes written"
    [ -s "$work/said" ] || fail "'$*': nothing said"
    checks=$((checks + 1))
}

refuses() {
    stops examples/make-job "$@"
}

# undivided WORD..: no plan of job A
undivided() {
    stops examples/make-plan examples/A.job "$@"
}

# divided JOB WORD..: a plan is written
divided() {
    examples/make-plan "$@" >"$work/plan" || fail "'$*': refused"
    checks=$((checks + 1))
}

makes A 1 3 : 1 3 8
makes B 1 2 : 4 3 2 6 1
makes C 7 2 :
makes D 1 1 : 0 0
makes E 1 1 : 6
makes N startup 3 1 4 : 1 4 4
makes S 1 3 holds 0 1 : 1 3 8
makes A 1 3 holds 0 0 : 1 3 8
makes C 7 2 holds 0 0 :
printf '\003\000\000\000\100\102\017\000\001\000\000\000\007\000\000\000' >"$work/wanted"
examples/make-job startup 1000000 7 : >"$work/job" || fail "start-up work and no tiles: refused"
cmp -s "$work/job" "$work/wanted" || fail "start-up work and no tiles: other bytes"
examples/make-job startup 0 1 3 : 1 3 8 >"$work/job" || fail "start-up work 0: refused"
printf '\003\000\000\000\000\000\000\000' | cat - examples/A.job | cmp -s - "$work/job" || fail "start-up work 0: other bytes"
# Both bytes of a hold, 256 and 65,535, each at its machine, with start-up work too.
printf '\003\000\000\000\005\000\000\000\001\000\000\001\007\000\000\000\001\000\377\377\010\000\000\000\002\000\000\000\011\000\000\000' >"$work/wanted"
examples/make-job startup 5 7 8 holds 256 65535 : 9 >"$work/job" || fail "holds of two bytes: refused"
cmp -s "$work/job" "$work/wanted" || fail "holds of two bytes: other bytes"
checks=$((checks + 3))
refuses
refuses 1 2
refuses 1 : 2 : 3
refuses 1 : -2
refuses 01 : 2
refuses 1 : 4294967296
refuses 1 : 12345678901
refuses x : 1
refuses 1 : 2:3
refuses '' : 1
refuses startup
refuses startup 3
refuses startup : 1
refuses startup 3 1 4
refuses startup x 1 : 1
refuses startup -1 1 : 1
refuses startup 03 1 : 1
refuses startup '' 1 : 1
refuses startup 4294967296 1 : 1
refuses startup startup 3 1 : 1
refuses 3 startup 1 : 1
refuses 1 : startup 3 1
refuses Startup 3 1 : 1
refuses holds
refuses holds 1 : 1
refuses 1 holds
refuses 1 holds : 1
refuses 1 holds 1
refuses 1 2 holds 1 : 1
refuses 1 holds 1 2 : 1
refuses 1 holds 65536 : 1
refuses 1 holds 4294967296 : 1
refuses 1 holds 01 : 1
refuses 1 holds -1 : 1
refuses 1 holds x : 1
refuses 1 holds '' : 1
refuses 1 holds 1 holds 1 : 1
refuses 1 : holds 1
refuses 1 : 2 holds 1
refuses 1 : holds 1 : 1
refuses 1 Holds 1 : 1
refuses startup holds 1 : 1
refuses startup 3 holds 1 : 1
refuses startup 3 1 holds : 1
refuses startup 3 1 holds 1 1 : 1

plans examples/A-best.plan examples/A.job 0 1 3
plans examples/A-valid.plan examples/A.job 0 2 3
plans examples/D-other.plan examples/D.job 0 0 2
examples/make-job 1 3 : 1 3 9 >"$work/older"
plans examples/A-untrue.plan "$work/older" 0 1 3
printf '\000\000\000\000\000\000\000\000\000\000\000\000\007\000\000\000\000\000\000\000\000\000\000\000\000\000\000\000\002\000\000\000' >"$work/of-c"
plans "$work/of-c" examples/C.job 0 0 0
plans examples/N-best.plan examples/N.job 0 0 3
plans examples/N-valid.plan examples/N.job 0 1 3
examples/make-job 1 4 : 1 4 4 >"$work/first"
plans examples/N-first.plan "$work/first" 0 1 3
plans examples/S-best.plan examples/S.job 0 2 3
plans examples/S-valid.plan examples/S.job 0 3 3
plans examples/S-broken.plan examples/A.job 0 1 3
# Start-up work 1,000,000 for a tile of weight 0, 0x000F4240, and none without a tile.
examples/make-job startup 1000000 1 2 : 0 >"$work/idle"
printf '\000\000\000\000\000\000\000\000\000\000\000\000\001\000\000\000\000\000\000\000\001\000\000\000\100\102\017\000\002\000\000\000' >"$work/of-idle"
plans "$work/of-idle" "$work/idle" 0 0 1
# All four bytes of a load: 18 tiles of weight 1,000,000 are 0x0112A880.
# shellcheck disable=SC2046
examples/make-job 10000 : $(awk 'BEGIN { for (i = 0; i < 18; i++) print 1000000 }') >"$work/heavy"
printf '\000\000\000\000\022\000\000\000\200\250\022\001\020\047\000\000' >"$work/of-heavy"
plans "$work/of-heavy" "$work/heavy" 0 18
stops examples/make-plan
stops examples/make-plan examples/none.job 0 1 3
stops examples/make-plan examples 0 1 3
undivided
undivided 0
undivided 0 3
undivided 0 1 2 3
undivided 0 1 2
undivided 0 1 4
undivided 1 1 3
undivided 0 4 3
undivided 0 -1 3
undivided 0 01 3
undivided 0 x 3
undivided 0 '' 3
undivided 0 '1 1' 3
# A share with more tiles than its machine holds, of the first machine, of one between and of the last; and with as many.
stops examples/make-plan examples/S.job 0 1 3
stops examples/make-plan examples/S.job 0 0 3
examples/make-job 1 1 1 holds 1 256 2 : 1 1 1 1 1 >"$work/held"
stops examples/make-plan "$work/held" 0 2 3 5
stops examples/make-plan "$work/held" 0 1 2 5
# shellcheck disable=SC2046
examples/make-job 1 1 1 holds 1 256 2 : $(awk 'BEGIN { for (i = 0; i < 260; i++) print 1 }') >"$work/more"
stops examples/make-plan "$work/more" 0 1 258 260
stops examples/make-plan "$work/more" 0 2 258 260
stops examples/make-plan "$work/more" 0 1 257 260
divided "$work/held" 0 1 5 5
divided "$work/held" 0 0 3 5
echo "tests/examples.sh: $checks checks passed"

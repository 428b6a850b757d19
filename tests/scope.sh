#!/bin/sh
# Every quote in a comment of crates/ stands in docs/SCOPE.md: behind 'Scope 3.4:' in that sentence, behind 'Refusal 7:' in that row of
# the table, else anywhere on the page. ' .. ' in a quote leaves words out. The page's worked jobs have the figures of their listings in
# examples/, which are those that the program writes (tests/strips.sh) and that the prover computes (crates/listing/proofs/Examples.antt);
# so have README.md, docs/strips.1, docs/WHY.md (the imbalances of A, N and S, the plan of D) and examples/README.md (bottlenecks and imbalances).
# Its trials that fail, and those that fit and come to so many machines, are rows of crates/chain/specs/Marked.antt, which has the jobs of
# section 18 as they stand there; docs/WHY.md has the trial of B.
# The bytes that docs/FORMATS.md shows are those of the example files.
set -eu
cd "$(dirname "$0")/.."
find crates -name out -prune -o \( -name '*.antt' -o -name '*.rt' \) -print | LC_ALL=C sort | xargs awk '
  function squeeze(s) { gsub(/[ \t\n]+/, " ", s); return s }
  # Whether the pieces of the quote follow one another in the text.
  function holds(text, quote,    pieces, n, i, at) {
    n = split(quote, pieces, " \\.\\. ")
    for (i = 1; i <= n; i++) {
      at = index(text, pieces[i])
      if (at == 0) return 0
      text = substr(text, at + length(pieces[i]))
    }
    return 1
  }
  function wrong(what) { printf "%s: %s\n", file, what; failed++ }
  # The quotes of one comment, each with the place named before it.
  function judge(    rest, before, quote, place) {
    rest = squeeze(comment)
    comment = ""
    while (match(rest, /"[^"]*"/)) {
      before = substr(rest, 1, RSTART - 1)
      quote = substr(rest, RSTART + 1, RLENGTH - 2)
      rest = substr(rest, RSTART + RLENGTH)
      quotes++
      if (match(before, /(Scope [0-9]+\.[0-9]+|Refusal [0-9]+)(, of a refusal)?: $/)) {
        place = substr(before, RSTART)
        sub(/(, of a refusal)?: $/, "", place)
        if (!(place in said)) wrong("no " place " in docs/SCOPE.md")
        else if (!holds(said[place], quote)) wrong(place " does not say \"" quote "\"")
      } else if (!holds(page, quote)) wrong("docs/SCOPE.md does not say \"" quote "\"")
    }
    if (rest ~ /"/) wrong("a quote without its end: " rest)
  }
  BEGIN {
    while ((getline line < "docs/SCOPE.md") > 0) {
      page = page " " line
      if (line ~ /^## [0-9]+ /) { section = line; sub(/^## /, "", section); sub(/ .*/, "", section) }
      else if (line ~ /^## /) section = ""
      if (section != "" && line ~ /^[0-9]+\. /) {
        number = line; sub(/\..*/, "", number)
        sub(/^[0-9]+\. /, "", line)
        if (("Scope " section "." number) in said) { print "docs/SCOPE.md: two sentences " section "." number; failed++ }
        said["Scope " section "." number] = line
        sentences++
      }
      if (section == "8" && line ~ /^\| [0-9]+ \|/) { split(line, cell, " *\\| *"); said["Refusal " cell[2]] = cell[3] }
    }
    page = squeeze(page)
  }
  FNR == 1 { if (comment != "") judge(); file = FILENAME }
  /^ *(--|\/\/) / { line = $0; sub(/^ *(--|\/\/) /, "", line); comment = comment " " line; next }
  comment != "" { judge() }
  END {
    if (comment != "") judge()
    if (sentences == 0 || quotes == 0) { print "tests/scope.sh: nothing to compare"; failed++ }
    if (failed) { printf "tests/scope.sh: %d wrong\n", failed; exit 1 }
    printf "tests/scope.sh: %d quotes, each in docs/SCOPE.md, which has %d sentences\n", quotes, sentences
  }'

# A row of the page's table from a listing: what stands behind weights and speeds; and N, P, Wtot.
row() {
    awk 'NR == 1 { n = $2; p = $4; total = $6; next }
        { counts = counts comma $2; allowances = allowances comma $3; comma = ", "; bottleneck = $4 "/" $5; imbalance = $6
          s = ""; for (i = 7; i <= NF; i++) s = s (i > 7 ? " " : "") $i }
        END { print n, p, total " | " s " | " bottleneck " | " imbalance " | " counts " | " allowances " |" }' "$1"
}
failed=0
work=$(mktemp)
trap 'rm -f "$work"' EXIT
# In section 17 the start-up work stands behind the speeds, in section 18 the holds and the start-up work do; they must be those of the
# example's file.
for job in A B C D E N S; do
    said=$(awk -v job="$job" -F ' *[|] *' '/^## / { section = $1; sub(/^## /, "", section); sub(/ .*/, "", section) }
        (section == 11 || section == 17 || section == 18) && $2 == job {
        n = $3 == "none" ? 0 : split($3, w, " "); for (i = 1; i <= n; i++) total += w[i]
        k = section == 18 ? 7 : section == 17 ? 6 : 5
        print n, split($4, e, " "), total + 0 " | " $k " | " $(k + 1) " | " $(k + 2) " | " $(k + 3) " | " $(k + 4) " |" }' docs/SCOPE.md)
    if [ "$said" != "$(row "examples/$job.txt")" ]; then
        printf 'docs/SCOPE.md: job %s is said to have\n  %s\nand examples/%s.txt has\n  %s\n' "$job" "$said" "$job" "$(row "examples/$job.txt")"
        failed=1
    fi
done
if [ "$(sed -n '/^9\. `strips` writes for A:/,/^## /s/^       //p' docs/SCOPE.md)" != "$(cat examples/A.txt)" ]; then
    echo "docs/SCOPE.md, sentence 11.9: the listing is not that of examples/A.txt"
    failed=1
fi
if [ "$(sed -n '/^[0-9]*\. `strips` writes for S:/,/^## /s/^       //p' docs/SCOPE.md)" != "$(cat examples/S.txt)" ]; then
    echo "docs/SCOPE.md, section 18: the listing is not that of examples/S.txt"
    failed=1
fi
# The first page and the manual show A's listing, WHY.md its imbalance, and the examples' table each bottleneck and imbalance.
same() { [ "$2" = "$3" ] || { printf '%s: "%s", and the listing has "%s"\n' "$1" "$2" "$3"; failed=1; }; }
same README.md "$(sed -n '/gives the listing of job A/,/^\*\*Read it/s/^    //p' README.md)" "$(cat examples/A.txt)"
for job in A N S; do
    same "docs/strips.1, $job" "$(awk -v line="$ strips examples/$job.job" '/^\.fi/ { inside = 0 } inside; $0 == line { inside = 1 }' docs/strips.1)" \
        "$(cat "examples/$job.txt")"
done
same "docs/SCOPE.md, the start-up work of N" "$(awk -F ' *[|] *' '/^## / { inside = /^## 17 / } inside && $2 == "N" { print $5 }' docs/SCOPE.md)" \
    "$(od -An -v -tu4 -N8 examples/N.job | awk '$1 == 3 { print $2 }')"
same "docs/SCOPE.md, the holds of S" "$(awk -F ' *[|] *' '/^## / { inside = /^## 18 / } inside && $2 == "S" { print $5 " " $6 }' docs/SCOPE.md)" \
    "$(od -An -v -tu1 -w8 examples/S.job | awk '$1 == 1 { printf "%d ", $3 + 256 * $4 } $1 == 3 { second = 1 } END { print second ? "second" : "none" }')"
same docs/WHY.md "$(sed -n 's/.*so it says \([0-9]*\)\.$/\1/p' docs/WHY.md)" "$(awk 'NR == 2 { print $6 }' examples/A.txt)"
same "docs/WHY.md, N" "$(tr '\n' ' ' <docs/WHY.md | sed -n 's/.*job N has [^.]*, so \([0-9]*\)\..*/\1/p')" "$(awk 'NR == 2 { print $6 }' examples/N.txt)"
same "docs/WHY.md, S" "$(tr '\n' ' ' <docs/WHY.md | sed -n 's/.*Of the two that are left \([0-9 ]*\) is best, with \([0-9/]*\), and its imbalance is \([0-9]*\)\..*/\2 \3 \1/p')" \
    "$(awk 'NR == 2 { print $4 "/" $5, $6, $7, $8, $9 }' examples/S.txt)"
for text in examples/*.txt; do
    job=$(basename "$text" .txt)
    same "examples/README.md, $job" "$(awk -F ' *[|] *' -v job="\`$job\`" '$2 == job { print $5, $6 }' examples/README.md)" \
        "$(awk 'NR == 2 { print $4 "/" $5, $6 }' "$text")"
done
same docs/WHY.md "$(tr '\n' ' ' <docs/WHY.md | sed -n 's/.*our plan is \([0-9 ]*\), and [0-9 ]* and [0-9 ]* are best as well.*/\1/p')" \
    "$(awk 'NR == 2 { print $7, $8, $9 }' examples/D.txt)"
# The trials of sections 11, 17 and 18 that fail, and those that fit and come to so many machines, are rows of the table that the prover computes;
# so is the one that WHY.md tells of job B.
trials=$(awk '/^## / { inside = /^## (11|17|18) / }
    inside && /^[0-9]+\. (A trial of [A-Z]|Of weights [0-9 ]+ on (one machine of speed|speeds) [0-9 ]+ a trial) at [0-9]+\/[0-9]+ (fails with next bid|fits, comes to) / {
        job = "job" $5; list = $0
        sub(/.* and writes /, "", list); sub(/[^0-9 ].*/, "", list)
        if ($2 == "Of") {
            speeds = $0; sub(/.* on (one machine of speed|speeds) /, "", speeds); sub(/ a trial .*/, "", speeds)
            weights = $0; sub(/.*Of weights /, "", weights); sub(/ on .*/, "", weights)
            gsub(/ /, " ∷ ", speeds); gsub(/ /, " ∷ ", weights)
            job = "(free_job 0 (" speeds " ∷ []) (" weights " ∷ []))"
        }
        at = $0; sub(/ (fails|fits,) .*/, "", at); sub(/.* at /, "", at); sub(/\//, " ", at)
        gsub(/ /, " ∷ ", list)
        said = $0
        if (sub(/.* fits, comes to /, "", said)) {
            if (said !~ /^(1 machine|(0|[2-9]|[1-9][0-9]+) machines) and writes /) said = "?"
            sub(/ .*/, "", said)
            print "fits_with " job " (over " at ") " said " (" list " ∷ [])"
        } else {
            sub(/.*next bid /, "", said); sub(/ .*/, "", said); sub(/\//, " ", said)
            print "fails_with " job " (over " at ") (over " said ") (" list " ∷ [])"
        }
    }' docs/SCOPE.md)
[ "$(printf '%s\n' "$trials" | grep -c fails_with)" = 10 ] || { echo "docs/SCOPE.md, sections 11, 17 and 18: ten trials that fail are looked for"; failed=1; }
[ "$(printf '%s\n' "$trials" | grep -c fits_with)" = 10 ] || { echo "docs/SCOPE.md, sections 11, 17 and 18: ten trials that fit and come to so many machines are looked for"; failed=1; }
printf '%s\n' "$trials" >"$work"
while read -r trial; do
    grep -qF "$trial" crates/chain/specs/Marked.antt || { echo "crates/chain/specs/Marked.antt: no row '$trial'"; failed=1; }
done <"$work"
# The jobs of section 18 are those of the computed rows, and so are their figures. A job's line may be of a function of its holds or its speeds.
awk -F ' *[|] *' 'function list(s) { if (s == "none") return "[]"; gsub(/ /, " ∷ ", s); return "(" s " ∷ [])" }
    function three(s) { gsub(/,/, "", s); return "(three " s ")" }
    /^## / { inside = /^## 18 / }
    inside && $2 ~ /^[A-Z]$/ { job = "job" $2; c = $6 == "none" ? 0 : $6; edition = $6 == "none" ? "First" : "(Second " $6 ")"; sub(/\//, " ", $8)
        print job "|" c "|" list($4) "|" list($5) "|" list($3) "|held_plan " edition " " job " " list($7) " (over " $8 ") " $9 " " three($10) " " three($11) }' \
    docs/SCOPE.md >"$work"
[ "$(grep -c held_plan "$work")" = 8 ] || { echo "docs/SCOPE.md, section 18: eight jobs are looked for"; failed=1; }
marked() { grep -qxF "$1" crates/chain/specs/Marked.antt; }
while IFS='|' read -r job c speeds holds weights row; do
    marked "$job = job_of $c $speeds $holds $weights" ||
        { marked "$job = ${job}With $holds" && marked "${job}With hs = job_of $c $speeds hs $weights"; } ||
        { marked "$job = ${job}On $speeds" && marked "${job}On es = job_of $c es $holds $weights"; } ||
        { echo "crates/chain/specs/Marked.antt: $job is not 'job_of $c $speeds $holds $weights'"; failed=1; }
    marked "    $row" || marked "    ∷ $row" || { echo "crates/chain/specs/Marked.antt: no row '$row'"; failed=1; }
done <"$work"
printf '%s\n' "$trials" >"$work"
told=$(tr '\n' ' ' <docs/WHY.md | sed -n 's/.*Job B has tiles of \([0-9 ]*\) on machines of speed 1 and 2\. At the bound \([0-9]*\)\/\([0-9]*\), .* The trial fails and writes \([0-9 ]*\)\. .*The next bid, here \([0-9]*\)\/\([0-9]*\), .*At \([0-9]*\/[0-9]*\) this one does, with \([0-9 ]*\)\..*/\1|fails_with jobB (over \2 \3) (over \5 \6) (\4)|\7 \8/p')
same docs/WHY.md "$told" "$(awk -F ' *[|] *' '$2 == "B" { print $3; exit }' docs/SCOPE.md)|$(grep 'fails_with jobB' "$work" | sed 's/ ∷ \[\]//; s/ ∷ / /g')|$(awk 'NR == 2 { print $4 "/" $5, $7, $8, $9 }' examples/B.txt)"
# The bytes that FORMATS.md shows of jobs A, N and S and of their plans, one dump behind the other.
shown() { awk -v which="$1" '/^    [0-9a-f]+  [0-9a-f][0-9a-f] / { if ($1 == "00000000") dump++
    if (dump == which) for (i = 2; i <= NF && $i ~ /^[0-9a-f][0-9a-f]$/; i++) printf "%s ", $i }' docs/FORMATS.md; }
held() { od -An -v -tx1 "$1" | tr '\n' ' ' | sed 's/  */ /g;s/^ //'; }
same "docs/FORMATS.md, job A" "$(shown 1)" "$(held examples/A.job)"
same "docs/FORMATS.md, the plan of A" "$(shown 2)" "$(held examples/A-best.plan)"
same "docs/FORMATS.md, job N" "$(shown 3)" "$(held examples/N.job)"
same "docs/FORMATS.md, the plan of N" "$(shown 4)" "$(held examples/N-best.plan)"
same "docs/FORMATS.md, job S" "$(shown 5)" "$(held examples/S.job)"
same "docs/FORMATS.md, the plan of S" "$(shown 6)" "$(held examples/S-best.plan)"
# The listings that the prover computes from the definitions, with \n for a line feed, are those of the examples.
for job in A B C D E N S; do
    text=$(awk '{ printf "%s\\n", $0 }' "examples/$job.txt")
    if ! grep -qF "\"$text\"" crates/listing/proofs/Examples.antt; then
        printf 'crates/listing/proofs/Examples.antt: no listing "%s", which is that of examples/%s.txt\n' "$text" "$job"
        failed=1
    fi
done
[ "$failed" = 0 ] || { echo "tests/scope.sh: FAILED"; exit 1; }
echo "tests/scope.sh: the worked jobs have the figures of their listings, in docs/SCOPE.md, README.md, docs/strips.1, examples/README.md and the computed examples; its trials, those that fail and those that come to so many machines, those of the computed rows"

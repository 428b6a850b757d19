#!/bin/sh
# The callable functions are the rows of docs/API.md: each is there and asks nothing of its caller (no `requires`); every other `pub`
# function of a library crate is marked 'Inner', in its comment or at the head of its file. The functions of C are the same in docs/API.md, in
# include/pelshaqu.h, in the crate of the library and, where it is built, in the library, which has no other name that is global.
set -eu
cd "$(dirname "$0")/.."
awk '
  function wrong(what) { printf "tests/callable.sh: %s\n", what; failed++ }
  function crate(file,    part) { split(file, part, "/"); return part[2] }
  # The end of a signature: what it asks, and what it is marked as.
  function judge(    full) {
    full = crate(file) "::" name
    if (full in row || name in row) {
      seen[full in row ? full : name] = 1
      callable++
      if (asks) wrong(file ": " name " is callable and has a `requires`")
    } else {
      inner++
      if (!marked && !head) wrong(file ": " name " is no row of docs/API.md and not marked as inner")
    }
    name = ""
  }
  BEGIN {
    while ((getline line < "docs/API.md") > 0)
      if (line ~ /^\| `/) { sub(/^\| `/, "", line); sub(/`.*/, "", line); if (line != "function") row[line] = 1 }
  }
  FNR == 1 { file = FILENAME; head = 0; top = 1; comment = "" }
  /^ *\/\/ / { line = $0; sub(/^ *\/\/ /, "", line); comment = comment " " line; if (top && comment ~ /are inner/) head = 1; next }
  top && /^$/ { top = 0 }
  /^ *#\[/ { next }
  /^ *pub (extern "C" )?fn / {
    top = 0
    name = $0; sub(/^.*fn /, "", name); sub(/\(.*/, "", name)
    marked = comment ~ /Inner/; asks = 0; comment = ""
  }
  name != "" && /^ *requires / { asks = 1 }
  name != "" && /^ *{/ { judge() }
  !/^ *\/\/ / { comment = "" }
  END {
    for (r in row) { rows++; if (!(r in seen)) wrong("docs/API.md: no function " r) }
    if (rows == 0 || inner == 0) wrong("nothing to compare")
    if (failed) { printf "tests/callable.sh: FAILED, %d wrong\n", failed; exit 1 }
    printf "tests/callable.sh: %d callable functions ask nothing, %d others are inner\n", callable, inner
  }' $(find crates -name out -prune -o -path '*/src/*.rt' -print | grep -v '^crates/\(strips\|test_exports\|test_run\)/' | LC_ALL=C sort)
# The functions of C, by name: as the crate has them, as the header declares them, as the page names them.
work=$(mktemp -d)
trap 'rm -rf "$work"' EXIT
sed -n 's/^pub extern "C" fn \([a-z_]*\)(.*/\1/p' crates/pelshaqu/src/lib.rt | LC_ALL=C sort >"$work/crate"
sed -n 's/^uint32_t \([a-z_]*\)(.*/\1/p' include/pelshaqu.h | LC_ALL=C sort >"$work/header"
sed -n 's/^| `\(pelshaqu_[a-z_]*\)`.*/\1/p; s/^| `\([a-z_]*\)` (C).*/\1/p' docs/API.md | LC_ALL=C sort >"$work/page"
texts='header page'
# What is global in the library, where it is built.
if command -v nm >/dev/null 2>&1 && [ -f target/staticlib/libpelshaqu.a ]; then
  nm -g target/staticlib/libpelshaqu.a | awk 'NF == 3 && $2 != "U" { print $3 }' | LC_ALL=C sort >"$work/library"
  texts="$texts library"
else
  echo "tests/callable.sh: SKIPPED the names of the library: nm or target/staticlib/libpelshaqu.a is not here"
fi
for text in $texts; do
  if ! [ -s "$work/crate" ] || ! diff "$work/crate" "$work/$text"; then
    echo "tests/callable.sh: FAILED, the functions of C differ: crates/pelshaqu and the $text"
    exit 1
  fi
done
echo "tests/callable.sh: $(wc -l <"$work/crate") functions of C: the crate's are those of each $(echo "$texts" | sed 's/ /, /g')"

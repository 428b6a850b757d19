#!/bin/sh
# The example host in Rust, built against the archive and run: it must print what its expected output says. So must it with the archive in a
# folder that PELSHAQU_LIB_DIR names; with a folder that has none it must not be built.
set -u
cd "$(dirname "$0")/.." || exit 1
out=$(mktemp -d)
trap 'rm -rf "$out"' EXIT
archive=target/staticlib/libpelshaqu.a
fail() {
    echo "tests/rust-host.sh: FAILED, $1"
    exit 1
}
command -v cargo >/dev/null 2>&1 || fail "cargo is missing"
[ -f "$archive" ] || fail "no archive: run 'sh scripts/build.sh libpelshaqu.a' first"
CARGO_TARGET_DIR=$PWD/target/rust-host
export CARGO_TARGET_DIR

# run: builds the host and runs it
run() {
    (cd examples/rust-host && cargo run --offline --locked --quiet)
}

unset PELSHAQU_LIB_DIR
run >"$out/said" || fail "it does not build or run"
cmp "$out/said" examples/rust-host/expected.txt || fail "it says something else"
mkdir "$out/lib" "$out/empty"
cp "$archive" "$out/lib"
PELSHAQU_LIB_DIR=$out/lib
export PELSHAQU_LIB_DIR
run >"$out/said" || fail "with PELSHAQU_LIB_DIR it does not build or run"
cmp "$out/said" examples/rust-host/expected.txt || fail "with PELSHAQU_LIB_DIR it says something else"
PELSHAQU_LIB_DIR=$out/empty
if run >"$out/said" 2>"$out/err"; then fail "it was built without an archive"; fi
grep -q "no .*/libpelshaqu.a" "$out/err" || fail "without an archive it says something else"
echo "tests/rust-host.sh: the example host in Rust says what it should"

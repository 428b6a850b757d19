#!/bin/sh
# Builds and runs the independent test of every call, on the archives of target/staticlib: on the library, and on the planner's with that of every
# other call. The last line is its summary, and so is the last one of the run before.
here=$(cd "$(dirname "$0")" && pwd) || exit 1
if ! command -v cargo >/dev/null 2>&1; then
    echo "tests/held: FAILED, cargo is missing"
    exit 1
fi
for name in pelshaqu planner test_exports; do
    if [ ! -f "$here/../target/staticlib/lib$name.a" ]; then
        echo "tests/held: FAILED, no archive: run 'sh scripts/build.sh lib$name.a' first"
        exit 1
    fi
done
for name in strips grade; do
    if [ ! -x "$here/../target/bin/$name" ]; then
        echo "tests/held: FAILED, no program: run 'sh scripts/build.sh $name' first"
        exit 1
    fi
done
cd "$here/held" || exit 1
for features in '' exports; do
    CARGO_TARGET_DIR="$here/held/target/${features:-library}"
    export CARGO_TARGET_DIR
    if ! cargo build --release --offline --quiet --locked --features "$features"; then
        echo "tests/held: FAILED, it does not build"
        exit 1
    fi
    "$CARGO_TARGET_DIR/release/held"
    code=$?
    # 0 and 1 come with a summary of their own.
    if [ "$code" -gt 1 ]; then
        echo "tests/held: FAILED, ended with $code"
    fi
    [ "$code" = 0 ] || exit "$code"
done

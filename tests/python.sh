#!/bin/sh
# The Python package on the shared library that make has built: its own tests, and its calls and the command's from text to picture.
# PYTHON: another interpreter than python3.
set -eu
cd "$(dirname "$0")/.."
library=target/lib/libpelshaqu.so.1
[ -f "$library" ] || {
    echo "tests/python.sh: no $library; run 'make' first" >&2
    exit 1
}
said=$(mktemp)
trap 'rm -f "$said"' EXIT
if ! PELSHAQU_LIBRARY="$PWD/$library" PYTHONDONTWRITEBYTECODE=1 "${PYTHON-python3}" -m unittest discover -s python/tests >"$said" 2>&1; then
    cat "$said" >&2
    echo "tests/python.sh: FAILED" >&2
    exit 1
fi
sed -n 's/^Ran \([0-9]* tests\) in .*/tests\/python.sh: \1 passed/p' "$said" | grep .

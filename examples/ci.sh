#!/bin/sh
# What a CI job runs: ci.sh FOLDER [OPTION..]. It checks each golden file below the folder: dapnorm golden, with these options, accepts it
# and would not change it. Then it runs each golden test there: golden_test.py, *_golden_test.py, test_*golden*.py.
# It fails if there is no golden file, no golden test, no pytest for the tests, or no test that passes. It prints what was skipped, and
# which golden files no test compared. The traces of tests that fail are kept in the folder DAPNORM_TRACES, or dapnorm-traces: an artefact.
set -eu
unset UPDATE_GOLDEN
folder=${1:?"usage: ci.sh FOLDER [OPTION..]"}
shift

fail() {
    echo "ci.sh: $1" >&2
    exit 1
}

command -v dapnorm > /dev/null || fail "dapnorm is not on PATH"
scratch=$(mktemp -d)
trap 'rm -rf "$scratch"' EXIT
DAPNORM_TRACES=${DAPNORM_TRACES:-$PWD/dapnorm-traces} DAPNORM_COMPARED=$scratch/compared
export DAPNORM_TRACES DAPNORM_COMPARED
find "$folder" \( -name '*.golden' -o -name '*.golden.yaml' \) > "$scratch/files"
find "$folder" \( -name '*golden_test.py' -o -name 'test_*golden*.py' \) > "$scratch/tests"
files=$(wc -l < "$scratch/files") tests=$(wc -l < "$scratch/tests")
[ "$files" -gt 0 ] || fail "no golden file below $folder: it looks for files *.golden.yaml and *.golden"
[ "$tests" -gt 0 ] || fail "no golden test below $folder, so no session is compared with the $files golden files:
  it looks for golden_test.py, *_golden_test.py and test_*golden*.py"
python3 -c 'import pytest' || fail "python3 has no pytest, which runs the $tests files of golden tests"

bad=0
while IFS= read -r golden; do
    dapnorm golden "$@" "$golden" "$golden" > "$scratch/said" 2>&1 && continue || status=$?
    bad=$((bad + 1))
    [ "$status" -eq 1 ] && echo "$golden: not in normal form; make it again" || { echo "$golden: refused"; cat "$scratch/said"; }
done < "$scratch/files"
[ "$bad" -eq 0 ] || fail "$bad of $files golden files are not in order"
echo "$files golden files are in order"

{ find "$folder" \( -name '*golden_test.py' -o -name 'test_*golden*.py' \) -exec python3 -m pytest -q -rs --import-mode=importlib {} + ||
    touch "$scratch/failed"; } 2>&1 | tee "$scratch/said"
[ ! -d "$DAPNORM_TRACES" ] || rmdir "$DAPNORM_TRACES" 2> /dev/null || echo "the traces are kept in $DAPNORM_TRACES"
[ ! -e "$scratch/failed" ] || fail "a golden test fails"
grep -q '[0-9] passed' "$scratch/said" || fail "no golden test passed, so no session was compared"
echo "$tests files of golden tests pass"
skipped=$(sed -n 's/.*[^0-9]\([0-9][0-9]*\) skipped.*/\1/p' "$scratch/said")
[ -z "$skipped" ] || echo "$skipped golden tests were skipped"
# Tests with the package dapnorm note which golden files they compare.
[ -s "$scratch/compared" ] || exit 0
while IFS= read -r golden; do
    name=$(cd "$(dirname "$golden")" && pwd -P)/$(basename "$golden")
    grep -qxF -- "$name" "$scratch/compared" || echo "$golden: compared by no test"
done < "$scratch/files"

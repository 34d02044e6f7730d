#!/usr/bin/env bash
# Runs the tests that stand outside `rt ci`: each is a folder here with an executable file `run`, which fails by its exit
# status. They share the library and three programs, which are built first into target/; so as many run at a time as there are processors.
# What they print is kept and shown in order.
set -euo pipefail
cd "$(dirname "${BASH_SOURCE[0]}")/.."
tools/build.sh vestumbral nifti_list piece_list header_copy
logs=$(mktemp -d)
trap 'rm -rf "$logs"' EXIT
count=0
for run in tests/*/run; do
    while [ "$(jobs -pr | wc -l)" -ge "$(nproc)" ]; do wait -n || true; done
    { "$run" >"$logs/$count" 2>&1 || echo "outside tests: $run FAILED" >>"$logs/$count"; } &
    count=$((count + 1))
done
wait
for ((k = 0; k < count; k++)); do cat "$logs/$k"; done
! grep -h 'FAILED$' "$logs"/* || exit 1
echo "outside tests: $count passed"

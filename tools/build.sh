#!/usr/bin/env bash
# Proves crates and leaves what is built of them in target/: of a static library target/staticlib/libNAME.a, of a program target/bin/NAME.
#   tools/build.sh NAME..
set -euo pipefail
cd "$(dirname "${BASH_SOURCE[0]}")/.."
log=$(mktemp)
trap 'rm -f "$log"' EXIT
for name; do
    if [ -e "crates/$name/src/main.rt" ]; then
        rm -f "crates/$name/out/$name"
        (cd "crates/$name" && rt run) </dev/null >"$log" 2>&1 || [ -e "crates/$name/out/$name" ] || { tail -n 20 "$log"; exit 1; }
        mkdir -p target/bin
        cp "crates/$name/out/$name" target/bin/
    else
        (cd "crates/$name" && rt lib) >"$log" 2>&1 || { tail -n 20 "$log"; exit 1; }
        mkdir -p target/staticlib
        cp "crates/$name/out/lib$name.a" target/staticlib/
        grep '^logic=' "$log" | tail -n 1
    fi
done

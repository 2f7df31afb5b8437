#!/bin/sh
# check-time.sh [NAME..]: seconds of CPU and peak memory (MB) of the check of each crate, one after the other. What a crate
# depends on is proved before, so that its own check is measured alone. A check begins with what other checkouts on the machine have
# kept of the same crate: measure where there is this one alone. docs/BENCHMARKS.md has the table to compare with.
set -eu
cd "$(dirname "$0")/.."
[ $# -gt 0 ] || set -- $(sed -n 's/^\([a-z_]*\)\( staticlib\)*:.*/\1/p' crates.txt)
took=$(mktemp)
trap 'rm -f "$took"' EXIT
for name in "$@"; do
    cd "crates/$name"
    rt check >/dev/null
    rm -r out/incremental
    /usr/bin/time -o "$took" -f '%U %M' rt check --jobs 1 >/dev/null
    cd ../..
    awk -v name="$name" '{ printf "| %s | %.0f | %.0f |\n", name, $1, $2 / 1024 }' "$took"
done

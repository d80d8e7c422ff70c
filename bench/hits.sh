#!/usr/bin/env bash
# Times read and write hits on 1, 8, 16, 64 and 1,024 held pages, and look-ups of as many pages in a hash map, and prints a line for
# each. bench/README.md says how to read it.
# Usage: bench/hits.sh [ROUNDS], 1,000 rounds each unless said otherwise, from 1 to 100,000. Status 64 where it is no such number.
set -eu
top=$(cd "$(dirname "$0")/.." && pwd)
rounds=${1:-1000}
if [ $# -gt 1 ] || ! [[ $rounds =~ ^[1-9][0-9]{0,5}$ ]] || [ "$rounds" -gt 100000 ]; then
    echo "usage: bench/hits.sh [ROUNDS], from 1 to 100000" >&2
    exit 64
fi
told=$(mktemp)
trap 'rm -f "$told"' EXIT
(cd "$top/crates/casper_bench" && rt run -- hits 1 1) </dev/null >"$told" 2>&1 || {
    cat "$told" >&2
    exit 70
}
for pages in 1 8 16 64 1024; do
    "$top/crates/casper_bench/out/casper_bench" hits $pages "$rounds" | awk '{
        for (at = 1; at <= NF; at++) { split($at, part, "="); value[part[1]] = part[2] }
        printf "pages=%d read_ns=%.1f write_ns=%.1f map_ns=%.1f\n", value["pages"], value["read_ps"] / 1000, value["write_ps"] / 1000,
            value["map_ps"] / 1000
    }'
done

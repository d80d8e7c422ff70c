#!/usr/bin/env bash
# Replays schedules over memory in which one client changes 1, 16 or 256 pages and makes them stable, again and again, and prints how many
# became stable a second. bench/README.md says what is measured.
# Usage: bench/stabilise.sh [LINES], 500,000 lines each unless said otherwise, from 1,000 to 1,048,576. Status 64 where it is no such
# number, 1 where a last line is not what it has to be.
set -eu
top=$(cd "$(dirname "$0")/.." && pwd)
lines=${1:-500000}
if [ $# -gt 1 ] || ! [[ $lines =~ ^[1-9][0-9]{3,6}$ ]] || [ "$lines" -gt 1048576 ]; then
    echo "usage: bench/stabilise.sh [LINES], from 1000 to 1048576" >&2
    exit 64
fi
clock=/usr/bin/time
[ -x "$clock" ] || { echo "bench/stabilise.sh needs GNU time, as $clock" >&2; exit 69; }
work=$(mktemp -d)
trap 'rm -rf "$work"' EXIT

# rounds COUNT CHANGED: so many rounds, in each of which so many pages are changed and then made stable.
rounds() {
    awk -v count="$1" -v changed="$2" 'BEGIN {
        print "join 1"
        for (round = 1; round <= count; round++) {
            for (at = 0; at < changed; at++) printf "write 1 %d 0 %d\n", (round * 7 + at) % 1024, round
            print "stabilise 1"
            print "writeout 1"
            print "finish 1"
            print "serve 1"
        }
    }'
}

# The first run builds the program, if need be.
"$top/casper" replay mem:1024 </dev/null >/dev/null

for changed in 1 16 256; do
    count=$((lines / (changed + 4)))
    rounds "$count" "$changed" >"$work/schedule"
    "$clock" -f '%e %U' -o "$work/times" "$top/casper" replay mem:1024 <"$work/schedule" >"$work/answers"
    last=$(tail -n 1 "$work/answers")
    case $last in
        *" commits=$count rollbacks=0 "*) ;;
        *) echo "stabilise: $changed pages: $last" >&2; exit 1 ;;
    esac
    awk -v count="$count" -v changed="$changed" -v last="$last" '{
        printf "stabilise: changed=%d rounds=%d seconds=%s user=%s stabilisations_per_second=%d (%s)\n", changed, count, $1, $2, count / $1, last
    }' "$work/times"
done

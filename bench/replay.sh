#!/usr/bin/env bash
# Replays schedules over memory, and prints lines per second and peak memory of each. bench/README.md says what they are.
# Usage: bench/replay.sh [LINES], 1,000,000 lines each unless said otherwise, from 16 to 1,048,576. Status 64 where it is no such number.
set -eu
top=$(cd "$(dirname "$0")/.." && pwd)
lines=${1:-1000000}
if [ $# -gt 1 ] || ! [[ $lines =~ ^[1-9][0-9]{1,6}$ ]] || [ "$lines" -lt 16 ] || [ "$lines" -gt 1048576 ]; then
    echo "usage: bench/replay.sh [LINES], from 16 to 1048576" >&2
    exit 64
fi
# It starts the program from a process of its own that is smaller than any run, so that the peak is the program's.
clock=/usr/bin/time
[ -x "$clock" ] || { echo "bench/replay.sh needs GNU time, as $clock" >&2; exit 69; }
work=$(mktemp -d)
trap 'rm -rf "$work"' EXIT

# One client reads and writes 16 pages that it holds.
hits() {
    awk -v lines="$lines" 'BEGIN {
        print "join 1"
        for (at = 1; at < lines; at++) {
            page = (at * 7919) % 16
            word = (at * 104729) % 512
            if (at % 2) printf "write 1 %d %d %d\n", page, word, at
            else printf "read 1 %d %d\n", page, word
        }
    }'
}

# Two clients write one word in turn: the one writes, the other is pending, the first serves, and the other writes.
recalls() {
    awk -v lines="$lines" 'BEGIN {
        print "join 1"
        print "join 2"
        for (at = 2; at < lines; at++) {
            step = (at - 2) % 3
            writer = 2 - int((at - 2) / 3) % 2
            if (step == 1) printf "serve %d\n", 3 - writer
            else printf "write %d 5 0 %d\n", writer, at
        }
    }'
}

# 8 clients read and write 64 pages, one line in eight a write, and serve in turn.
crowd() {
    awk -v lines="$lines" 'BEGIN {
        for (who = 1; who <= 8; who++) printf "join %d\n", who
        for (at = 8; at < lines; at++) {
            who = at % 8 + 1
            page = (at * 7919 + int(at / 64)) % 64
            word = (at * 104729) % 512
            if (int(at / 8) % 4 == 3) printf "serve %d\n", who
            else if ((at * 31 + int(at / 8)) % 8 == 0) printf "write %d %d %d %d\n", who, page, word, at
            else printf "read %d %d %d\n", who, page, word
        }
    }'
}

# One client takes four pages with each line, from 256 in turn, so that none of the four is held: four touches a line.
grants() {
    awk -v lines="$lines" 'BEGIN {
        print "join 1"
        for (at = 1; at < lines; at++) {
            page = (4 * at) % 256
            printf "acquire 1 %d:r %d:r %d:r %d:r\n", page, page + 1, page + 2, page + 3
        }
    }'
}

# The first run builds the program, if need be.
"$top/casper" replay mem:64 </dev/null >/dev/null

# A plain array program as a yardstick, where there is a C compiler.
yardstick=
if command -v cc >/dev/null; then
    yardstick=$work/array
    cc -O2 -o "$yardstick" "$top/bench/array.c"
fi

# The user time of the yardstick for a schedule that it can answer, and a stop where it writes other answers than the program.
array_seconds() {
    case $yardstick:$1 in
    :* | *:crowd | *:grants) echo none ;;
    *)
        "$clock" -f '%U' -o "$work/array_cost" "$yardstick" "$2" <"$work/$1" >"$work/array_answers"
        cmp -s "$work/answers" "$work/array_answers" || { echo "bench/array.c writes other answers to $1" >&2; exit 1; }
        cat "$work/array_cost"
        ;;
    esac
}

while read -r schedule pages; do
    "$schedule" >"$work/$schedule"
    "$clock" -f '%e %U %M' -o "$work/cost" "$top/crates/casper/out/casper" replay "mem:$pages" <"$work/$schedule" >"$work/answers"
    read -r seconds user peak <"$work/cost"
    array=$(array_seconds "$schedule" "$pages")
    awk -v name="$schedule" -v pages="$pages" -v lines="$lines" -v seconds="$seconds" -v user="$user" -v array="$array" -v peak="$peak" 'END {
        rate = seconds > 0 ? sprintf("%.0f", lines / seconds) : "unknown"
        printf "%s: pages=%d lines=%d seconds=%s lines_per_second=%s user=%s array_user=%s peak_kb=%d (%s)\n", name, pages, lines, seconds, rate, user, array, peak, $0
    }' "$work/answers"
    rm "$work/$schedule" "$work/answers"
done <<'SCHEDULES'
hits 64
recalls 64
crowd 64
crowd 16384
grants 256
SCHEDULES

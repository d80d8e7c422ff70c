#!/usr/bin/env bash
# Replays each schedule of examples/ over a store in memory, audits each trail, and replays those of examples/store over a store in a
# file, one after the other. Compares answers and status with those that are written beside each.
# Prints `check-examples: ok N`, or what differs.
# Usage: tools/check-examples.sh [PROGRAM], ./casper unless said otherwise, which proves and builds the program where need be.
set -u
top=$(cd "$(dirname "$0")/.." && pwd)
program=${1:-$top/casper}
room=$(mktemp -d)
trap 'rm -rf "$room"' EXIT
tried=0
failed=0

# The status that goes with a last line.
status_of() {
    case $1 in
        end\ * | legal\ *) echo 0 ;;
        usage) echo 2 ;;
        disk\ fault) echo 5 ;;
        refused\ *) echo 6 ;;
        no\ memory) echo 7 ;;
        bad\ line\ *) echo 8 ;;
        bad\ *) echo 9 ;;
        unbuilt\ *) echo 10 ;;
        *) echo none ;;
    esac
}

# try_example INPUT OUTPUT WORD..: the program with these words and this input.
try_example() {
    local input=$1 output=$2
    shift 2
    tried=$((tried + 1))
    "$program" "$@" <"$input" >"$room/output"
    local status=$?
    # Without a program no example can be run.
    case $status in 69 | 70 | 126 | 127) exit 1 ;; esac
    if ! diff -u "$output" "$room/output" || [ "$status" != "$(status_of "$(tail -n 1 "$output")")" ]; then
        echo "check-examples: failed: $(basename "$input") (status $status)"
        failed=1
    fi
}

for schedule in "$top"/examples/*.schedule; do
    try_example "$schedule" "${schedule%.schedule}.answers" replay mem:16384
done
for trail in "$top"/examples/*.trail; do
    try_example "$trail" "${trail%.trail}.verdict" audit
done
"$program" format "$room/demo" 8 16 >/dev/null || failed=1
for schedule in save load; do
    try_example "$top/examples/store/$schedule.schedule" "$top/examples/store/$schedule.answers" replay "$room/demo"
done
if [ "$("$program" check "$room/demo")" != "store format 1 pages 8 frames 16 version 2 used 2" ]; then
    echo "check-examples: failed: check"
    failed=1
fi
for output in "$top"/examples/*.answers "$top"/examples/*.verdict; do
    [ -e "${output%.answers}.schedule" ] || [ -e "${output%.verdict}.trail" ] ||
        { echo "check-examples: failed: $(basename "$output") has no input"; failed=1; }
done
[ "$failed" = 0 ] || exit 1
echo "check-examples: ok $tried"

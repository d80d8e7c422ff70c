#!/usr/bin/env bash
# Tries what no test of a crate can: a second process on a store that is open, and a store that is opened while standard output or input is
# closed. Prints `check-stores: ok`, or what is wrong.
# Usage: tools/check-stores.sh [PROGRAM], ./casper unless said otherwise, which proves and builds the program where need be.
set -u
top=$(cd "$(dirname "$0")/.." && pwd)
program=${1:-$top/casper}
room=$(mktemp -d)
trap 'rm -rf "$room"' EXIT
store=$room/store
failed=0

# is_so WHAT WANTED FOUND
is_so() {
    [ "$2" = "$3" ] && return
    echo "check-stores: failed: $1: '$3' in place of '$2'"
    failed=1
}

"$program" format "$store" 8 16 >"$room/made"
status=$?
case $status in 69 | 70 | 126 | 127) exit 1 ;; esac
is_so "format" "0 formatted pages 8 frames 16" "$status $(cat "$room/made")"

# The first process has answered a line and waits for the next one: the store is open.
mkfifo "$room/to" "$room/from"
"$program" replay "$store" <"$room/to" >"$room/from" &
exec 3>"$room/to" 4<"$room/from"
echo "join 1" >&3
read -r answer <&4
is_so "the first process" "joined" "$answer"
told=$("$program" check "$store")
is_so "a second process" "5 disk fault" "$? $told"
exec 3>&- 4<&-
wait
told=$("$program" check "$store")
is_so "after the first process" "0 store format 1 pages 8 frames 16 version 1 used 0" "$? $told"

# What is meant for a closed output never lands in the store.
cp "$store" "$room/before"
echo "join 1" | "$program" replay "$store" >&-
is_so "a closed output" "4" "$?"
told=$("$program" replay "$store" <&-)
is_so "a closed input" "3 read fault" "$? $told"
cmp -s "$store" "$room/before" || is_so "the store" "as it was" "changed"

[ "$failed" = 0 ] || exit 1
echo "check-stores: ok"

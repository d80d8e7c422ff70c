#!/usr/bin/env bash
# Stops the program at random moments of a long schedule over a store in a file, by SIGKILL, and checks after each stop that the store
# opens and holds every acknowledged commit and nothing that was not written. Before that it takes a copy of the store after each answer
# of a short schedule, and checks each copy in the same way.
# Prints `stops: ok STOPS of N commits`, or what is wrong. bench/README.md says how to read it.
# Usage: bench/stops.sh [STOPS], 200 unless said otherwise, from 1 to 100,000. Status 64 where it is no such number.
set -u
top=$(cd "$(dirname "$0")/.." && pwd)
stops=${1:-200}
if [ $# -gt 1 ] || ! [[ $stops =~ ^[1-9][0-9]{0,5}$ ]] || [ "$stops" -gt 100000 ]; then
    echo "usage: bench/stops.sh [STOPS], from 1 to 100000" >&2
    exit 64
fi
# The first call proves and builds the program where need be.
"$top/casper" replay mem:1 </dev/null >/dev/null || exit 70
program=$top/crates/casper/out/casper
room=$(mktemp -d)
child=
trap '[ -z "$child" ] || kill -9 "$child" 2>/dev/null; rm -rf "$room"' EXIT
store=$room/store

fail() {
    echo "stops: failed: $*" >&2
    exit 1
}

# rounds FIRST COUNT: lines of as many rounds. Round k writes k to a page of its own and to the page that tells the round, and makes both
# stable.
rounds() {
    awk -v first="$1" -v count="$2" 'BEGIN {
        print "join 1"
        for (k = first; k < first + count; k++)
            printf "write 1 %d 0 %d\nwrite 1 63 1 %d\nstabilise 1\nwriteout 1\nfinish 1\n", k % 61, k, k
    }'
}

# held FILE LOWEST HIGHEST: checks that a store opens to a whole round of these, and prints which.
held() {
    "$program" check "$1" >"$room/checked" || fail "check: $(cat "$room/checked")"
    awk 'BEGIN { print "join 1\nread 1 63 1"; for (p = 0; p < 61; p++) printf "read 1 %d 0\n", p }' >"$room/reads"
    "$program" replay "$1" <"$room/reads" >"$room/read" || fail "replay: $(tail -n 1 "$room/read")"
    awk -v lowest="$2" -v highest="$3" '
        NR == 2 { round = $1; if (round < lowest || round > highest) { print "round " round " is not in " lowest " to " highest; exit } }
        NR > 2 && NR < 64 {
            page = NR - 3
            want = round - (round - page + 61) % 61
            if (want < 1) want = 0
            if ($1 != want) { print "page " page " has " $1 " and not " want " in round " round; exit }
        }
        END { if (NR != 64) print "only " NR " lines"; else print "round " round }
    ' "$room/read"
}

# in_round FILE LOWEST HIGHEST: the round that a store holds.
in_round() {
    local told
    told=$(held "$1" "$2" "$3") || exit 1
    [[ $told =~ ^round\ [0-9]+$ ]] || fail "$told"
    echo "${told#round }"
}

"$program" format "$store" 64 256 >/dev/null || fail "format"

# A copy after each answer.
rounds 1 20 >"$room/lines"
mkfifo "$room/to" "$room/from"
"$program" replay "$store" <"$room/to" >"$room/from" &
child=$!
exec 3>"$room/to" 4<"$room/from"
acknowledged=0
begun=0
while read -r line; do
    echo "$line" >&3
    read -r answer <&4
    case $line in writeout*) begun=$((begun + 1)) ;; esac
    case $answer in commit*) acknowledged=$((acknowledged + 1)) ;; esac
    cp "$store" "$room/copy"
    in_round "$room/copy" "$acknowledged" "$begun" >/dev/null || exit 1
done <"$room/lines"
exec 3>&- 4<&-
wait "$child"
child=

# Stops at random moments.
round=$(in_round "$store" 20 20) || exit 1
for ((stop = 1; stop <= stops; stop++)); do
    rounds $((round + 1)) 5000 >"$room/lines"
    "$program" replay "$store" <"$room/lines" >"$room/answers" &
    child=$!
    sleep "0.$(printf '%03d' $((RANDOM % 200)))"
    kill -9 "$child" 2>/dev/null
    wait "$child" 2>/dev/null
    child=
    written=$(grep -c '^commit ' "$room/answers")
    round=$(in_round "$store" $((round + written)) $((round + written + 1))) || exit 1
done
echo "stops: ok $stops of $round commits"

#!/usr/bin/env bash
# Tries ./casper in a copy of its own with a stub in the place of rt. Prints `check-casper: ok N`, or what failed.
set -u
top=$(cd "$(dirname "$0")/.." && pwd)
room=$(mktemp -d)
trap 'rm -rf "$room"' EXIT
repository=$room/repository
tried=0
failed=0

# The crates lie in crates.txt in an order of their own, with one that the program does not use.
mkdir -p "$repository" "$room/bin" "$room/elsewhere"
cp "$top/casper" "$repository/casper"
printf '%s\n' '# a comment: with a colon' 'casper: high low' 'other: low' 'high: middle low' 'low:' 'middle: low kit_crate' >"$repository/crates.txt"
for crate in casper other high low middle; do
    mkdir -p "$repository/crates/$crate/src" "$repository/crates/$crate/specs"
    echo "text of $crate" >"$repository/crates/$crate/src/lib.rt"
done

# Notes its calls. A crate with the word `wrong` is not proved; with the word `slow` it takes long, over a half-built program.
cat >"$room/bin/rt" <<'STUB'
#!/usr/bin/env bash
crate=$(basename "$PWD")
echo "$crate $*" >>"$CALLS"
[ ! -e ../casper/out/casper ] || echo "an old program stood there" >>"$CALLS"
if grep -q slow src/*; then
    mkdir -p ../casper/out
    printf '#!/bin/sh\necho half-built\n' >../casper/out/casper
    chmod +x ../casper/out/casper
    echo $$ >"$CALLS.slow"
    exec sleep 20
fi
if grep -q wrong src/*; then
    echo "fn f: no proof of clause g"
    exit 1
fi
[ "$1" = run ] || exit 0
mkdir -p out
cat >out/casper <<'PROGRAM'
#!/usr/bin/env bash
[ "$*" != "replay mem:1" ] || exit 0
echo "words: $*"
cat
exit 8
PROGRAM
chmod +x out/casper
./out/casper "${@:3}"
STUB
chmod +x "$room/bin/rt"
export CALLS=$room/calls
path=$PATH
PATH=$room/bin:$PATH

# call COMMAND..: its output, what it said, its status, and the calls of rt.
call() {
    : >"$CALLS"
    "$@" >"$room/output" 2>"$room/said"
    status=$?
}

check() {
    local name=$1
    shift
    tried=$((tried + 1))
    "$@" || { echo "check-casper: failed: $name (status $status; said: $(head -c 300 "$room/said"))"; failed=1; }
}

replays() {
    echo "join 1" | "$@" replay mem:8
}

answers() {
    [ "$status" = 8 ] && [ "$(cat "$room/output")" = "$(printf 'words: replay mem:8\njoin 1')" ]
}

builds() {
    answers && [ "$(cat "$CALLS")" = "$(printf 'low lib\nmiddle lib\nhigh lib\ncasper run -- replay mem:1')" ]
}

runs_what_is_there() {
    answers && [ ! -s "$CALLS" ] && [ ! -s "$room/said" ]
}

tells_each_crate() {
    grep -q 'crate 1 of 4: low' "$room/said" && grep -q 'crate 4 of 4: casper' "$room/said" && grep -q 'takes about' "$room/said"
}

leaves_nothing() {
    [ "$status" = "$1" ] && [ ! -s "$room/output" ] && [ -z "$(ls "$repository/crates/casper/out")" ]
}

asks_for_rt() {
    [ "$status" = 69 ] && [ ! -s "$room/output" ] && grep -q 'rt is missing' "$room/said"
}

refuses() {
    leaves_nothing 70 && grep -q 'no proof of clause g' "$room/said" && grep -q "$1" "$room/said"
}

# interrupted SIGNAL: the call gets it while the crate `middle` is proved.
interrupted() {
    rm -f "$CALLS.slow"
    env --default-signal=INT,HUP,TERM "$repository/casper" replay mem:8 </dev/null &
    local script=$!
    for _ in {1..600}; do
        [ ! -s "$CALLS.slow" ] || break
        sleep 0.05
    done
    kill "-$1" "$script"
    wait "$script"
}

ends_its_rt() {
    leaves_nothing "$1" && ! kill -0 "$(cat "$CALLS.slow")" 2>/dev/null
}

two_at_once() {
    replays "$repository/casper" >"$room/other" 2>/dev/null &
    local other=$! first
    replays "$repository/casper"
    first=$?
    wait "$other"
    [ $? = "$first" ] && cmp -s "$room/other" "$room/output" && return "$first"
}

edit() {
    echo "$2" >"$repository/crates/$1/src/lib.rt"
}

call replays "$repository/casper"
check "a first call proves and builds, lowest crate first" builds
check "it tells each crate and how long it takes" tells_each_crate
call replays "$repository/casper"
check "a second call runs the program and is silent" runs_what_is_there
PATH=$path
if command -v rt >/dev/null; then PATH=/usr/bin:/bin; fi
call replays "$repository/casper"
check "a program that is built needs no rt" runs_what_is_there
edit low "new text"
call replays "$repository/casper"
check "without rt it says so" asks_for_rt
PATH=$room/bin:$path
call replays "$repository/casper"
check "a changed crate is built again, with the old program gone before" builds
cp -p "$repository/crates/casper/src/lib.rt" "$room/before"
edit casper wrong
call replays "$repository/casper"
check "a failed proof of the program leaves none" refuses "crates/casper ended with status 1"
call replays "$repository/casper"
check "the next call tries again" refuses "crates/casper ended with status 1"
edit middle wrong
call replays "$repository/casper"
check "a failed proof below ends the build" refuses "crates/middle ended with status 1"
edit middle right
mv "$room/before" "$repository/crates/casper/src/lib.rt"
call replays "$repository/casper"
check "an old text that is put back is built" builds
ln -s ../repository/casper "$room/elsewhere/link"
ln -s link "$room/elsewhere/second"
cd "$room/elsewhere" || exit 1
call replays ./second
check "it runs through links" runs_what_is_there
edit middle slow
for signal in TERM INT HUP; do
    call interrupted "$signal"
    case $signal in TERM) wanted=143 ;; INT) wanted=130 ;; HUP) wanted=129 ;; esac
    check "stopped by $signal it leaves nothing" ends_its_rt "$wanted"
done
call interrupted KILL
kill "$(cat "$CALLS.slow")"
edit middle right
call replays "$repository/casper"
check "a half-built program is never run" answers
edit low "newer text"
call two_at_once
check "of two calls at once one builds" builds
[ "$failed" = 0 ] || exit 1
echo "check-casper: ok $tried"

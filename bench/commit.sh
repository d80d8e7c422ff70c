#!/usr/bin/env bash
# Commits random pages over real files with real syncs, through Casper's store and, where they are there, SQLite and LMDB, and prints
# commits per second of each. bench/README.md says how to read it.
# Usage: bench/commit.sh [COMMITS [FOLDER]], 200 commits each unless said otherwise, from 1 to 100,000. The files are made in a new
# folder under FOLDER (the current one), which goes at the end. Status 64 where there is no such number or folder.
set -eu
top=$(cd "$(dirname "$0")/.." && pwd)
commits=${1:-200}
under=${2:-.}
if [ $# -gt 2 ] || ! [[ $commits =~ ^[1-9][0-9]{0,5}$ ]] || [ "$commits" -gt 100000 ] || [ ! -d "$under" ]; then
    echo "usage: bench/commit.sh [COMMITS [FOLDER]], from 1 to 100000" >&2
    exit 64
fi
work=$(mktemp -d "$under/casper-bench.XXXXXX")
trap 'rm -rf "$work"' EXIT
all=16384

# Runs a command, with its output in a file, and prints how long it took.
timed() {
    local start=$EPOCHREALTIME
    "$@" >"$work/told"
    awk -v start="$start" -v end="$EPOCHREALTIME" 'BEGIN { printf "%.6f", end - start }'
}

# Prints a line of what so many commits took, less what opening took.
tell() {
    awk -v name="$1" -v pages="$2" -v opening="$3" -v all="$4" -v commits="$commits" -v told="$(tail -n 1 "$work/told")" 'BEGIN {
        seconds = all - opening
        rate = seconds > 0 ? sprintf("%.1f", commits / seconds) : "unknown"
        printf "%s: pages=%d commits=%d seconds=%.2f commits_per_second=%s%s\n", name, pages, commits, seconds, rate,
            told == "" ? "" : " (" told ")"
    }'
}

# A store of 16,384 pages and 65,536 frames, of which each page has a frame.
casper() {
    local program=$top/crates/casper_bench/out/casper_bench pages opening
    (cd "$top/crates/casper_bench" && rt run -- make "$work/casper") </dev/null >"$work/making" 2>&1 || {
        cat "$work/making" >&2
        exit 70
    }
    "$program" commit "$work/casper" $all 1 >/dev/null
    for pages in 1 16 256; do
        opening=$(timed "$program" commit "$work/casper" $pages 0)
        tell casper $pages "$opening" "$(timed "$program" commit "$work/casper" $pages "$commits")"
    done
}

# The SQL of so many commits of random pages.
sql() {
    awk -v mode="$1" -v count="$2" -v commits="$3" -v all=$all 'BEGIN {
        srand(1)
        printf "PRAGMA journal_mode=%s; PRAGMA synchronous=FULL;\n", mode
        stretch = int(all / count)
        for (commit = 0; commit < commits; commit++) {
            print "BEGIN IMMEDIATE;"
            for (at = 0; at < count; at++)
                printf "UPDATE page SET bytes = randomblob(4096) WHERE number = %d;\n", at * stretch + int(rand() * stretch)
            print "COMMIT;"
        }
    }' >"$work/sql"
}

run_sql() {
    sqlite3 "$work/sqlite" <"$work/sql" >"$work/modes"
}

# A table of 16,384 pages, each a blob of 4,096 bytes.
sqlite() {
    local mode pages opening
    sqlite3 "$work/sqlite" "CREATE TABLE page(number INTEGER PRIMARY KEY, bytes BLOB); WITH RECURSIVE n(x) AS (VALUES(0)
        UNION ALL SELECT x + 1 FROM n WHERE x < $all - 1) INSERT INTO page SELECT x, randomblob(4096) FROM n;"
    for mode in DELETE WAL; do
        for pages in 1 16 256; do
            sql $mode $pages 0
            opening=$(timed run_sql)
            sql $mode $pages "$commits"
            tell "sqlite, journal $mode" $pages "$opening" "$(timed run_sql)"
        done
    done
}

# A database of 16,384 values of 4,096 bytes under numbers.
lmdb() {
    local pages opening
    "$work/commit_lmdb" "$work/lmdb" $all 1
    for pages in 1 16 256; do
        opening=$(timed "$work/commit_lmdb" "$work/lmdb" $pages 0)
        tell lmdb $pages "$opening" "$(timed "$work/commit_lmdb" "$work/lmdb" $pages "$commits")"
    done
}

casper
if command -v sqlite3 >/dev/null; then
    sqlite
else
    echo "sqlite: sqlite3 is not on PATH"
fi
if cc -O2 -o "$work/commit_lmdb" "$top/bench/commit_lmdb.c" -llmdb 2>/dev/null; then
    lmdb
else
    echo "lmdb: its library or a C compiler is not there"
fi

#!/usr/bin/env bash
# Writes the table of docs/ARCHITECTURE.md that says what stands on what: for each crate of crates.txt, lowest first, the crates that
# it uses and what it is for, which is the first sentence of its source. With --check it only says whether the table is so.
set -eu
top=$(cd "$(dirname "$0")/.." && pwd)
page=$top/docs/ARCHITECTURE.md
begin='<!-- crates: written by tools/crate-table.sh -->'
end='<!-- end of crates -->'

# The crates, lowest first, each with those that it uses.
crates() {
    awk -F: '
        function visit(name,   parts, count, at) {
            if (!(name in below) || seen[name]++) return
            count = split(below[name], parts, " ")
            for (at = 1; at <= count; at++) visit(parts[at])
            print name ":" below[name]
        }
        { sub(/#.*/, "") }
        NF { split($1, words, " "); names[++number] = words[1]; below[words[1]] = $2 }
        END { for (at = 1; at <= number; at++) visit(names[at]) }
    ' "$top/crates.txt"
}

# What the crate says of itself: its lines that begin with `//!`.
purpose() {
    cat "$top/crates/$1/src/lib.rt" "$top/crates/$1/src/main.rt" 2>/dev/null | sed -n 's#^//! *##p' | tr '\n' ' ' | sed 's/ *$//; s/|/\\|/g'
}

table() {
    echo "| crate | stands on | for |"
    echo "|---|---|---|"
    crates | while IFS=: read -r name below; do
        echo "| \`$name\` | $(echo "$below" | sed 's/casper_//g; s/^ *//; s/ *$//; s/  */, /g') | $(purpose "$name") |"
    done
}

[ "$(grep -cxF -e "$begin" -e "$end" "$page")" = 2 ] || { echo "crate-table: $page needs the lines $begin and $end" >&2; exit 1; }
written=$(mktemp)
trap 'rm -f "$written"' EXIT
{
    awk -v begin="$begin" '{ print } $0 == begin { exit }' "$page"
    echo
    table
    echo
    awk -v end="$end" '$0 == end { after = 1 } after' "$page"
} >"$written"
if [ "${1-}" = --check ]; then
    cmp -s "$written" "$page" || { echo "crate-table: the table of docs/ARCHITECTURE.md is not that of crates.txt: tools/crate-table.sh writes it anew"; exit 1; }
    echo "crate-table: ok $(crates | wc -l)"
else
    cat "$written" >"$page"
fi

#!/bin/sh
# Makes two listings of almost 16 MiB, one of short lines and one of a single long line, and times how `print` reads and prints each.
# Usage: bench/long.sh [PROGRAM]
set -eu
here=$(CDPATH= cd -- "$(dirname -- "$0")/.." && pwd)
program=${1:-$here/crates/grun/out/grun}
work=$(mktemp -d)
trap 'rm -rf "$work"' EXIT
{
    printf 'glisting 1\nvi Main\n'
    yes 'add a b -> c' | head -n 1290000
    printf 'end\n'
} >"$work/short_lines.g"
{
    printf 'glisting 1\nvi Main\nadd'
    yes ' a' | head -n 8380000 | tr -d '\n'
    printf ' -> c\nend\n'
} >"$work/long_line.g"
for listing in short_lines long_line; do
    bytes=$(wc -c <"$work/$listing.g")
    begin=$(date +%s.%N)
    "$program" print <"$work/$listing.g" >"$work/$listing.out" || echo "status $?"
    finish=$(date +%s.%N)
    echo "$listing: $bytes bytes in $(echo "$finish - $begin" | bc) s, $(wc -c <"$work/$listing.out") bytes written"
done

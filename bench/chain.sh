#!/bin/bash
# Makes the listing of a chain of adds, each taking the one before it twice, and times its run. Usage: bench/chain.sh [COUNT [PROGRAM]]
count=${1:-2000}
here=$(CDPATH= cd -- "$(dirname -- "$0")/.." && pwd) || exit 1
program=${2:-$here/crates/grun/out/grun}
listing=$(mktemp) || exit 1
trap 'rm -f "$listing"' EXIT
awk -v count="$count" 'BEGIN {
    print "glisting 1"
    print "vi Main nonreentrant same"
    print "  control a i32 -> w0"
    print "  indicator r i32 <- w" count
    for (k = 1; k <= count; k++) print "  add w" k - 1 " w" k - 1 " -> w" k
    print "end"
}' >"$listing"
time "$program" run Main a=1 <"$listing"

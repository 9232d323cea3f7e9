#!/bin/sh
# Makes large listings and times how `check` answers each: 65,536 nodes in one diagram, 60,000 consumers of one name, 20,000 VIs in a chain of
# calls, a case with 100,000 selectors on one `when` line and one with as many `when` lines, 70 VIs that each call the next twice, and a
# case with 10,000 tunnels and as many branches, each of which uses one tunnel.
# Usage: bench/checks.sh [PROGRAM]
set -eu
here=$(CDPATH= cd -- "$(dirname -- "$0")/.." && pwd)
program=${1:-$here/crates/grun/out/grun}
work=$(mktemp -d)
trap 'rm -rf "$work"' EXIT
awk 'BEGIN {
    print "glisting 1\nvi Main\ncontrol a i32 -> w0\nindicator r i32 <- w65535"
    for (k = 1; k <= 65535; k++) print "inc w" k - 1 " -> w" k
    print "end"
}' >"$work/nodes.g"
awk 'BEGIN {
    print "glisting 1\nvi Main\ncontrol a i32 -> a\nindicator r i32 <- a"
    for (k = 1; k < 60000; k++) print "inc a -> _"
    print "end"
}' >"$work/consumers.g"
awk 'BEGIN {
    print "glisting 1\nvi Main\ncall V1\nend"
    for (k = 1; k < 19999; k++) print "vi V" k "\ncall V" k + 1 "\nend"
    print "vi V19999\nend"
}' >"$work/chain.g"
awk 'BEGIN {
    printf "glisting 1\nvi Main\ncontrol a i32 -> a\ncase a\nwhen 0"
    for (k = 1; k < 100000; k++) printf ", %d", k
    print "\nwhen default\nend\nend"
}' >"$work/selectors.g"
awk 'BEGIN {
    print "glisting 1\nvi Main\ncontrol a i32 -> a\ncase a"
    for (k = 0; k < 99999; k++) print "when " k
    print "when default\nend\nend"
}' >"$work/branches.g"
awk 'BEGIN {
    print "glisting 1\nvi Main\ncall V1\nend"
    for (k = 1; k < 69; k++) print "vi V" k " preallocated\ncall V" k + 1 "\ncall V" k + 1 "\nend"
    print "vi V69 preallocated\nend"
}' >"$work/doubled.g"
awk 'BEGIN {
    print "glisting 1\nvi Main\ncontrol a i32 -> a\ncase a"
    for (k = 1; k <= 10000; k++) print "tunnel a -> t" k
    for (k = 1; k <= 10000; k++) print "when " k "\ninc t" k " -> _"
    print "when default\nend\nend"
}' >"$work/tunnels.g"
for listing in nodes consumers chain selectors branches doubled tunnels; do
    begin=$(date +%s.%N)
    answer=$("$program" check Main <"$work/$listing.g") || true
    finish=$(date +%s.%N)
    echo "$listing: $(echo "$finish - $begin" | bc) s, $(echo "$answer" | head -n 1)"
done

#!/bin/sh
# Makes listings of long runs and times each: a For Loop and a While Loop of 1,000,000 iterations, 1,000,000 operations on one queue, 32,767
# calls of a VI, a case of 60,000 nodes in a loop of 20 iterations, and two loops of 500,000 iterations that share a local.
# Usage: bench/runs.sh [PROGRAM]
set -eu
here=$(CDPATH= cd -- "$(dirname -- "$0")/.." && pwd)
program=${1:-$here/crates/grun/out/grun}
work=$(mktemp -d)
trap 'rm -rf "$work"' EXIT
cat >"$work/for.g" <<'END'
glisting 1
vi Main
indicator r i32 <- r
const i32 1000000 -> n
const i32 0 -> zero
for n -> i
  register zero -> sum | more -> r
do
  add sum i -> more
end
end
END
cat >"$work/while.g" <<'END'
glisting 1
vi Main
indicator r i32 <- r
const i32 999999 -> n
while stop -> i
  tunnel n -> last
  last i -> r
do
  ge i last -> stop
end
end
END
cat >"$work/queue.g" <<'END'
glisting 1
vi Main
indicator r i32 <- r
const i32 500000 -> n
const i32 0 -> zero
obtain "numbers" 100 i32 -> q
for n -> i
  tunnel q -> to
do
  enqueue to i -> _
end
for n -> _
  tunnel q -> from
  register zero -> sum | more -> r
do
  dequeue from -> item _
  add sum item -> more
end
end
END
awk 'BEGIN {
    print "glisting 1\nvi Main\nindicator r i32 <- w32767\nconst i32 0 -> w0"
    for (k = 1; k <= 32767; k++) print "call Next w" k - 1 " -> w" k
    print "end\nvi Next\ncontrol a i32 -> a\nindicator r i32 <- b\ninc a -> b\nend"
}' >"$work/calls.g"
awk 'BEGIN {
    print "glisting 1\nvi Main\nindicator r i32 <- r\nconst i32 20 -> n\nconst i32 0 -> zero\nfor n -> i\n  register zero -> from | to -> r\ndo\n  case i\n    tunnel from -> w0\n    result to\n  when 0, default\n    give w60000"
    for (k = 1; k <= 60000; k++) print "    inc w" k - 1 " -> w" k
    print "  end\nend\nend"
}' >"$work/case.g"
cat >"$work/local.g" <<'END'
glisting 1
vi Main
control shared i32 -> _
indicator r i32 <- r
const i32 500000 -> n
for n -> i
do
  write shared i
end
for n -> _
  last seen -> r
do
  read shared -> seen
end
end
END
for name in for while queue calls case local; do
    echo "$name"
    time "$program" run Main --iterations 1000001 <"$work/$name.g"
done

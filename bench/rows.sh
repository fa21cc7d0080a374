#!/bin/sh
# Writes what rows cost, in microseconds: adding a tree to no rows, adding it again, and finding it, for lists, combs,
# random graphs, rings, de Bruijn graphs and ladders of 2^6 to 2^14 nodes, and for the list of 1,000 equal elements. Each
# time is the best of five runs, so that what else the machine does plays a small part. Two are left off the sizes of lists
# and combs, so that no tree is too large.
set -eu
cd "$(dirname "$0")/../crates/bench"
rt run >/dev/null

best() {
    for _ in 1 2 3 4 5; do ./out/bench rows "$1" "$2"; done | awk '
        { for (i = 1; i <= NF; i++) if ($(i + 1) ~ /^us/) { if (!($(i - 1) in least) || $i + 0 < least[$(i - 1)]) least[$(i - 1)] = $i + 0 } head = $1 " " $2 " " $3 " nodes" }
        END { print head ", first " least["first"] " us, again " least["again"] " us, find " least["find"] " us" }'
}

for shape in list comb random ring different fibonacci debruijn ladder; do
    case "$shape" in list | comb) less=2 ;; *) less=0 ;; esac
    for power in 6 7 8 9 10 11 12 13 14; do
        best "$shape" $(((1 << power) - less))
    done
done
best list 1000

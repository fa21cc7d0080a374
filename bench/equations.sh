#!/bin/sh
# Writes what unification costs a pair: two cycles of n and n + 2 nodes, two rows of n dots, two rows of which one is
# spaced, and a million small calls. Each line is the best of five runs, so that what else the machine does plays a
# small part. Takes about ten seconds.
set -eu
cd "$(dirname "$0")/../crates/bench"
rt run >/dev/null

best() {
    for _ in 1 2 3 4 5; do ./out/bench equations "$1" "$2" "$3"; done | sort -t, -k3 -V | head -n 1
}

for power in 6 7 8 9 10; do
    size=$((1 << power))
    best cycles "$size" $((2000000 / (size * (size + 2) / 2) + 1))
done
for kind in rows spaced; do
    for power in 10 11 12 13 14 15 16 17; do
        size=$((1 << power))
        best "$kind" "$size" $((2000000 / size + 1))
    done
done
best small 0 1000000

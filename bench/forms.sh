#!/bin/sh
# Writes what `minimise` and `canon` cost a node: lists, rings, ladders and random graphs of 2^10 to 2^17 nodes.
# Each line is the best of five runs, so that what else the machine does plays a small part. Takes about a minute.
set -eu
cd "$(dirname "$0")/../crates/bench"
rt run >/dev/null

for shape in list ring ladder random; do
    for power in 10 11 12 13 14 15 16 17; do
        size=$((1 << power))
        calls=$((400000 / size + 1))
        for _ in 1 2 3 4 5; do ./out/bench forms "$shape" "$size" "$calls"; done | sort -V | head -n 1
    done
done

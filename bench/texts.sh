#!/bin/sh
# Writes how many bytes a second `print_tree` writes: lists, rings and tuples of 2^10 to 2^17 nodes.
# Each line is the best of five runs, so that what else the machine does plays a small part. Takes about a minute.
set -eu
cd "$(dirname "$0")/../crates/bench"
rt run >/dev/null

for shape in list ring tuple; do
    for power in 10 11 12 13 14 15 16 17; do
        size=$((1 << power))
        calls=$((400000 / size + 1))
        for _ in 1 2 3 4 5; do ./out/bench texts "$shape" "$size" "$calls"; done | sort -t, -k2 -n | tail -n 1
    done
done

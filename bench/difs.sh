#!/bin/sh
# Writes what inequations take: variables that all differ, bound one after the other, and many inequations of which one is
# tried and undone again and again. Each line is the best of five runs, so that what else the machine does plays a small
# part. Takes about ten seconds.
set -eu
cd "$(dirname "$0")/../crates/bench"
rt run >/dev/null

best() {
    for _ in 1 2 3 4 5; do ./out/bench difs "$1" "$2" "$3"; done | sort -t, -k2 -V | head -n 1
}

for size in 125 250 500 1000; do
    best different "$size" 0
done
for size in 1000 10000 100000; do
    best leaves "$size" 1000
    best stays "$size" 1000
done

#!/bin/sh
# Writes how many table calls a second 1, 2 and 4 threads make through a book: `count`, and `intern` with one small tree;
# 400,000 calls in all, shared out among the threads. Each line is the best of five runs, so that what else the machine
# does plays a small part. Takes about a minute.
set -eu
cd "$(dirname "$0")/../crates/bench"
rt run >/dev/null

for threads in 1 2 4; do
    for kind in count intern; do
        for _ in 1 2 3 4 5; do ./out/bench book "$kind" "$threads" $((400000 / threads)); done | sort -t: -k2 -n -r | head -n 1
    done
done

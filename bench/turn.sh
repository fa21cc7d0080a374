#!/bin/sh
# Writes how many turns a second 1, 2 and 4 threads take, by the turn and by std's mutex round the same count. Each line
# is the best of five runs, so that what else the machine does plays a small part. Takes about a minute.
set -eu
cd "$(dirname "$0")/../crates/bench"
rt run >/dev/null

for threads in 1 2 4; do
    for kind in turn mutex; do
        for _ in 1 2 3 4 5; do ./out/bench turn "$kind" "$threads" 1000000; done | sort -t: -k2 -n -r | head -n 1
    done
done

#!/bin/sh
# Writes what a derivation step costs in instructions, by valgrind: matching the second rule of append and of naive reverse
# and building its body, a copy of the latter, and finding one of 4,096 facts by its first argument. A figure is the
# difference of 11,000 calls and 1,000, so that what comes before the calls plays no part. Takes about a minute.
set -eu
cd "$(dirname "$0")/../crates/bench"
rt run >/dev/null

count() {
    valgrind --tool=cachegrind --cache-sim=no --cachegrind-out-file=/dev/null ./out/bench rules "$1" "$2" 2>&1 >/dev/null |
        awk '/I *refs/ { gsub(",", ""); print $NF }'
}

for kind in append reverse copy lookup; do
    few=$(count "$kind" 1000)
    many=$(count "$kind" 11000)
    echo "$kind: $(((many - few) / 10000)) instructions a call"
done

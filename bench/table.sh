#!/bin/sh
# Writes what calls of the table cost: calls a second for interning small trees, the first time and again, and for a pin and
# its drop beside few pins and many; the milliseconds of a sweep of 10^6 rows, held and then free; and the bytes a row takes
# in rows and in a table with its history, by the peak of the memory of two sizes. Each time is the best of three runs, so
# that what else the machine does plays a small part.
set -eu
cd "$(dirname "$0")/../crates/bench"
rt run >/dev/null

best() {
    for _ in 1 2 3; do ./out/bench table "$@"; done
}

# the least of the numbers in a column
least() { awk -v column="$1" '{ if (NR == 1 || $column + 0 < least) least = $column + 0 } END { print least }'; }

peak() {
    python3 -c '
import resource, subprocess, sys
subprocess.run(sys.argv[1:], stdout=subprocess.DEVNULL, check=True)
print(resource.getrusage(resource.RUSAGE_CHILDREN).ru_maxrss)' ./out/bench table "$@"
}

for count in 1000 10000 100000; do
    best intern "$count" > "${TMPDIR:-/tmp}/interns.$$"
    first=$(least 4 < "${TMPDIR:-/tmp}/interns.$$")
    again=$(least 7 < "${TMPDIR:-/tmp}/interns.$$")
    rm -f "${TMPDIR:-/tmp}/interns.$$"
    awk -v n="$count" -v first="$first" -v again="$again" \
        'BEGIN { printf "intern %d: first %.0f a second, again %.0f a second\n", n, n * 1e6 / first, n * 1e6 / again }'
done
for others in 0 1000 100000; do
    time=$(best pins 10000 "$others" | least 4)
    awk -v p="$others" -v time="$time" 'BEGIN { printf "pin and drop beside %d: %.0f calls a second\n", p, 20000 * 1e6 / time }'
done
best sweep 62 | awk '{ print }'
for kind in rows table; do
    low=$(peak "$kind" 31)
    high=$(peak "$kind" 93)
    awk -v kind="$kind" -v low="$low" -v high="$high" 'BEGIN { printf "%s: %.0f bytes a row\n", kind, (high - low) * 1024 / (62 * 16382) }'
done

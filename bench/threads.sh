#!/usr/bin/env bash
# How many derivation steps a second the program does with 1, 2, 4 and 32 sessions of the same work, and how many times
# as many that is as with one session. First with no table call: each session makes and reverses a list of 300 numbers 60
# times. Then with a table call every 104 steps: each session makes and reverses a list of eleven, and then counts, or
# keeps the list; 128 times, and 32 times where there are 32 sessions, which is as many commands as an input may have.
# What reading takes is left out: it is measured by the same input, refused at its last token. Each time is the best of
# 20 runs, of 5 with 32 sessions, or of 100 short ones. Takes about two minutes.
set -eu
export LC_ALL=C
cd "$(dirname "$0")/.."
program=crates/marseille/out/marseille
./marseille < examples/first.mars > /dev/null
# what the script tells the allocator
eval "$(grep '^memory=' marseille)"
export GLIBC_TUNABLES=$memory
inputs=$(mktemp -d)
trap 'rm -r "$inputs"' EXIT

# the commands of a session: so many times an ask, and what comes after it
commands() {
    local i
    for ((i = 0; i < $2; i++)); do
        case "$1" in
            none) echo '  ask reversed(300);' ;;
            count) echo '  ask made(11, x); count;' ;;
            keep) echo "  ask made(11, x); keep tt$i x;" ;;
        esac
    done
}

# an input of so many sessions, with these commands
input() {
    local i
    cat <<'RULES'
rules
  down(0, nil) -> / ;
  down(n, n.l) -> val(sub(n,1), m) down(m, l);
  app(nil, y, y) -> ;
  app(e.x, y, e.z) -> app(x, y, z);
  reverse(nil, nil) -> ;
  reverse(e.x, y) -> reverse(x, z) app(z, e.nil, y);
  made(n, r) -> down(n, l) reverse(l, r);
  reversed(n) -> down(n, l) reverse(l, r);
RULES
    for ((i = 0; i < $1; i++)); do printf 'session ss%s\n%s\n' "$i" "$2"; done
    echo end
}

# the steps of all asks, as the program tells them
steps_in() { awk '/^end / { sum += $2 } END { print sum }' "$1"; }

# the best time of so many runs on a file, in microseconds
best() {
    local least=1000000000 i from to
    for ((i = 0; i < $2; i++)); do
        from=${EPOCHREALTIME/./}
        "$program" < "$1" > "$inputs/said" || true
        to=${EPOCHREALTIME/./}
        [ $((to - from)) -ge "$least" ] || least=$((to - from))
    done
    echo "$least"
}

printf '%-6s %9s %9s %10s %16s %8s\n' calls sessions steps us 'steps a second' 'x one'
for calls in none count keep; do
    one=0
    for sessions in 1 2 4 32; do
        case "$calls $sessions" in
            'none 32') each=60 runs=5 ;;
            none*) each=60 runs=20 ;;
            *' 32') each=32 runs=100 ;;
            *) each=128 runs=100 ;;
        esac
        input "$sessions" "$(commands "$calls" "$each")" > "$inputs/run"
        { cat "$inputs/run"; echo end; } > "$inputs/refused"
        reading=$(best "$inputs/refused" "$runs")
        grep -q '^refused E2' "$inputs/said" || { echo "it isn't refused: $(head -n 1 "$inputs/said")"; exit 1; }
        took=$(($(best "$inputs/run" "$runs") - reading))
        steps=$(steps_in "$inputs/said")
        case "$calls" in none) wanted=46055 ;; *) wanted=104 ;; esac
        [ "$steps" -eq $((wanted * each * sessions)) ] || { echo "$steps steps in place of $((wanted * each * sessions))"; exit 1; }
        [ "$one" -ne 0 ] || one=$((steps * 1000 / took))
        awk -v calls="$calls" -v sessions="$sessions" -v steps="$steps" -v took="$took" -v one="$one" 'BEGIN {
            printf "%-6s %9d %9d %10d %16d %8.2f\n", calls, sessions, steps, took, steps * 1000000 / took, steps * 1000 / took / one
        }'
    done
done

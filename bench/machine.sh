#!/usr/bin/env bash
# What derivations take in the built program: naive reverse of 600 elements, counting down from a million, building a list
# of 100,000, permutations of 8, eight queens by `dif`, a zebra puzzle, and a million steps along a cycle. Each input of
# bench/machine is run first, and what it writes is compared with what is known of it. What is measured is its last ask: the
# difference between the input with that ask alone, or with as many of it as make five million steps, and the input with
# none. Processor seconds are the fewest of five runs; bytes are the process's largest size; instructions are counted by
# valgrind, and don't depend on what else the machine does; below each input are the functions that have most of them, a
# step, without what these call. Takes about ten minutes. It needs GNU time and valgrind.
set -eu
export LC_ALL=C
cd "$(dirname "$0")/.."
program=crates/marseille/out/marseille
./marseille < examples/first.mars > /dev/null
# what the script tells the allocator
eval "$(grep '^memory=' marseille)"
export GLIBC_TUNABLES=$memory
inputs=$(mktemp -d)
trap 'rm -r "$inputs"' EXIT
words=(run --steps 1000000000)

# numbers from one to another, each with a dot after it
dots() { seq -f '%g.' -s '' "$1" "$2" "$3"; }

# the permutations of 1 to N, least first, as lists, and the ways to put N queens
lists() {
    awk -v n="$2" -v kind="$1" '
        function fits(row, column,   i) {
            for (i = 1; i < row; i++) {
                if (at[i] == column) return 0
                if (kind == "queens" && (at[i] - column == row - i || column - at[i] == row - i)) return 0
            }
            return 1
        }
        function put(row, text,   column) {
            if (row > n) { print text "nil"; return }
            for (column = 1; column <= n; column++) if (fits(row, column)) { at[row] = column; put(row + 1, text column ".") }
        }
        BEGIN { put(1, "") }'
}

# answers with one variable, by its name, counted
answers() { awk -v name="$1" '{ print "answer " NR ": " name " = " $0 }'; }

# what an input writes
known() {
    echo 'session aa'
    case "$1" in
        reverse)
            echo "answer 1: l = $(dots 600 -1 1)nil, r = $(dots 1 1 600)nil"
            printf '%s\n' 'end 182104' 'answer 1: yes' 'end 182105'
            ;;
        count) printf '%s\n' 'answer 1: yes' 'end 2000003' ;;
        list)
            echo "answer 1: x = $(yes 'aa.' | head -n 100000 | tr -d '\n')nil"
            printf '%s\n' 'end 200003' 'answer 1: yes' 'end 200004'
            ;;
        permutations)
            lists permutations 8 | answers p
            echo 'end 328802'
            seq -f 'answer %g: yes' 40320
            echo 'end 328803'
            ;;
        queens)
            lists queens 8 | answers k
            echo 'end 15321'
            ;;
        zebra) printf '%s\n' 'answer 1: z = japanese, w = norwegian' 'end 29273' ;;
        cycle) printf '%s\n' 'answer 1: l = _1, r = _2 where _1 = aa._2, _2 = bb.cc._1' 'end 2000004' ;;
    esac
    echo 'swept 0, rows 0, pins 0'
}

# an input with its last ask so many times, and no other
asking() {
    awk -v times="$2" '
        /^  ask / { ask = $0; next }
        /^end/ { for (i = 0; i < times; i++) print ask }
        { print }' "bench/machine/$1.mars" > "$inputs/asks$2"
}

# the fewest processor seconds of five runs, and the most kilobytes
seconds() {
    for _ in 1 2 3 4 5; do /usr/bin/time -f '%U %S' "$program" "${words[@]}" < "$1" 2>&1 > /dev/null; done |
        awk '{ took = $1 + $2; if (NR == 1 || took < least) least = took } END { print least }'
}
kilobytes() { /usr/bin/time -f '%M' "$program" "${words[@]}" < "$1" 2>&1 > /dev/null; }

# the instructions of a run; which functions they are part of is kept beside the input
instructions() {
    valgrind --tool=callgrind --callgrind-out-file="$1.callgrind" "$program" "${words[@]}" < "$1" 2>&1 > /dev/null |
        awk '/Collected/ { print $NF }'
}

# the functions that have most instructions of a run with so many steps
dearest() {
    callgrind_annotate "$1.callgrind" | sed -nE 's/^ *([0-9,]+) (\([^)]*\) +)?[^: ]*:(.*) \[[^]]*\]$/\1 \3/p' |
        awk -v steps="$2" 'NR <= 8 { gsub(",", "", $1); printf "    %8.0f  %s\n", $1 / steps, $2 }'
}

printf '%-13s %9s %14s %8s %16s %13s\n' input steps 'instructions' 'a step' 'steps a second' 'bytes a step'
for name in reverse count list permutations queens zebra cycle; do
    "$program" "${words[@]}" < "bench/machine/$name.mars" > "$inputs/said"
    known "$name" | cmp - "$inputs/said"
    steps=$(awk '/^end / { steps = $2 } END { print steps }' "$inputs/said")
    many=$((5000000 / steps))
    [ "$many" -le 250 ] || many=250
    for times in 0 1 "$many"; do asking "$name" "$times"; done
    counted=$(($(instructions "$inputs/asks1") - $(instructions "$inputs/asks0")))
    size=$(($(kilobytes "$inputs/asks1") - $(kilobytes "$inputs/asks0")))
    awk -v name="$name" -v steps="$steps" -v counted="$counted" -v times="$many" -v size="$size" \
        -v took="$(seconds "$inputs/asks$many")" -v none="$(seconds "$inputs/asks0")" 'BEGIN {
            printf "%-13s %9d %14.0f %8.0f %16.0f %13.0f\n", name, steps, counted, counted / steps, steps * times / (took - none), size * 1024 / steps
        }'
    dearest "$inputs/asks1" "$steps"
done

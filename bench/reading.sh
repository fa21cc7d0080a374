#!/usr/bin/env bash
# How long the program takes to read inputs that it refuses at their last token, so that nothing is run: for each kind of
# input and each size the best of nine runs, in milliseconds, how many times that is what as many blanks take, which are
# copied through the program, and how many times what half the size takes. Status 1 where a million bytes take more than
# eight times what the blanks take.
set -eu
cd "$(dirname "$0")/.."
program=crates/marseille/out/marseille
./marseille < examples/first.mars > /dev/null
inputs=$(mktemp -d)
trap 'rm -r "$inputs"' EXIT

# rules of several goals, 4,096 at the most
rules() {
    awk -v most="$1" 'BEGIN {
        printf "rules"; size = 10
        for (i = 0; size < most - 260 && i < 4096; i++) {
            text = " pred" i "(first.rest,node(x,y" i ",leaf),<x,-12,first>) -> goal(x,y" i ",node(leaf,leaf)) other(first,rest.nil)"
            text = text " third(node(node(x,y" i ",leaf),node(leaf,x,first),rest),<first,x>) / last(x.y" i ".nil,node(leaf)) again(first.first.rest,x) more(first,x,nil);\n"
            printf "%s", text; size += length(text)
        }
        printf " end end"
    }'
}

# asks, 64 in each of at most 32 sessions
asks() {
    awk -v most="$1" 'BEGIN {
        printf "rules"; size = 10
        for (i = 0; size < most - 560 && i < 2048; i++) {
            text = (i % 64 ? "" : "\nsession ss" i) "\nask 12"
            for (j = 0; j < 8; j++) text = text " goal" j "(x" j ".rest,node(x,y" i ",leaf),<x,-12,first>) eq(y" i ",#kept)"
            text = text ";"
            printf "%s", text; size += length(text)
        }
        printf " end end"
    }'
}

# one put with definitions in thousands, each of a new variable by a new name over earlier and later variables
wide() {
    awk -v most="$1" 'BEGIN {
        text = "rules session aa put tt x where "; printf "%s", text; size = length(text)
        for (i = 0; size < most - 60; i++) {
            name = i ""; gsub(/0/, "a", name); gsub(/1/, "b", name); gsub(/2/, "c", name); gsub(/3/, "d", name); gsub(/4/, "e", name)
            gsub(/5/, "f", name); gsub(/6/, "g", name); gsub(/7/, "h", name); gsub(/8/, "i", name); gsub(/9/, "j", name)
            text = (i ? ", " : "") "x" i " = nn" name "(x" (i + 1) ", aa, bb, gg(x" int(i / 2) "))"
            printf "%s", text; size += length(text)
        }
        printf "; end end"
    }'
}

# commands with brackets 190 deep
deep() {
    awk -v most="$1" 'BEGIN {
        printf "rules session aa "
        for (i = 0; i < 190; i++) { opened = opened "ff(aa,bb,cc,dd,ee,gg,hh,ii,jj,"; closed = closed ")" }
        for (size = 20; size < most - 6000; size += length(text)) {
            text = "put tt " opened "aa" closed "; "
            printf "%s", text
        }
        printf "end end"
    }'
}

blanks() { head -c "$1" /dev/zero | tr '\0' ' '; }

# the best time of nine runs, in hundredths of a millisecond
best() {
    local least=1000000 i from to
    for i in 1 2 3 4 5 6 7 8 9; do
        from=$(date +%s%N)
        "$program" < "$1" > "$inputs/said" || true
        to=$(date +%s%N)
        [ $(((to - from) / 10000)) -ge "$least" ] || least=$(((to - from) / 10000))
    done
    echo "$least"
}

declare -A copied=()
status=0
printf '%-8s %10s %10s %8s %8s  %s\n' kind bytes ms 'x blanks' 'x half' 'is answered'
for kind in blanks rules asks wide deep; do
    half=0
    for size in 125000 250000 500000 1000000; do
        "$kind" "$size" > "$inputs/$kind"
        took=$(best "$inputs/$kind")
        [ "$kind" != blanks ] || copied[$size]=$took
        awk -v kind="$kind" -v bytes="$(stat -c %s "$inputs/$kind")" -v took="$took" -v copied="${copied[$size]}" -v half="$half" -v said="$(cat "$inputs/said")" 'BEGIN {
            printf "%-8s %10d %10.2f %8.1f %8s  %s\n", kind, bytes, took / 100, took / copied, half ? sprintf("%.1f", took / half) : "", said
        }'
        half=$took
    done
    [ "$took" -le $((8 * copied[1000000])) ] || status=1
done
exit "$status"

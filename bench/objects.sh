#!/usr/bin/env bash
# Times 500,000 lines on one list, on one dictionary and on one queue through the built console and through a plain C++
# program of the same job, in one run, and prints both times, their ratio and the greatest memory of each. Each script is
# a seeded mix: items come in for the first fifth, and then come, are looked at, change and go. Build the console first,
# by `rt ci`.
# usage: bench/objects.sh [ROUNDS]
set -euo pipefail
cd "$(dirname "$0")"
rounds=${1:-5}
. ./common.sh
if ! command -v c++ > /dev/null; then
    echo "$0: a C++ compiler, c++, is wanted" >&2
    exit 1
fi
c++ -O2 -std=c++17 -o out/objects objects.cpp

# The numbers of live items stand in `live`, so that each line names one that is there.
generate() {
    awk -v kind="$1" '
    function draw(n) { x = (x * 48271) % 2147483647; return x % n }
    function some() { return live[draw(count)] }
    function comes(line) { print line; live[count++] = ++made }
    function goes(k, number) { number = live[k]; live[k] = live[--count]; return number }
    BEGIN {
        x = 1; lines = 500000
        print kind " x"
        for (line = 1; line < lines; line++) {
            what = line < lines / 5 || count < 2 ? 0 : draw(10)
            if (kind == "list") {
                if (what < 2) {
                    way = count ? draw(4) : 0
                    if (way < 2) comes((way ? "push" : "append") " x " draw(1000000))
                    else comes((way == 2 ? "insert_before" : "insert_behind") " i" some() " " draw(1000000))
                } else if (what < 4) print "contents i" some()
                else if (what == 4) print "assign i" some() " " draw(1000000)
                else if (what == 5) print "succ i" some()
                else if (what == 6) print "pred i" some()
                else if (what < 9) print (draw(2) ? "move_to_front" : "move_to_rear") " i" some()
                else print "del_item i" goes(draw(count))
            } else if (kind == "dict") {
                # A key that is there keeps its item, which is looked up in its place.
                if (what < 2) {
                    new = draw(1000000000)
                    if (new in has) print "lookup x " new
                    else { has[new]; key[made + 1] = new; comes("dict_insert x " new " " draw(1000000)) }
                }
                else if (what < 4) print "lookup x " key[some()]
                else if (what == 4) print "change_inf i" some() " " draw(1000000)
                else if (what == 5) print "succ i" some()
                else if (what == 6) print "key i" some()
                else if (what < 9) print "inf i" some()
                else { number = goes(draw(count)); delete has[key[number]]; if (draw(2)) print "del x " key[number]; else print "del_item i" number }
            } else {
                # Which item is the least is not known here: it is looked at, and items go by their numbers.
                if (what < 2) { prio[made + 1] = draw(1000000000); comes("queue_insert x " prio[made + 1] " " draw(1000000)) }
                else if (what < 4) print "find_min x"
                else if (what < 7) { number = some(); prio[number] -= draw(100000000); print "decrease i" number " " prio[number] }
                else if (what == 7) print "prio i" some()
                else if (what == 8) print "inf i" some()
                else print "del_item i" goes(draw(count))
            }
        }
        # At the end the queue is emptied from its least item on.
        if (kind == "queue") for (; count > 0; count--) print "del_min x"
    }'
}

for kind in list dict queue; do
    generate "$kind" > "out/script.$kind"
    "$leda" < "out/script.$kind" > out/replies.leda
    out/objects < "out/script.$kind" > out/replies.cpp
    cmp out/replies.leda out/replies.cpp
    # The least time and the greatest memory of each, taken in turn.
    for ((round = 0; round < rounds; round++)); do
        for program in "$leda" out/objects; do
            echo "$(basename "$program") $(out/measure "out/script.$kind" "$program")"
        done
    done | awk -v kind="$kind" -v lines="$(wc -l < "out/script.$kind")" '
        { if (!($1 in best) || $2 < best[$1]) best[$1] = $2; if ($3 > most[$1]) most[$1] = $3 }
        END {
            printf "%s, %d lines\n", kind, lines
            printf "  leda       best %.3f s, greatest memory %d KiB\n", best["leda"], most["leda"]
            printf "  plain C++  best %.3f s, greatest memory %d KiB\n", best["objects"], most["objects"]
            printf "  ratio      %.2f (goal: at most 1.2)\n", best["leda"] / best["objects"]
        }'
done

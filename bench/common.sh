# What the scripts that time the console share. It is sourced from the folder bench/.
leda=../crates/leda/out/leda
mkdir -p out
if [ ! -x "$leda" ]; then
    echo "$0: the console isn't built; run 'rt ci' at the top of the repository first" >&2
    exit 1
fi
if ! command -v cc > /dev/null; then
    echo "$0: a C compiler, cc, is wanted" >&2
    exit 1
fi
cc -O2 -o out/measure measure.c

# The least processor time of the console on a script, in seconds, of as many runs as `rounds` says.
best() {
    for ((round = 0; round < rounds; round++)); do out/measure -c "$1" "$leda"; done | sort -n | head -1 | cut -d ' ' -f 1
}

# The milliseconds of a query where the net of the graph is at hand, and those of making the net: by the script that loads
# the graph, alone, with the query behind it, and with the query twenty times more. The net is made for the first query on a
# graph and kept until the graph changes, as the peers' graphs are made before their time begins.
# usage: parts SCRIPT QUERY
parts() {
    { cat "$1"; echo "$2"; } > out/once
    { cat out/once; for ((more = 0; more < 20; more++)); do echo "$2"; done; } > out/often
    echo "$(best "$1") $(best out/once) $(best out/often)" | awk '{
        query = ($3 - $2) / 20; printf "%.1f %.1f\n", query * 1000, ($2 - $1 - query) * 1000
    }'
}

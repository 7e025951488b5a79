#!/bin/sh
# Measures how long a view takes to find a chain that was published, alone and beside a thread that
# publishes others. Figures are nanoseconds by the clock, each the best of several runs.
#
#   bench/views.sh [PROGRAM]
#
# PROGRAM is crates/two_views/out/two_views where none is given. RUNS=N measures each N times (5 where
# it isn't set). The pairs are those of a ring of nodes, of which half are published beforehand.
. "$(dirname "$0")/setup.sh"
built two_views "$@"
scratch

echo "load: $(cut -d ' ' -f 1-3 /proc/loadavg)"
for nodes in 16 64 128; do
    run=0
    while [ "$run" -lt "${RUNS:-5}" ]; do
        "$program" time "$nodes" 5000000 >"$folder/row" || exit 2
        for kind in alone beside publication; do
            grep "$kind" "$folder/row" >>"$folder/$nodes-$kind"
        done
        run=$((run + 1))
    done
    echo "$nodes nodes, $((nodes * (nodes - 1) / 2)) pairs known"
    for kind in alone beside publication; do
        sort -n -k 2 "$folder/$nodes-$kind" | head -n 1
    done
done

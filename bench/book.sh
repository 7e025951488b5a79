#!/bin/sh
# Opens and closes 100,000 pairs of the largest configuration in one thread's runtime, and prints for each
# tenth of them the processor time of an opening and of a closing; then how many entries the journal has,
# how many modules they loaded, and how often the library was asked for a charmap.
#
#   bench/book.sh [PROGRAM]
#
# PROGRAM is crates/book_bench/out/book_bench where none is given. PAIRS=N opens so many. The configuration
# has 16,384 lines: 8,192 sets with a module and a charmap each. In the first run one pair is opened again
# and again, so its two modules stay resident. In the second one each set is converted to the next one, so
# an opening finds one module of two, and the other one is fetched.
. "$(dirname "$0")/setup.sh"
built book_bench "$@"
echo "load: $(cut -d ' ' -f 1-3 /proc/loadavg)"
for kind in same round; do
    echo "$kind"
    "$program" time "$kind" 8192 "${PAIRS:-100000}" || exit 2
done

#!/bin/sh
# Times the reader of configurations, the graph and the search for least chains.
#
#   bench/conf.sh [PROGRAM]
#
# PROGRAM is the built conf_bench: `rt ci conf_bench` leaves it in crates/conf_bench/out. The files of
# the system are those of the GNU C Library's package; where they are absent, they are passed over
# with a word.
. "$(dirname "$0")/setup.sh"
built conf_bench "$@"
system=${GCONV_DIR:-/usr/lib/x86_64-linux-gnu/gconv}

# Runs the program with no search and with many, and prints both times and the time of a search.
timed() {
    searches=$1
    shift
    begin=$(date +%s%N)
    "$program" "$@" 0 >/dev/null || return 1
    middle=$(date +%s%N)
    "$program" "$@" "$searches" || return 1
    end=$(date +%s%N)
    read_us=$(((middle - begin) / 1000))
    search_us=$(((end - middle - (middle - begin)) / 1000 / searches))
    echo "$*: read and built in $read_us us, a search in $search_us us"
    echo
}

for lines in 1024 2048 4096 8192 16384; do
    timed 200 ring "$lines" $((lines / 2))
    timed 200 pairs "$lines"
done
timed 200 ring 16384 16384
timed 200 ring 16384 200

for file in "$system/gconv-modules" "$system"/gconv-modules.d/*.conf; do
    if [ -r "$file" ]; then
        timed 1000 file "$file"
    else
        echo "$file: absent, passed over"
    fi
done

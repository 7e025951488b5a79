#!/bin/sh
# Measures look-ups through shared pages beside look-ups in a table of one's own, and turns that nobody
# else asks for. Figures are nanoseconds by processor time, each the best of several runs, turn and turn
# about; a look-up is that of a code's point and then of the point's code.
#
#   bench/pages.sh [PROGRAM]
#
# PROGRAM is crates/two_threads/out/two_threads where none is given. RUNS=N measures each N times (9 where
# it isn't set). The table is that of EUC-JP, from the system's package locales.
. "$(dirname "$0")/setup.sh"
charmaps=/usr/share/i18n/charmaps
need gzip
if [ ! -f "$charmaps/EUC-JP.gz" ]; then
    echo "skipped: there is no charmap EUC-JP in $charmaps (package locales)"
    exit 0
fi
built two_threads "$@"
scratch

map=$folder/EUC-JP
gzip -dc "$charmaps/EUC-JP.gz" >"$map" || exit 2
echo "load: $(cut -d ' ' -f 1-3 /proc/loadavg)"
run=0
while [ "$run" -lt "${RUNS:-9}" ]; do
    "$program" owned "$map" 20000000 >>"$folder/owned" || exit 2
    "$program" pages "$map" 20000000 >>"$folder/pages" || exit 2
    "$program" turns 5000000 >>"$folder/turns" || exit 2
    run=$((run + 1))
done
for kind in owned pages turns; do
    echo "$kind $(sort -n "$folder/$kind" | head -n 1 | cut -d ' ' -f 1,2)"
done

#!/bin/sh
# Measures the whole built program beside iconv(1), beside a small driver over iconv(3) and, where it is installed,
# uconv(1), and compares what they write.
#
#   bench/run.sh [PROGRAM [PART]..]
#
# PROGRAM is crates/iconv_batch/out/iconv_batch where none is given. The parts are texts, jobs, made, memory, start
# and workers; all of them where none is named. RUNS=N measures each row N times (5 where it isn't set), turn and turn
# about; a figure is the least of them, since other work on the machine only adds to it. Sets that stand in charmaps
# need the package locales. The files stand in a folder of TMPDIR: where that is in memory, as /dev/shm, no disk adds to
# the figures. A peer that is missing is skipped with a word. The status is 1 exactly where some bytes
# differ from a peer's, or a run fails. bench/whole.py says what is measured in each part.
. "$(dirname "$0")/setup.sh"
need python3 iconv cc
built iconv_batch "$@"
[ $# -gt 0 ] && shift
scratch
cc -O2 -pthread -o "$folder/iconv3_driver" "$here/bench/iconv3_driver.c" || exit 2
python3 -B "$here/bench/whole.py" "$program" "$folder" "${RUNS:-5}" "$@"

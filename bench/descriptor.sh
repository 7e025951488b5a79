#!/bin/sh
# Converts the same files by the same tables with one worker, through a descriptor whose tables lie in shared pages,
# and with none, over tables of one's own: how many times the processor time of the second the first takes.
#
#   bench/descriptor.sh [PROGRAM]
#
# PROGRAM is crates/iconv_batch/out/iconv_batch where none is given. RUNS=N measures each row N times (5 where it isn't
# set), turn and turn about; a figure is the least of them. From each figure that of the same list over empty files is
# taken, since a run with workers begins with the words of all pages. The last three columns are the time of the
# program's own instructions alone: a run with a worker keeps all outputs until its end, and has the kernel clear their
# pages anew for each job, which is no part of a conversion. A list has four jobs of one file of 16 MiB, with
# the tables of the system's package locales; the files stand in a folder of TMPDIR, best in memory (/dev/shm).
. "$(dirname "$0")/setup.sh"
need python3 iconv gzip
built iconv_batch "$@"
scratch
echo "load: $(cut -d ' ' -f 1-3 /proc/loadavg)"
python3 -B "$here/bench/descriptor.py" "$program" "$folder" "${RUNS:-5}"

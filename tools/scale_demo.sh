#!/bin/sh
# Converts many small files as docs/SCALE.md says, in lists of 500 by GNU parallel, and once more in lists
# of 4,096 one after another; outputs and sums must be the same. One list is repeated as after a failure.
#
#   tools/scale_demo.sh [PROGRAM]
#
# PROGRAM is out/iconv_batch where none is given. FILES=N makes N files, 20000 where it isn't set. All of
# it stands in a folder of its own that goes at the end. One file in a hundred can't be converted. It is
# skipped with a word where parallel, python3 or the program's long form is missing. The status is 1
# where something differs.
set -u
unset CDPATH
top=$(cd -- "$(dirname -- "$0")/.." && pwd) || exit 2
program=${1-$top/out/iconv_batch}
files=${FILES:-20000}
for tool in parallel python3; do
    command -v $tool >/dev/null || {
        echo "skipped: scale_demo.sh: $tool is missing (apt-get install $tool)"
        exit 0
    }
done
if [ ! -x "$program" ]; then
    echo "skipped: scale_demo.sh: there is no program at $program (./wensibag builds it)"
    exit 0
fi
ICONV_BATCH=$(cd -- "$(dirname -- "$program")" && pwd)/$(basename -- "$program")
export ICONV_BATCH

folder=$(mktemp -d) || exit 2
trap 'rm -rf "$folder"' EXIT
trap 'exit 2' HUP INT TERM
cd "$folder" || exit 2
ln -s "$top/tools" tools || exit 2

# a set of one byte that lacks the byte FF
mkdir -p charsets/charmaps
cat >charsets/gconv-modules <<'TXT'
module LATIN1// INTERNAL LATIN1 1
module INTERNAL LATIN1// LATIN1 1
TXT
echo 'LATIN1 table LATIN1' >charsets/bindings
cat >charsets/charmaps/LATIN1 <<'TXT'
<escape_char> /
<comment_char> %
CHARMAP
<U0000>..<U00FE> /x00
END CHARMAP
TXT
: >none.jobs
tools/run_list.sh charsets none.jobs 2>/dev/null
if [ $? -ne 0 ] || [ "$(cat none.jobs.report)" != 'jobs 0 ok 0 failed 0 read 0 written 0' ]; then
    echo 'skipped: scale_demo.sh: the program has no long form'
    exit 0
fi

LC_ALL=C awk -v files="$files" '
BEGIN {
    for (i = 0; i < files; i++) {
        name = "latin1/" int(i / 1000) "/" i
        if (i % 1000 == 0)
            system("mkdir -p latin1/" int(i / 1000))
        printf "file %d: caf\351, na\357ve%s\n", i, i % 100 == 7 ? ", \377" : "" >name
        close(name)
    }
}' || exit 2

tools/jobs.sh LATIN1 UTF-8 latin1 utf8 500 >lists 2>told || { cat told; exit 2; }
run_all() {
    parallel --joblog log tools/run_list.sh charsets {} --workers 0 :::: lists >told 2>&1
}
run_all
# the first list is left as by a run that was stopped: with an output that is cut off, and no report
: >"$(sed -n '1s/.* //p' utf8.jobs)"
rm utf8.jobs.report
tools/sum_reports.py lists >sums 2>told
if [ $? -ne 2 ] || ! grep -q 'run utf8.jobs again' told; then
    echo 'scale_demo.sh: a list without a report is not told'
    exit 1
fi
run_all
tools/sum_reports.py lists >sums

tools/jobs.sh LATIN1 UTF-8 latin1 plain >plain_lists 2>told || { cat told; exit 2; }
while IFS= read -r list; do
    tools/run_list.sh charsets "$list" </dev/null
done <plain_lists
tools/sum_reports.py plain_lists >plain_sums

echo "by parallel, $(wc -l <lists | tr -d ' ') lists: $(tail -n 1 sums)"
echo "in a row, $(wc -l <plain_lists | tr -d ' ') lists: $(tail -n 1 plain_sums)"
sort sums >sums.sorted
sort plain_sums | cmp -s - sums.sorted || {
    echo 'scale_demo.sh: the reports differ'
    exit 1
}
diff -r utf8 plain >told || {
    echo 'scale_demo.sh: outputs differ:'
    head -n 5 told
    exit 1
}
bad=$(awk -v files="$files" 'BEGIN { print int((files + 92) / 100) }')
[ "$(tail -n 1 sums | cut -d ' ' -f 1-6)" = "jobs $files ok $((files - bad)) failed $bad" ] || {
    echo "scale_demo.sh: $files jobs with $bad that fail are wanted"
    exit 1
}
echo 'scale_demo.sh: outputs and sums are the same'

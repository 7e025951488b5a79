#!/bin/sh
# Tries tools/run_list.sh and tools/sum_reports.py with a script in the program's place, and runs
# tools/scale_demo.sh over some files, whose commands must be those of docs/SCALE.md.
#
#   tools/try_scale.sh
set -u
unset CDPATH
here=$(cd -- "$(dirname -- "$0")" && pwd) || exit 2
if ! command -v python3 >/dev/null; then
    echo 'skipped: python3 is missing'
    exit 0
fi
folder=$(mktemp -d) || exit 2
trap 'rm -rf "$folder"' EXIT
trap 'exit 2' HUP INT TERM
cd "$folder" || exit 2
failed=0

# what ends with the status in the file 'ends', and reports the lines in the file 'reports'
cat >program <<'SH'
#!/bin/sh
echo "$*" >>ran
cat reports
exit "$(cat ends)"
SH
chmod +x program
ICONV_BATCH=$folder/program
export ICONV_BATCH

# runs a list with such a program, and tells whether the status and the number of runs are as wanted
run() {
    echo "$1" >ends
    printf '%s\n' "$2" >reports
    : >ran
    "$here/run_list.sh" charsets a.jobs --workers 0 2>told
    status=$?
    [ $status -eq "$3" ] && [ "$(wc -l <ran)" -eq "$4" ] && return
    echo "run_list.sh: status $status in place of $3, $(wc -l <ran) runs in place of $4, for a status $1"
    failed=1
}

# puts reports together, and tells whether the status is as wanted, and the text
sums() {
    wanted=$1
    shift
    python3 -B "$here/sum_reports.py" lists >said 2>told
    status=$?
    [ $status -eq "$wanted" ] && printf '%s\n' "$@" | cmp -s - said && return
    echo "sum_reports.py: status $status in place of $wanted, and the text"
    cat said told
    failed=1
}

printf '# two\nA B in1 out1\n\nA B in2 out2\n' >a.jobs
touch -d '2001-01-01' a.jobs
printf 'a.jobs\n' >lists
ok='jobs 2 ok 2 failed 0 read 5 written 7'
run 6 'out of memory' 6 1
sums 2 'jobs 0 ok 0 failed 0 read 0 written 0'
grep -q 'a.jobs.report: No such file or directory: run a.jobs again' told || failed=1
run 1 "$(printf '1: ok\n2: absent\njobs 2 ok 1 failed 1 read 5 written 7')" 1 1
grep -q -x -F -e '--modules charsets/gconv-modules --bindings charsets/bindings --charmaps charsets/charmaps --jobs a.jobs --workers 0' ran ||
    { echo 'run_list.sh: the words are others' && failed=1; }
run 0 "$ok" 1 0
sums 1 'in2: absent' 'jobs 2 ok 1 failed 1 read 5 written 7'
touch -d '2001-01-01' a.jobs.report
touch a.jobs
run 0 "$(printf '1: ok\n2: ok\n%s' "$ok")" 0 1
cp a.jobs b.jobs
cp a.jobs.report b.jobs.report
echo b.jobs >>lists
sums 0 'jobs 4 ok 4 failed 0 read 10 written 14'
printf '1: ok\n2: o' >b.jobs.report
sums 2 "$ok"
ICONV_BATCH=$folder/none
rm a.jobs.report
run 0 '' 70 0

FILES=300 "$here/scale_demo.sh" || failed=1
for line in 'tools/jobs.sh LATIN1 UTF-8 latin1 utf8 500 >lists' 'tools/sum_reports.py lists >sums' \
    'parallel --joblog log tools/run_list.sh charsets {} --workers 0 :::: lists'; do
    for text in scale_demo.sh ../docs/SCALE.md; do
        grep -q -F -e "$line" "$here/$text" || {
            echo "tools/$text hasn't the command '$line'"
            failed=1
        }
    done
done
[ $failed -eq 0 ] && echo 'run_list.sh, sum_reports.py: what is repeated, and what is added up'
exit $failed

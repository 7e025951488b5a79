#!/bin/sh
# Writes lists of jobs for all files of a folder and below it, and makes the folders of their outputs.
#
#   tools/jobs.sh FROM TO INDIR OUTDIR [MOST]
#
# The file INDIR/NAME becomes the job 'FROM TO INDIR/NAME OUTDIR/NAME'. The first list is OUTDIR.jobs,
# the next ones are OUTDIR.2.jobs, OUTDIR.3.jobs and so on, and their names go to the standard output.
# A list has at most MOST jobs (4096, which is the most) and inputs of at most 268,435,456 bytes. Give
# whole paths where the lists are run from another folder.
#
# A file whose name has a blank or isn't UTF-8 can't stand in a list: it is told on the standard error
# and left out. Links aren't followed.
#
# Statuses: 0 all files are listed, 1 some are left out or there is none, 2 nothing was written.
set -u
LC_ALL=C
QUOTING_STYLE=literal
export LC_ALL QUOTING_STYLE
unset CDPATH
ME=${0##*/}
export ME

stop() {
    echo "$ME: $1" >&2
    exit 2
}

[ $# -eq 4 ] || [ $# -eq 5 ] || stop "usage: $0 FROM TO INDIR OUTDIR [MOST]"
FROM=$1 TO=$2 IN=${3%/} OUT=${4%/} MOST=${5-4096}
export FROM TO IN OUT MOST
case $FROM in '' | '#'* | *[[:space:]]*) stop "FROM is '$FROM': it is empty, has a blank or begins with #" ;; esac
case $TO in '' | *[[:space:]]*) stop "TO is '$TO': it is empty or has a blank" ;; esac
for folder in "$IN" "$OUT"; do
    case $folder in '' | *[[:space:]]*) stop "the folder '$folder' is empty or has a blank in its name" ;; esac
done
case $MOST in '' | *[!0-9]* | ?????*) stop "MOST is '$MOST': give a number from 1 to 4096" ;; esac
[ "$MOST" -ge 1 ] && [ "$MOST" -le 4096 ] || stop "MOST is $MOST: give a number from 1 to 4096"
[ -d "$IN" ] || stop "there is no folder $IN: INDIR is the folder of the files to convert"
mkdir -p -- "$OUT" || stop "$OUT can't be made: give another OUTDIR"
in_path=$(cd -- "$IN" && pwd -P) || stop "$IN can't be entered"
out_path=$(cd -- "$OUT" && pwd -P) || stop "$OUT can't be entered"
case $out_path/ in
"$in_path"/*) stop "$OUT lies in $IN: a second run would convert what the first one made" ;;
esac

work=$(mktemp -d) || exit 2
WORK=$work
export WORK
trap 'rm -rf "$work"' EXIT
trap 'exit 2' HUP INT TERM

(cd -- "$IN" && find . -type f -path '*[[:space:]]*' -exec sh -c '
    for name; do echo "$ME: left out, since its name has a blank: $IN/${name#./}"; done' sh {} +) \
    >"$work/left" || stop "$IN can't be read whole"
(cd -- "$IN" && find . -type f ! -path '*[[:space:]]*' -exec ls -ln {} +) >"$work/found" ||
    stop "$IN can't be read whole"

# Size and name of each file whose name is UTF-8, and its folder.
awk '
BEGIN {
    low = "[\200-\277]"
    two = "[\302-\337]" low
    three = "\340[\240-\277]" low "|[\341-\354\356\357]" low low "|\355[\200-\237]" low
    four = "\360[\220-\277]" low low "|[\361-\363]" low low low "|\364[\200-\217]" low low
    text = "^([\001-\177]|" two "|" three "|" four ")*$"
    work = ENVIRON["WORK"]
}
{
    name = substr($NF, 3)
    if ((ENVIRON["IN"] name ENVIRON["OUT"]) !~ text) {
        print ENVIRON["ME"] ": left out, since its name is not UTF-8: " ENVIRON["IN"] "/" name >(work "/left2")
        next
    }
    print $5, name
    folder = name
    if (sub("/[^/]*$", "", folder) && !(folder in seen)) {
        seen[folder] = 1
        print folder >(work "/folders")
    }
}' "$work/found" >"$work/named" || stop 'awk fails'
cat "$work/left2" >>"$work/left" 2>/dev/null
cat "$work/left" >&2

if [ -f "$work/folders" ]; then
    while IFS= read -r folder; do
        mkdir -p -- "$OUT/$folder" || stop "$OUT/$folder can't be made"
    done <"$work/folders"
fi

# Further lists of an earlier run go, so that none of them is taken for one of these.
number=2
while [ -f "$OUT.$number.jobs" ]; do
    rm -f -- "$OUT.$number.jobs" || stop "$OUT.$number.jobs can't be replaced"
    number=$((number + 1))
done
sort -k 2 "$work/named" | awk '
BEGIN { most = ENVIRON["MOST"] + 0; list = ENVIRON["OUT"] ".jobs"; number = 1; printf "" >list }
{
    size = $1 > 16777216 ? 0 : $1
    if (jobs == most || bytes + size > 268435456) {
        close(list)
        number++
        list = ENVIRON["OUT"] "." number ".jobs"
        jobs = bytes = 0
    }
    if (jobs == 0)
        print list
    jobs++
    bytes += size
    print ENVIRON["FROM"], ENVIRON["TO"], ENVIRON["IN"] "/" $2, ENVIRON["OUT"] "/" $2 >list
}' || stop "the lists $OUT.jobs and so on can't be written"
jobs=$(wc -l <"$work/named")
echo "$ME: $((jobs)) jobs, $(wc -l <"$work/left" | tr -d ' ') files left out" >&2
[ "$jobs" -gt 0 ] && [ ! -s "$work/left" ]

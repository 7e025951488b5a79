#!/bin/sh
# Tries the built program on standard outputs that take nothing: a full one, a closed one, and a
# pipe that nobody reads.
#
#   tools/full_output.sh PROGRAM
#
# Each run must end by itself. One whose report can't be written has status 5, and OUT holds the
# converted bytes all the same; one whose words are wrong keeps status 2. The status of this script
# is 1 where a run does otherwise. Where /dev/full is missing, that output is skipped with a word.
set -u
if [ $# -ne 1 ] || [ ! -x "$1" ]; then
    echo "usage: tools/full_output.sh PROGRAM" >&2
    exit 2
fi
program=$(cd "$(dirname "$1")" && pwd)/$(basename "$1")

folder=$(mktemp -d) || exit 2
trap 'rm -rf "$folder"' EXIT
trap 'exit 2' HUP INT TERM
cd "$folder" || exit 2
printf '\303\251' >in
printf '\351\000' >wanted
failed=0

# tells a run's status beside the wanted one, and whether OUT is as it should be
judge() {
    if [ "$2" -ne "$3" ]; then
        echo "$1: status $2 in place of $3"
        failed=1
    elif [ "$3" -eq 5 ] && ! cmp -s out wanted; then
        echo "$1: OUT doesn't hold the converted bytes"
        failed=1
    else
        echo "$1: status $2"
    fi
    rm -f out
}

# a run that doesn't end within 20 seconds has status 124
convert() {
    timeout 20 "$program" -f UTF-8 -t UTF-16LE in out 2>/dev/null
}

if [ -e /dev/full ]; then
    convert >/dev/full
    judge 'a full output' $? 5
    timeout 20 "$program" -f UTF-8 >/dev/full 2>/dev/null
    judge 'a full output and wrong words' $? 2
else
    echo 'a full output: skipped, since /dev/full is missing'
fi

convert >&-
judge 'a closed output' $? 5
timeout 20 "$program" -f UTF-8 >&- 2>/dev/null
judge 'a closed output and wrong words' $? 2

# the reader is gone before the program begins
mkfifo pipe
: <pipe &
{
    wait $!
    convert
    echo $? >status
} >pipe
judge 'a pipe that nobody reads' "$(cat status)" 5

exit $failed

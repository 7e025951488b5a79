#!/bin/sh
# Tries tools/jobs.sh on a small tree of its own.
#
#   tools/try_jobs.sh
set -u
unset CDPATH
here=$(cd -- "$(dirname -- "$0")" && pwd) || exit 2
folder=$(mktemp -d) || exit 2
trap 'rm -rf "$folder"' EXIT
trap 'exit 2' HUP INT TERM
cd "$folder" || exit 2
failed=0

# tells whether a run has the wanted status
run() {
    wanted=$1
    shift
    "$here/jobs.sh" "$@" >said 2>told
    status=$?
    [ $status -eq "$wanted" ] && return
    echo "jobs.sh $*: status $status in place of $wanted"
    cat told
    failed=1
}

# tells whether a text has all these lines and no other
same() {
    name=$1
    shift
    printf '%s\n' "$@" | cmp -s - "$name" && return
    echo "jobs.sh: $name has not the wanted lines:"
    cat "$name"
    failed=1
}

# tells whether a line was told
says() {
    grep -q -F -e "$1" told && return
    echo "jobs.sh: it doesn't say '$1'"
    failed=1
}

mkdir -p in/a/deep 'in/a blank'
for name in in/1 in/a/2 'in/a/q"x\n' in/a/deep/-3; do echo text >"$name"; done
run 0 ISO-2022-JP utf-8 in out
same said out.jobs
same out.jobs 'ISO-2022-JP utf-8 in/1 out/1' 'ISO-2022-JP utf-8 in/a/2 out/a/2' \
    'ISO-2022-JP utf-8 in/a/deep/-3 out/a/deep/-3' 'ISO-2022-JP utf-8 in/a/q"x\n out/a/q"x\n'
[ -d out/a/deep ] || {
    echo 'jobs.sh: the folder out/a/deep is missing'
    failed=1
}

run 0 latin1 utf-8 in/ out/ 1
same said out.jobs out.2.jobs out.3.jobs out.4.jobs
same out.3.jobs 'latin1 utf-8 in/a/deep/-3 out/a/deep/-3'
run 0 latin1 utf-8 in out 3
same said out.jobs out.2.jobs
[ -e out.3.jobs ] && echo 'jobs.sh: a list of an earlier run is left' && failed=1

echo text >'in/a blank/4'
echo text >"in/$(printf 'tab\there')"
run 1 latin1 utf-8 in out
says 'left out, since its name has a blank: in/a blank/4'
says '4 jobs, 2 files left out'
if : >"in/$(printf 'caf\351')" 2>/dev/null; then
    : >"in/$(printf 'caf\303\251')"
    run 1 latin1 utf-8 in out
    says 'left out, since its name is not UTF-8: in/caf'
    says '5 jobs, 3 files left out'
fi

# inputs of more than 268,435,456 bytes in all need two lists; these files have no blocks on a disk
mkdir big
number=0
while [ $number -lt 17 ]; do
    dd if=/dev/null of=big/$number bs=1 seek=16777216 2>/dev/null
    number=$((number + 1))
done
run 0 latin1 utf-8 big out2
same said out2.jobs out2.2.jobs
[ "$(wc -l <out2.jobs)" -eq 16 ] || {
    echo 'jobs.sh: the first list of large files has not 16 jobs'
    failed=1
}

mkdir none
run 1 latin1 utf-8 none out3
run 2 latin1 utf-8 in
run 2 latin1 utf-8 missing out
says 'there is no folder missing'
run 2 latin1 utf-8 in in/out
says 'in/out lies in in'
run 2 latin1 utf-8 in out 4097
run 2 'a b' utf-8 in out
[ $failed -eq 0 ] && echo 'jobs.sh: lists what may be listed, and tells the rest'
exit $failed

#!/bin/sh
# Tries tools/install.sh in a small checkout of its own, where a script takes the place of the proof.
#
#   tools/try_install.sh
set -u
unset CDPATH
here=$(cd -- "$(dirname -- "$0")" && pwd) || exit 2
if ! command -v python3 >/dev/null; then
    echo 'skipped: python3 is missing'
    exit 0
fi
folder=$(mktemp -d) || exit 2
trap 'rm -rf "$folder"' EXIT
trap 'exit 2' HUP INT TERM
cd "$folder" || exit 2
failed=0

mkdir -p top/tools top/docs top/out
cp "$here/install.sh" "$here/jobs.sh" "$here/system_config.py" top/tools/
cp "$here/../docs/iconv_batch.1" top/docs/
cat >top/tools/proved_program.py <<'PY'
import os
import sys

if os.path.exists("unproved"):
    sys.exit(70)
with open(os.path.join(os.path.dirname(os.path.abspath(__file__)), "../out/iconv_batch"), "w") as program:
    program.write("#!/bin/sh\necho proved\n")
PY

# tells whether a run has the wanted status
run() {
    wanted=$1
    shift
    top/tools/install.sh "$@" >said 2>&1
    status=$?
    [ $status -eq "$wanted" ] && return
    echo "install.sh $*: status $status in place of $wanted"
    cat said
    failed=1
}

for _ in first second; do
    run 0 "$folder/a place"
    [ "$('a place/bin/iconv_batch')" = proved ] && cmp -s top/docs/iconv_batch.1 'a place/share/man/man1/iconv_batch.1' || {
        echo 'install.sh: the program or the man page is not in place'
        failed=1
    }
done
for line in "$folder/a place/bin/iconv_batch: the proved program" "$folder/a place/bin isn't on the PATH"; do
    grep -q -F "$line" said || {
        echo "install.sh: it doesn't say '$line'"
        failed=1
    }
done
found=$(find 'a place' -type f | wc -l)
[ "$found" -eq 4 ] || {
    echo "install.sh: $found files in place of 4"
    failed=1
}
mkdir in
echo text >in/1
(PATH=$folder/a\ place/bin:$PATH && iconv_batch_jobs latin1 utf-8 in new >told 2>&1 && iconv_batch_config --help >told) ||
    {
        echo 'install.sh: an installed script fails'
        cat told
        failed=1
    }
: >file
run 1 file
grep -q 'give a PREFIX' said || {
    echo "install.sh: it doesn't say what to do"
    failed=1
}
: >unproved
run 70 other
[ -e other ] && echo 'install.sh: it installs what is not proved' && failed=1
[ $failed -eq 0 ] && echo 'install.sh: puts four files in place'
exit $failed

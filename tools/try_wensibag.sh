#!/bin/sh
# Tries ./wensibag in a small checkout of its own, with a command in rt's place that proves nothing.
#
#   tools/try_wensibag.sh
#
# It looks at what is built when: at first, never without need, after each kind of change, once for
# two runs at a time, and what is left and said where a crate isn't proved. Takes some seconds.
set -u
here=$(CDPATH= cd -- "$(dirname -- "$0")/.." && pwd) || exit 2
folder=$(mktemp -d) || exit 2
trap 'rm -rf "$folder"' EXIT
trap 'exit 2' HUP INT TERM
cd "$folder" || exit 2
failed=0

mkdir -p kit/bin top/tools
echo 'kit one' >kit/version
cat >kit/bin/rt <<'RT'
#!/bin/sh
kit=$(dirname "$(dirname "$(readlink -f "$0")")")
name=${PWD##*/}
case $1 in
version) exec cat "$kit/version" ;;
lib | run) echo "$name" >>"$kit/log" ;;
*) exit 2 ;;
esac
sleep 0.02
[ -e "$kit/edit" ] && mv "$kit/edit" "$PWD/src/edited.rt"
if [ -e src/fault.rt ]; then
    echo "an open goal in $name"
    exit 1
fi
mkdir -p out
[ "$1" = run ] || exit 0
{
    echo '#!/bin/sh'
    echo 'echo "$@"; [ $# -eq 6 ] || exit 2'
} >out/iconv_batch
chmod +x out/iconv_batch
exit 2
RT
chmod +x kit/bin/rt
PATH=$folder/kit/bin:$PATH
cp "$here/wensibag" top/
cp "$here/tools/proved_program.py" top/tools/
cat >top/crates.txt <<'TXT'
# ground
low:
other: arrayvec
# program
mid: low
iconv_batch: mid other
bench: low
TXT
for name in low other mid iconv_batch bench; do
    mkdir -p "top/crates/$name/src" "top/crates/$name/proofs/lib/add"
    echo "fn $name" >"top/crates/$name/src/lib.rt"
    echo "lemma" >"top/crates/$name/proofs/lib/add/Answers.antt"
done
echo old >older.rt
touch -d '2001-01-01' older.rt

# tells whether a run did what is wanted: its status, and which crates it proved
run() {
    label=$1 wanted=$2 proved=$3
    shift 3
    : >kit/log
    "$@" >said 2>told
    status=$?
    found=$(sort kit/log | tr '\n' ' ')
    if [ $status -eq "$wanted" ] && [ "$found" = "$proved" ]; then
        return
    fi
    echo "$label: status $status in place of $wanted, proved '$found' in place of '$proved'"
    cat told
    failed=1
}

# tells whether the last run said what is wanted
says() {
    grep -q -e "$1" said told || {
        echo "$label: it doesn't say '$1'"
        failed=1
    }
}

all='iconv_batch low mid other '
words='-f UTF-8 -t UTF-16LE in out'
run 'the first run' 0 "$all" top/wensibag $words
says 'proving 4 of 4: iconv_batch'
says '^-f UTF-8 -t UTF-16LE in out$'
run 'the second run' 0 '' top/wensibag $words
run 'the third run' 0 '' top/wensibag $words
[ -s told ] && echo "the third run: it says something" && failed=1
echo 'fn more' >>top/crates/bench/src/lib.rt
run 'an edit of a bench' 0 '' top/wensibag $words
touch top/crates/low/src/lib.rt
run 'a touched source' 0 '' top/wensibag $words
echo 'fn more' >>top/crates/low/src/lib.rt
run 'an edit' 0 "$all" top/wensibag $words
run 'after an edit' 0 '' top/wensibag $words
cp -p older.rt top/crates/mid/src/new.rt
run 'an older new source' 0 "$all" top/wensibag $words
cp -p older.rt top/crates/mid/src/lib.rt
run 'an older text in place' 0 "$all" top/wensibag $words
rm top/crates/mid/src/new.rt
run 'a removed source' 0 "$all" top/wensibag $words
mkdir -p top/crates/other/specs
cp -p older.rt top/crates/other/specs/Lib.antt
run 'a new folder' 0 "$all" top/wensibag $words
echo 'kit two' >kit/version
touch kit/bin/rt
run 'another toolchain' 0 "$all" top/wensibag $words
sed -i 's/^other:.*/other: low/' top/crates.txt
run 'another line of crates.txt' 0 "$all" top/wensibag $words

echo 'fn again' >>top/crates/low/src/lib.rt
echo 'edited' >kit/edit
run 'an edit during the build' 70 "$all" top/wensibag $words
says 'changed meanwhile'
run 'after an edit during the build' 0 "$all" top/wensibag $words

echo 'fn' >top/crates/mid/src/fault.rt
cp top/out/iconv_batch before
run 'a crate that is not proved' 70 'low mid ' top/wensibag $words
says "an open goal in mid"
says "mid isn't proved or built; the whole log is"
cmp -s before top/out/iconv_batch || {
    echo "a crate that is not proved: the program of before is lost"
    failed=1
}
rm top/crates/mid/src/fault.rt
run 'as before the fault' 0 '' top/wensibag $words

echo 'fn twice' >>top/crates/low/src/lib.rt
run 'two at once' 0 "$all" sh -c 'top/wensibag "$@" & first=$!; top/wensibag "$@"; wait $first' sh $words

mkdir elsewhere
ln -s ../top/wensibag elsewhere/convert
run 'a symbolic link' 0 '' elsewhere/convert $words
run 'CDPATH' 0 '' env CDPATH="$folder/elsewhere" top/wensibag $words
run 'from another folder' 0 '' sh -c 'cd elsewhere && sh ../top/wensibag "$@"' sh $words
run 'by its bare name' 0 '' sh -c 'cd top && sh wensibag "$@"' sh $words
run 'on the PATH' 0 '' env PATH="$folder/top:$PATH" wensibag $words
run 'wrong words' 2 '' top/wensibag a b
says '--help shows'
run 'help' 0 '' top/wensibag --help
says 'FROM and TO are two of'
without=$(echo "$PATH" | tr ':' '\n' | while read -r at; do [ -x "$at/rt" ] || printf '%s:' "$at"; done)
run 'without a toolchain' 0 '' env PATH="$without" top/wensibag $words
echo 'fn last' >>top/crates/low/src/lib.rt
run 'an edit without a toolchain' 70 '' env PATH="$without" top/wensibag $words
says "isn't on the PATH"

[ $failed -eq 0 ] && echo 'wensibag: builds when it must, and only then'
exit $failed

#!/bin/sh
# Tries bench/against_iconv.py on two small charsets, with a script in the program's place.
#
#   tools/try_against_iconv.sh
set -u
unset CDPATH
here=$(cd -- "$(dirname -- "$0")" && pwd) || exit 2
for tool in python3 iconv; do
    command -v $tool >/dev/null || {
        echo "skipped: $tool is missing"
        exit 0
    }
done
if ! iconv -f ISO-8859-1 -t CP1258 </dev/null 2>/dev/null; then
    echo 'skipped: iconv has not the charsets ISO-8859-1 and CP1258'
    exit 0
fi
folder=$(mktemp -d) || exit 2
trap 'rm -rf "$folder"' EXIT
trap 'exit 2' HUP INT TERM
cd "$folder" || exit 2
failed=0

# a converter between UTF-8 and sets whose bytes stand for themselves: below FF, and below 80
cat >program <<'PY'
#!/usr/bin/env python3
import os
import sys

words = dict(zip(sys.argv[1::2], sys.argv[2::2]))
number = good = taken = put = 0
ends = {"ISO-8859-1": 0xFF, "CP1258": 0x80}
for line in open(words["--jobs"]):
    source, target, name, output = line.split()
    text = open(name, "rb").read()
    points = text.decode() if source == "UTF-8" else text.decode("latin-1")
    end = ends[target if source == "UTF-8" else source]
    at = next((it for it, point in enumerate(points) if ord(point) >= end), len(points))
    made = points[:at].encode("latin-1" if source == "UTF-8" else "utf-8")
    if os.path.exists("wrong"):
        made = made.replace(b"A", b"B")
    open(output, "wb").write(made)
    number, good, taken, put = number + 1, good + (at == len(points)), taken + len(text), put + len(made)
    at = len(points[:at].encode()) if source == "UTF-8" else at
    print(f"{number}: {'ok' if at == len(text) else f'illegal at {at}'}")
print(f"jobs {number} ok {good} failed {number - good} read {taken} written {put}")
PY
printf '#!/bin/sh\nexit 2\n' >short
chmod +x program short
mkdir -p config/charmaps
for set in ISO-8859-1 CP1258; do
    printf 'module %s// INTERNAL %s 1\nmodule INTERNAL %s// %s 1\n' $set $set $set $set >>config/gconv-modules
    echo "$set table $set" >>config/bindings
done
printf '<escape_char> /\nCHARMAP\n<U0000>..<U00FE> /x00\nEND CHARMAP\n' >config/charmaps/ISO-8859-1
printf '<escape_char> /\nCHARMAP\n<U0000>..<U007F> /x00\n%%IRREVERSIBLE%% <U20AC> /x80\nEND CHARMAP\n' >config/charmaps/CP1258

# tells whether a run with this program has the wanted status and says these words
run() {
    program=$1 wanted=$2
    shift 2
    "$here/../bench/against_iconv.py" --program "./$program" --config config --below 10000 >said 2>&1
    status=$?
    [ $status -eq "$wanted" ] || {
        echo "against_iconv.py: status $status in place of $wanted"
        cat said
        failed=1
    }
    for words in "$@"; do
        grep -q -F -e "$words" said || {
            echo "against_iconv.py: it doesn't say '$words'"
            cat said
            failed=1
        }
    done
}

run program 0 'ISO-8859-1 to UTF-8, more: more: 1: ff' 'UTF-8 to ISO-8859-1, besides: more: 1: U+00FF' \
    'CP1258 to UTF-8, more: more: ' '1 of them marked %IRREVERSIBLE%: 80 82' '0 of them without a cause; 0 are'
: >wrong
run program 1 'ISO-8859-1 to UTF-8, codes: the program says ok and gives other bytes' "4 aren't what the charmap says"
run short 0 'skipped: the program has no long form'
[ $failed -eq 0 ] && echo 'against_iconv.py: names the cause of each difference'
exit $failed

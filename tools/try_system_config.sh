#!/bin/sh
# Tries tools/system_config.py on a small system of its own, and on this one where it has charmaps.
#
#   tools/try_system_config.sh
set -u
here=$(CDPATH= cd -- "$(dirname -- "$0")" && pwd) || exit 2
if ! command -v python3 >/dev/null; then
    echo 'skipped: python3 is missing'
    exit 0
fi
folder=$(mktemp -d) || exit 2
trap 'rm -rf "$folder"' EXIT
trap 'exit 2' HUP INT TERM
cd "$folder" || exit 2
failed=0

# tells whether the texts that were made are as docs/FORMATS.md says
judge() {
    python3 -B - "$1" "$2" <<'PY' || failed=1
import os
import re
import sys

folder, least = sys.argv[1], int(sys.argv[2])
name = re.compile(r"[A-Z0-9_\-.,:]+/[A-Z0-9_\-.,:]*/|INTERNAL")
charmap = re.compile(r"[A-Za-z0-9_\-,:+()][A-Za-z0-9_\-.,:+()]{0,63}")
lines = [line.split() for line in open(f"{folder}/gconv-modules")]
bindings = [line.split() for line in open(f"{folder}/bindings")]
bound = {words[0]: words for words in bindings}
ends = {}
for words in lines:
    good = all(name.fullmatch(it) and len(it) <= 64 for it in words[1:3])
    if words[0] == "alias":
        good = good and len(words) == 3
    else:
        good = good and words[0] == "module" and len(words) == 5 and words[3] in bound and words[4].isdigit()
        ends.setdefault(words[3], set()).update(words[1:3])
    if not good:
        sys.exit(f"{folder}/gconv-modules: {' '.join(words)}")
for words in bindings:
    size = {"table": 3, "iso2022jp": 4}.get(words[1])
    files = [f"{folder}/charmaps/{it}" for it in words[2:]]
    if len(words) != size or not all(charmap.fullmatch(it) for it in words[2:]) or not all(map(os.path.isfile, files)):
        sys.exit(f"{folder}/bindings: {' '.join(words)}")
    if len(ends[words[0]]) != 2:
        sys.exit(f"{folder}/bindings: {words[0]} stands for {' '.join(sorted(ends[words[0]]))}")
if len(bound) != len(bindings) or len(bound) < least:
    sys.exit(f"{folder}/bindings: {len(bindings)} lines for {len(bound)} words, and at least {least} are wanted")
PY
}

# tells whether each name that iconv(1) lists is bound, built in or told as left out
names_told() {
    command -v iconv >/dev/null || {
        echo 'skipped: iconv is missing, so nothing looks at the names that it lists'
        return
    }
    iconv -l | tr -d '()' | tr ' ' '\n' | sed 's,//$,,; /^$/d' | sort -u >listed
    {
        awk '{ print $2; print $3 }' system/gconv-modules
        sed -n 's/^  //p' said | sed 's/: .*//' | tr -d '()' | tr ' ' '\n'
        printf '%s\n' ASCII US-ASCII UTF-8 UTF8 UTF-16 UTF16 UTF-16LE UTF-16BE UCS-4 UCS4
    } | sed 's,//$,,' | sort -u >told
    comm -23 listed told >untold
    [ -s untold ] || return
    echo "system_config.py: it doesn't tell of $(tr '\n' ' ' <untold)"
    failed=1
}

# a charmap with this name, these further lines and some aliases in its comments
charmap() {
    {
        echo "<code_set_name> $1"
        echo '<comment_char> %'
        echo '<escape_char> /'
        for alias in $3; do echo "% alias $alias"; done
        echo CHARMAP
        printf '%b' "$2"
        echo 'END CHARMAP'
    } >"small/charmaps/$1"
}

mkdir -p small/charmaps small/gconv/gconv-modules.d
cat >small/gconv/gconv-modules <<'TXT'
# from to module cost
alias ONE// SET-ONE//
alias UNO// ONE//
alias LOST// SET-LOST//
module SET-ONE// INTERNAL SHARED 1
module INTERNAL SET-ONE// SHARED 1
module SET-TWO// INTERNAL SHARED 2
module INTERNAL SET-TWO// SHARED 2
module SET-LOST// INTERNAL SHARED 2
module INTERNAL SET-LOST// SHARED 2
module SET-BARE// INTERNAL BARE 1
module INTERNAL SET-BARE// BARE 1
module UTF-16// INTERNAL UTF-16 1
TXT
cat >small/gconv/gconv-modules.d/more.conf <<'TXT'
module SET-OVER// INTERNAL OVER 1
module SET-ONE// SET-TWO// DIRECT 1
module ISO-2022-JP// INTERNAL ISO-2022-JP 1
module INTERNAL ISO-2022-JP// ISO-2022-JP 1
module ISO-2022-JP-2// INTERNAL ISO-2022-JP 1
TXT
charmap SET-ONE '<U0041>..<U0043> /x41 THREE\n%%IRREVERSIBLE%%<U0044> /x44\n' ''
charmap OTHER '<U00000100> /d255/377\n' 'SET-TWO'
charmap SET-OVER '<U0041> /x41\n<U0042> /x41/x42\n' ''
printf '<U0041> /x41\n<U0042> /x42\n' >small/charmaps/SET-BARE
charmap JIS_X0201 '<U0041> /x41\n<U00A5> /x5c\n<UFF61> /xa1\n' ''
charmap EUC-JP '<U0041> /x41\n<U4E9C> /xb0/xa1\n<U4E02> /x8f/xb0/xa1\n' ''

"$here/system_config.py" --gconv small/gconv --charmaps small/charmaps --into made >said || failed=1
judge made 4
for line in '10 sets both ways, 6 of them built in, and 0 in one way, by 5 charmaps' \
    'SET-LOST (LOST): no charmap of that name is shipped' \
    'mended: charmap SET-BARE: its line CHARMAP is missing' \
    "UCS-2LE (UNICODELITTLE): a form of Unicode that isn't built in" \
    'SET-OVER: charmap SET-OVER: overlap: the code 41 begins 4142' \
    "ISO-2022-JP-2: its escapes choose other sets than those of ISO-2022-JP"; do
    grep -q -F "$line" said || {
        echo "system_config.py: it doesn't say '$line'"
        failed=1
    }
done
for line in 'module SET-TWO// INTERNAL SET-TWO 2' 'alias UNO// SET-ONE//' 'alias CP367// ASCII//'; do
    grep -q -x -F "$line" made/gconv-modules || {
        echo "system_config.py: gconv-modules has no line '$line'"
        failed=1
    }
done
for line in 'SET-TWO table OTHER' 'ISO-2022-JP iso2022jp JIS_X0201-ROMAN JIS_X0208'; do
    grep -q -x -F "$line" made/bindings || {
        echo "system_config.py: bindings has no line '$line'"
        failed=1
    }
done
grep -q -x -F '<U4E9C> /x30/x21' made/charmaps/JIS_X0208 || {
    echo 'system_config.py: a code of JIS_X0208 is not that of EUC-JP less 80 hex a byte'
    failed=1
}
"$here/system_config.py" --gconv small/gconv --charmaps small/none --into made 2>said && failed=1
grep -q 'apt-get install locales' said || {
    echo "system_config.py: it doesn't say which package is missing"
    failed=1
}

if [ -f /usr/share/i18n/charmaps/EUC-JP.gz ]; then
    "$here/system_config.py" --into system >said || failed=1
    judge system 198
    head -n 1 said
    names_told
else
    echo "skipped: this system's charmaps are missing (apt-get install locales)"
fi
[ $failed -eq 0 ] && echo 'system_config.py: makes what docs/FORMATS.md says'
exit $failed

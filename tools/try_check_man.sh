#!/bin/sh
# Tries tools/check_man.py: on the man page as it is, which must be right, and on wrong ones.
#
#   tools/try_check_man.sh
set -u
unset CDPATH
here=$(cd -- "$(dirname -- "$0")" && pwd) || exit 2
page=$here/../docs/iconv_batch.1
if ! command -v python3 >/dev/null; then
    echo 'skipped: python3 is missing'
    exit 0
fi
folder=$(mktemp -d) || exit 2
trap 'rm -rf "$folder"' EXIT
trap 'exit 2' HUP INT TERM
failed=0

# tells whether a page that this command of sed changed is refused in these words
refuses() {
    sed "$1" "$page" >"$folder/page"
    if python3 -B "$here/check_man.py" "$folder/page" >"$folder/said" || ! grep -q -F -e "$2" "$folder/said"; then
        echo "check_man.py: after '$1' it doesn't say '$2'"
        failed=1
    fi
}

python3 -B "$here/check_man.py" || failed=1
refuses '/^\.It Fl -pages/d' "the synopsis has --pages, and OPTIONS doesn't tell it"
refuses 's/^\.It Fl -pages/.It Fl -page/' 'OPTIONS tells --page, and no form of the synopsis has it'
refuses 's/^\.Op Fl -journal/.Fl -journal/' "the synopsis hasn't the usage line"
refuses 's/^\.It Fl -jobs/.It Fl -modules/' 'OPTIONS tells --modules twice'
if command -v mandoc >/dev/null; then
    mandoc -T lint -W warning "$page" || failed=1
else
    echo 'skipped: mandoc is missing, so nothing looks at the macros of the man page'
fi
exit $failed

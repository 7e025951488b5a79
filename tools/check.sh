#!/bin/sh
# Tries the scripts of this repository, and looks for what the documents name; takes some seconds, and
# proves nothing.
#
#   tools/check.sh
#
# The status is 1 where one fails. A script whose tool is missing here is skipped with a word.
here=$(CDPATH= cd -- "$(dirname -- "$0")" && pwd) || exit 1
failed=0
for script in "$here/check_docs.py" "$here"/try_*.sh; do
    "$script" || {
        echo "tools/$(basename "$script") fails"
        failed=1
    }
done
exit $failed

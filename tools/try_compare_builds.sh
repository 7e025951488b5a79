#!/bin/sh
# Tries tools/compare_builds.py on small scripts in the place of two programs.
#
#   tools/try_compare_builds.sh
set -u
here=$(CDPATH= cd -- "$(dirname -- "$0")" && pwd) || exit 2
folder=$(mktemp -d) || exit 2
trap 'rm -rf "$folder"' EXIT
trap 'exit 2' HUP INT TERM
failed=0

# a program of one line, whose words are -f FROM -t TO in out
program() {
    printf '#!/bin/sh\n%s\n' "$2" >"$folder/$1"
    chmod +x "$folder/$1"
}

# tells whether two programs are found to be the same, or to differ in this part
judge() {
    said=$(TMPDIR=$folder "$here/compare_builds.py" "$folder/$1" "$folder/$2" --runs 60)
    status=$?
    if [ $status -ne "$3" ] || ! echo "$said" | grep -q -e "$4"; then
        echo "compare_builds.py: $1 and $2: status $status, and not '$4': $said"
        failed=1
    fi
}

program copy 'cp in out; echo "$2 to $4"'
program short 'head -c 100 in >out; echo "$2 to $4"'
program other 'cp in out; echo "$4 to $2"'
program status 'cp in out; echo "$2 to $4"; [ "$(wc -c <in)" -lt 50 ]'
program litter 'cp in out; echo "$2 to $4"; : >more'
judge copy copy 0 '60 runs the same: 60 with status 0'
judge copy short 1 'OUT: old'
judge copy other 1 'report: old'
judge copy status 1 'status: old 0, new 1'
judge copy litter 1 'files: old'
[ $failed -eq 0 ] && echo 'compare_builds.py: finds what differs'
exit $failed

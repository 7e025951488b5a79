#!/bin/sh
# Runs one list of jobs, and keeps its report beside it.
#
#   tools/run_list.sh CHARSETS LIST [OPTION...]
#
# CHARSETS is a folder as tools/system_config.py makes it. Options, as '--workers 0', go to the program:
# that of ICONV_BATCH where it is set, else out/iconv_batch of this checkout, else iconv_batch of the PATH.
#
# The report is LIST.report, which is there only once the run has ended with status 0 or 1. A list whose
# report is newer than itself isn't run again. So after any failure the same command is given again.
#
# The status is the program's, or that which the report stands for, or 70 where there is no program.
set -u
unset CDPATH
here=$(cd -- "$(dirname -- "$0")" && pwd) || exit 70

say() {
    echo "run_list.sh: $1" >&2
}

if [ $# -lt 2 ]; then
    say 'usage: tools/run_list.sh CHARSETS LIST [OPTION...]'
    exit 2
fi
charsets=$1 list=$2 report=$2.report
shift 2
if [ "$report" -nt "$list" ] && last=$(tail -n 1 -- "$report"); then
    case $last in
    'jobs '*' failed 0 '*) exit 0 ;;
    'jobs '*' failed '*) exit 1 ;;
    esac
fi
program=${ICONV_BATCH:-$here/../out/iconv_batch}
[ -n "${ICONV_BATCH:-}" ] || [ -x "$program" ] || program=iconv_batch
command -v "$program" >/dev/null || {
    say "there is no program $program: ./wensibag or tools/install.sh builds it"
    exit 70
}
"$program" --modules "$charsets/gconv-modules" --bindings "$charsets/bindings" \
    --charmaps "$charsets/charmaps" --jobs "$list" "$@" >"$report.new"
status=$?
if [ $status -gt 1 ]; then
    say "$list: status $status: $(tail -n 1 -- "$report.new")"
    exit $status
fi
mv -f -- "$report.new" "$report" || exit 5
exit $status

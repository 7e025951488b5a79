#!/bin/sh
# Installs the proved program, its man page and the two scripts that make what it reads.
#
#   tools/install.sh [PREFIX]
#
# PREFIX is /usr/local where none is given. These files are made or replaced, and nothing else:
#
#   PREFIX/bin/iconv_batch                 the program, the same file as the one that ./wensibag runs
#   PREFIX/bin/iconv_batch_config          tools/system_config.py
#   PREFIX/bin/iconv_batch_jobs            tools/jobs.sh
#   PREFIX/share/man/man1/iconv_batch.1    the man page
#
# The program is proved and built first where that isn't done yet for the sources as they are. The
# status is 0 where all is in place, 70 where there is no proved program, else 1.
set -u
unset CDPATH
top=$(cd -- "$(dirname -- "$0")/.." && pwd) || exit 1
prefix=${1-/usr/local}

stop() {
    echo "install.sh: $1" >&2
    exit 1
}

[ $# -le 1 ] && [ -n "$prefix" ] || stop 'usage: tools/install.sh [PREFIX]'
case $prefix in -*) stop 'usage: tools/install.sh [PREFIX]' ;; esac
command -v python3 >/dev/null || stop 'python3 is missing: apt-get install python3'
python3 -B "$top/tools/proved_program.py" "$(command -v rt)" || exit 70

# puts a file in place at once, so that a program that runs meanwhile stays whole
put() {
    from=$top/$1 to=$prefix/$2
    mkdir -p -- "$(dirname -- "$to")" && cp -- "$from" "$to.new" && chmod "$3" "$to.new" && mv -f -- "$to.new" "$to" &&
        cmp -s -- "$from" "$to" || {
        rm -f -- "$to.new" 2>/dev/null
        stop "$to can't be made: give a PREFIX that you can write to, or be root"
    }
    echo "$to: $4"
}

put out/iconv_batch bin/iconv_batch 755 'the proved program, the same file as the one that ./wensibag runs'
put tools/system_config.py bin/iconv_batch_config 755 "makes a configuration of the system's charsets"
put tools/jobs.sh bin/iconv_batch_jobs 755 'makes lists of jobs'
put docs/iconv_batch.1 share/man/man1/iconv_batch.1 644 'the man page'
case :$PATH: in
*:"$prefix"/bin:* | *:"$prefix"/bin/:*) ;;
*) echo "$prefix/bin isn't on the PATH" ;;
esac

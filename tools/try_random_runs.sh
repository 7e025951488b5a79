#!/bin/sh
# Tries tools/random_runs.py on small scripts in the place of a program.
#
#   tools/try_random_runs.sh
set -u
here=$(CDPATH= cd -- "$(dirname -- "$0")" && pwd) || exit 2
folder=$(mktemp -d) || exit 2
trap 'rm -rf "$folder"' EXIT
trap 'exit 2' HUP INT TERM
failed=0

# a program that does what the second reading says, but for this line before it ends
program() {
    cat >"$folder/$1" <<END
#!/usr/bin/env python3
import os, sys
sys.path.insert(0, "$here")
sys.dont_write_bytecode = True
import second_reading as reading
import random_runs

def read(name):
    return open(name, "rb").read() if os.path.exists(name) else None

words = sys.argv[1:]
if words[:1] == ["-f"] and len(words) == 6 and words[2] == "-t":
    journal, ran = None, reading.run_short(words[1].encode(), words[3].encode(), random_runs.files_in("."))
elif words[:1] and words[0].startswith("--modules=.."):
    maps, journal = random_runs.files_in("../maps"), "../journal"
    texts = [read(f"../{it}") for it in ("modules", "bindings", "jobs")]
    ran = reading.run(*texts, maps, random_runs.files_in("."), int(words[-1]))
else:
    taken = [is_taken for it, is_taken in random_runs.WORDS if it == words][0]
    print("refused: modules: absent" if taken else random_runs.USAGE.decode().strip())
    sys.exit(3 if taken else 2)
status, report, files, told = ran
$2
for name, data in files.items():
    open(name, "wb").write(data)
if told is not None and journal:
    open(journal, "wb").write(told)
sys.stdout.buffer.write(report)
sys.exit(status)
END
    chmod +x "$folder/$1"
}

# tells whether so many of 12 runs of a program are found to differ, or some
judge() {
    said=$(TMPDIR=$folder "$here/random_runs.py" "$folder/$1" 12)
    status=$?
    if [ $status -ne "$2" ] || ! echo "$said" | grep -q -e "$3"; then
        echo "random_runs.py: $1: status $status, and not '$3': $said"
        failed=1
    fi
}

program same ''
program bytes 'files = {name: data.replace(b"A", b"B") for name, data in files.items()}'
program journal 'told = told and told.replace(b"close", b"closes")'
judge same 0 '12 runs, of which 0 differ'
judge bytes 1 'wanted'
judge journal 1 'journal: b'
[ $failed -eq 0 ] && echo 'random_runs.py: finds what differs'
exit $failed

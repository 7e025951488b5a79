#!/bin/sh
# Tries tools/gate_minutes.py on a small script in the gate's place, which starts what look like provers.
#
#   tools/try_gate_minutes.sh
set -u
here=$(CDPATH= cd -- "$(dirname -- "$0")" && pwd) || exit 2
folder=$(mktemp -d) || exit 2
trap 'rm -rf "$folder"' EXIT
trap 'exit 2' HUP INT TERM
failed=0

mkdir "$folder/rt-edit-one"
cat >"$folder/gate" <<'GATE'
#!/bin/sh
# a prover is told by its words and its folder
prover() {
    python3 -c 'import time; end = time.monotonic() + 1.5
while time.monotonic() < end: pass' "$@"
}
cd "$(dirname "$0")" || exit 1
prover --crate-name low &
prover --crate-name low --test &
(cd rt-edit-one && prover --crate-name high) &
wait
echo '3 passed, 1 failed'
exit 3
GATE
chmod +x "$folder/gate"
"$here/gate_minutes.py" "$folder/gate" >"$folder/said" 2>"$folder/table"
status=$?
[ $status -eq 3 ] || {
    echo "gate_minutes.py: status $status in place of 3"
    failed=1
}
[ "$(cat "$folder/said")" = '3 passed, 1 failed' ] || {
    echo "gate_minutes.py: the gate's output doesn't go by unchanged"
    failed=1
}
for row in '| `low` |' '| `high` | 0.0 | 0.0 |' '| the whole run'; do
    grep -q -F "$row" "$folder/table" || {
        echo "gate_minutes.py: the table has no row $row"
        failed=1
    }
done
[ $failed -eq 0 ] && echo 'gate_minutes.py: tells crates apart'
exit $failed

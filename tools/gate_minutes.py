#!/usr/bin/env python3
"""Runs the gate and tells how much processor time each crate took.

    tools/gate_minutes.py [COMMAND WORD ..]

COMMAND is .ci/run where none is given; its output goes by unchanged, and its status is the status. Then a table in
the form of bench/RESULTS.md goes to the standard error: of each crate the processor minutes of its proof, of its
tests' and of its must-fail edits. The gate's own lines have no times, so twice a second each prover at work is asked
for its own: what a prover does after it was last asked, and all else than provers, stands in the last row alone.
"""
import os
import re
import resource
import subprocess
import sys
import time

TOP = os.path.dirname(os.path.dirname(os.path.realpath(__file__)))
KINDS = ("proof", "tests", "edits")
TICKS = os.sysconf("SC_CLK_TCK")


def processes():
    """The parent, the start and the processor seconds of each process."""
    found = {}
    for name in os.listdir("/proc"):
        if name.isdigit():
            try:
                with open(f"/proc/{name}/stat", encoding="utf-8", errors="replace") as file:
                    fields = file.read().rpartition(")")[2].split()
            except OSError:
                continue
            found[int(name)] = int(fields[1]), int(fields[19]), (int(fields[11]) + int(fields[12])) / TICKS
    return found


def work_of(process):
    """The crate that a prover works on, and on what of it, or None."""
    try:
        with open(f"/proc/{process}/cmdline", encoding="utf-8", errors="replace") as file:
            words = file.read().split("\0")
        folder = os.readlink(f"/proc/{process}/cwd")
    except OSError:
        return None
    if "--crate-name" not in words:
        return None
    kind = "edits" if re.search(r"/rt-edit-", folder) else "tests" if "--test" in words else "proof"
    return words[words.index("--crate-name") + 1], kind


def is_below(process, above, found):
    while process in found and process != above:
        process = found[process][0]
    return process == above


def watch(child):
    """The seconds that each prover below the child was seen to take, until the child ends."""
    # A number is given to another process once its own has ended, so a process is its number and its start.
    seen, works = {}, {}
    while True:
        found = processes()
        for process, (_, start, seconds) in found.items():
            key = process, start
            if not works.get(key) and is_below(process, child.pid, found):
                works[key] = work_of(process)
            if works.get(key):
                seen[key] = works[key], seconds
        if child.poll() is not None:
            return seen
        time.sleep(0.5)


def main():
    started = time.monotonic()
    child = subprocess.Popen(sys.argv[1:] or [f"{TOP}/.ci/run"])
    seconds = {}
    for (crate, kind), took in watch(child).values():
        row = seconds.setdefault(crate, dict.fromkeys(KINDS, 0.0))
        row[kind] += took
    used = resource.getrusage(resource.RUSAGE_CHILDREN)
    rows = sorted(seconds.items(), key=lambda row: -sum(row[1].values()))
    lines = ["| Crate | Proof | Tests | Edits | All |", "|---|---|---|---|---|"]
    for crate, row in rows + [("all provers", {it: sum(row[it] for _, row in rows) for it in KINDS})]:
        cells = [row[it] for it in KINDS] + [sum(row.values())]
        lines.append(f"| `{crate}` | " + " | ".join(f"{it / 60:.1f}" for it in cells) + " |")
    lines.append(f"| the whole run, in {(time.monotonic() - started) / 60:.0f} minutes | | | | "
                 f"{(used.ru_utime + used.ru_stime) / 60:.1f} |")
    print("\n".join(lines), file=sys.stderr, flush=True)
    return child.returncode if child.returncode >= 0 else 128 - child.returncode


if __name__ == "__main__":
    sys.exit(main())

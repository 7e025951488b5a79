#!/usr/bin/env python3
"""Compares what two built programs do on many short runs.

    tools/compare_builds.py OLD NEW [--runs N] [--seed S]

Each run is drawn from the seed alone (1 where none is given): two of the six sets in any spelling of their names or
aliases, now and then a name that is refused when the job opens, and an input: valid text, valid text with some bytes
changed, cut off or put in, or bytes of any kind, from none to some KiB, at times around a limit of a piece. Both
programs convert it in a folder of their own; the report, the status and what OUT holds must be the same, the standard
error too. It prints how many runs were the same, with their statuses and how many of each refusal there were, and the
first one that wasn't, whose input it keeps. The status is 0 where all are the same, 1 where one isn't, 2 where the
words are wrong.
"""
import argparse
import os
import random
import re
import shutil
import subprocess
import sys
import tempfile

SETS = {"ASCII": "ascii", "UTF-8": "utf-8", "UTF-16": "utf-16", "UTF-16LE": "utf-16-le", "UTF-16BE": "utf-16-be",
        "UCS-4": "utf-32-be"}
ALIASES = {"ASCII": "us-ascii", "UTF-8": "utf8", "UTF-16": "utf16", "UCS-4": "ucs4"}
# Names that open no job, one or more for each refusal: the report tells it, the status is 1, and OUT stays.
WRONG = ["KLINGON", "UTF-7", "ISO-2022-JP", "UTF-16XE", "A" * 62, "UTF-8/x/", "utf-8 utf-8",
         "", "//", "/UTF-8", "!?", "UTF-8//TRANSLIT", "utf-8//x//", "INTERNAL", " internal//", "A" * 63, "A" * 65]
# Points from each range that some set treats in its own way.
RANGES = [(0x20, 0x7F), (0, 0x80), (0x80, 0x800), (0x800, 0xD800), (0xE000, 0x10000), (0xFEFF, 0xFF00),
          (0x3040, 0x30FF), (0x4E00, 0x9FFF), (0x10000, 0x110000), (0x1F600, 0x1F650)]
# A piece of input and its scratch have sizes of this kind.
EDGES = [4096, 65_536, 131_072]


def spelled(draw, name):
    """A name in some spelling of its normal form: letters of either case, bytes that don't count, slashes."""
    letters = []
    for letter in name:
        letters.append(letter.lower() if draw.random() < 0.5 else letter)
        if draw.random() < 0.05:
            letters.append(draw.choice(" !()*+;'\t@é"))
    return "".join(letters) + draw.choice(["", "", "", "/", "//", " ", "///x"])


def size_of(draw):
    """Mostly small sizes, at times some KiB, now and then some bytes beside an edge."""
    kind = draw.random()
    if kind < 0.5:
        return draw.randrange(0, 24)
    if kind < 0.85:
        return draw.randrange(0, 600)
    if kind < 0.98:
        return draw.randrange(0, 6000)
    return max(0, draw.choice(EDGES) + draw.randrange(-9, 10))


def text_of(draw, size, is_ascii):
    """Points of one range or of all, so many that they take about so many bytes."""
    chosen = RANGES[:2] if is_ascii else draw.sample(RANGES, draw.choice([1, 1, 2, 4, len(RANGES)]))
    points = []
    for _ in range(max(1, size // 3) if size else 0):
        first, behind = draw.choice(chosen)
        points.append(draw.randrange(first, behind))
    return "".join(map(chr, points))


def broken(draw, made):
    """Some bytes with a few of them changed, taken out, doubled or cut off."""
    made = bytearray(made)
    for _ in range(draw.choice([1, 1, 1, 2, 5])):
        at = draw.randrange(len(made) + 1)
        kind = draw.randrange(5)
        if kind == 0 and at < len(made):
            made[at] = draw.randrange(256)
        elif kind == 1:
            made[at:at] = bytes(draw.choice([[0xC0], [0xED, 0xA0], [0xF4, 0x90], [0xD8, 0], [0, 0xDC], [0xFE, 0xFF],
                                             [0xFF, 0xFE], [0x80], [0, 0x11, 0, 0], [0, 0, 0xD8, 0]]))
        elif kind == 2:
            del made[at:at + 1]
        elif kind == 3:
            made[at:at] = made[at:at + 3]
        else:
            del made[at:]
    return bytes(made)


def drawn(draw):
    """The two names and the input of one run."""
    source, target = draw.choice(list(SETS)), draw.choice(list(SETS))
    names = [draw.choice(WRONG) if draw.random() < 0.01 else
             spelled(draw, ALIASES.get(name, name) if draw.random() < 0.1 else name) for name in (source, target)]
    size = size_of(draw)
    if draw.random() < 0.1:
        return (*names, bytes(draw.randrange(256) for _ in range(size)))
    made = text_of(draw, size, source == "ASCII" or target == "ASCII" and draw.random() < 0.7)
    content = made.encode(SETS[source])
    if source == "UTF-16" and draw.random() < 0.5:
        content = draw.choice([b"", b"\xfe\xff"]) + made.encode(draw.choice(["utf-16-le", "utf-16-be"]))
    return (*names, broken(draw, content) if draw.random() < 0.4 else content)


def done(program, names, content, folder):
    """All that one program does with one run."""
    with open(f"{folder}/in", "wb") as file:
        file.write(content)
    with open(f"{folder}/out", "wb") as file:
        file.write(b"as before")
    try:
        ran = subprocess.run([program, "-f", names[0], "-t", names[1], "in", "out"], cwd=folder, capture_output=True,
                             stdin=subprocess.DEVNULL, timeout=60, check=False)
    except subprocess.TimeoutExpired:
        sys.exit(f"{program} doesn't end: -f {names[0]!r} -t {names[1]!r} {folder}/in")
    with open(f"{folder}/out", "rb") as file:
        out = file.read()
    return {"status": ran.returncode, "report": ran.stdout, "standard error": ran.stderr, "OUT": out,
            "files": sorted(os.listdir(folder))}


def refusal(report):
    """The refusal that a report's first line tells, without its numbers; empty where it tells another outcome."""
    outcome = report.partition(b"\n")[0].partition(b": ")[2].decode("ascii", "replace")
    if not outcome.startswith(("bad name", "no conversion")):
        return ""
    return re.sub(r"( at)? [0-9]+$", "", outcome)


def shown(value):
    text = repr(value)
    return text if len(text) <= 200 else f"{text[:200]}.. ({len(value)} bytes)"


def compare(old, new, runs, seed):
    draw, statuses, refusals = random.Random(seed), {}, {}
    with tempfile.TemporaryDirectory() as folder:
        sides = [f"{folder}/old", f"{folder}/new"]
        for side in sides:
            os.mkdir(side)
        for at in range(runs):
            source, target, content = drawn(draw)
            first, second = (done(it, (source, target), content, side) for it, side in zip((old, new), sides))
            if first != second:
                kept = tempfile.mkstemp(prefix="compare_builds.")[1]
                shutil.copyfile(f"{sides[0]}/in", kept)
                print(f"{at} runs the same; run {at} of seed {seed} isn't: -f {source!r} -t {target!r} {kept}")
                for part in first:
                    if first[part] != second[part]:
                        print(f"  {part}: old {shown(first[part])}, new {shown(second[part])}")
                return 1
            statuses[first["status"]] = statuses.get(first["status"], 0) + 1
            if refusal(first["report"]):
                refusals[refusal(first["report"])] = refusals.get(refusal(first["report"]), 0) + 1
    told = ", ".join([f"{statuses[it]} with status {it}" for it in sorted(statuses)] +
                     [f"{refusals[it]} '{it}'" for it in sorted(refusals)])
    print(f"{runs} runs the same: {told}")
    return 0


def main():
    words = argparse.ArgumentParser(description=__doc__.partition("\n")[0])
    words.add_argument("old", metavar="OLD")
    words.add_argument("new", metavar="NEW")
    words.add_argument("--runs", type=int, default=10_000)
    words.add_argument("--seed", type=int, default=1)
    given = words.parse_args()
    for program in (given.old, given.new):
        if not os.access(program, os.X_OK) or os.path.isdir(program):
            words.error(f"{program} is no program")
    return compare(os.path.abspath(given.old), os.path.abspath(given.new), given.runs, given.seed)


if __name__ == "__main__":
    sys.exit(main())

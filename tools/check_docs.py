#!/usr/bin/env python3
"""Tells which files, clauses and definitions the documents name that aren't there.

    tools/check_docs.py

It reads the tables of README.md and docs/DEFINITIONS.md, and the links and paths of all documents. In a row of
DEFINITIONS each name must be defined in a file of the row; in a row of README each call must be a function with a
contract that has the row's clauses. The status is 1 where something is missing.
"""
import glob
import os
import re
import sys

TOP = os.path.dirname(os.path.dirname(os.path.realpath(__file__)))
# What a row says in place of labels, and of a file.
SAME = ("the same", "the same calls")


def text_of(name):
    with open(f"{TOP}/{name}", encoding="utf-8") as file:
        return file.read()


def rows(name, head):
    """The cells of each row of the tables whose head begins so, with 'the same' filled in from the row before."""
    is_ours, before = False, []
    for line in text_of(name).splitlines():
        cells = [it.strip() for it in line.strip("|").split("|")] if line.startswith("|") else []
        if not cells:
            is_ours = False
        elif cells[0] in head:
            is_ours = True
        elif is_ours and not set(line) <= set("|-: "):
            cells = [before[at] if it in SAME and at < len(before) else it for at, it in enumerate(cells)]
            before = cells
            yield cells


def files_in(cell):
    """The files of a cell under crates/, where a name alone stands in the folder of the one before."""
    found, folder = [], ""
    for it in re.findall(r"`([\w/.]+)`", cell):
        folder = os.path.dirname(it) or folder
        found.append(f"crates/{folder}/{os.path.basename(it)}" if it.endswith(".antt") else f"crates/{it}")
    return found


def definitions():
    for cells in rows("docs/DEFINITIONS.md", ("Name",)):
        files = files_in(cells[3])
        known = "".join(text_of(it) for it in files if os.path.isfile(f"{TOP}/{it}"))
        for it in files:
            if not os.path.exists(f"{TOP}/{it}"):
                yield f"docs/DEFINITIONS.md: there is no {it}"
        for name in re.findall(r"`(\w+)`", cells[0]):
            if not re.search(rf"(?m)^ *(abbrev|unfoldable|pub|record)( pub| record)? {name}\b", known):
                yield f"docs/DEFINITIONS.md: {name} isn't defined in {' '.join(files)}"


def contracts():
    """The labels of each function's clauses, over all crates."""
    found = {}
    for file in glob.glob(f"{TOP}/crates/*/src/*.rt"):
        text = text_of(os.path.relpath(file, TOP))
        for part in re.split(r"(?m)^\s*(?:pub(?:\(crate\))? )?(?=fn \w)", text)[1:]:
            signature = re.split(r"(?m)^\s*\{|;$", part)[0]
            labels = re.findall(r"ensures\s+(\w*)", signature)
            if labels:
                found.setdefault(re.match(r"fn (\w+)", part)[1], []).extend(labels)
    return found


def promises():
    known = contracts()
    for cells in rows("README.md", ("Promise", "Law")):
        calls = [it.rpartition(":")[2] for it in re.findall(r"`([\w:]+)`", cells[1])]
        labels = re.findall(r"`(\w+)`", cells[2]) if len(cells) > 3 else []
        for call in calls:
            if call not in known:
                yield f"README.md: no function {call} has a contract"
        for label in labels:
            if not any(label in known.get(call, []) for call in calls):
                yield f"README.md: no clause of {', '.join(calls)} is called {label}"
        for file in files_in(cells[-1]):
            if not os.path.exists(f"{TOP}/{file}"):
                yield f"README.md: there is no {file}"


def paths():
    documents = ["README.md", "bench/RESULTS.md", *(f"docs/{it}" for it in sorted(os.listdir(f"{TOP}/docs")))]
    for name in documents:
        text = text_of(name)
        for link in re.findall(r"\]\(([^)#:]+)\)", text):
            if not os.path.exists(os.path.join(TOP, os.path.dirname(name), link)):
                yield f"{name}: the link {link} leads nowhere"
        for path in re.findall(r"`((?:bench|tools|docs|\.ci)/[\w./]+|[a-z_0-9]+/(?:src|specs)/[\w./]+)", text):
            if not any(os.path.exists(f"{TOP}/{it}{path}") for it in ("", "crates/")):
                yield f"{name}: there is no {path}"


found = [*definitions(), *promises(), *paths()]
print("\n".join(found) if found else "documents: what they name is there")
sys.exit(1 if found else 0)

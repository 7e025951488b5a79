#!/usr/bin/env python3
"""Compares the floors of docs/ARCHITECTURE.md with crates.txt and the folder crates/.

    tools/check_floors.py

It prints each disagreement and ends with status 1 where there is one: a crate that is missing in one of the three, or
stands on different floors, a crate marked 'to come' that stands, floors in another order, a crate that stands on one
of a higher floor, or is listed before one that it stands on.
"""
import os
import re
import sys

TOP = os.path.dirname(os.path.dirname(os.path.realpath(__file__)))


def text_of(name):
    with open(f"{TOP}/{name}", encoding="utf-8") as file:
        return file.read()


def told():
    """The floors of ARCHITECTURE in their order, the floor of each crate there, and the crates that are to come."""
    floors, floor_of, coming = [], {}, set()
    for line in text_of("docs/ARCHITECTURE.md").splitlines():
        heading = re.fullmatch(r"## (Floor: )?(.*)", line)
        if heading:
            floors += [heading[2]] if heading[1] else []
            is_floor = bool(heading[1])
        row = re.match(r"\| `(\w+)`( \(to come\))? \|", line)
        if row and floors and is_floor:
            floor_of[row[1]] = floors[-1]
            coming |= {row[1]} if row[2] else set()
    return floors, floor_of, coming


def listed():
    """The floors of crates.txt in their order, and the floor and the libraries of each crate there, in its order."""
    floors, crates = [], {}
    for line in text_of("crates.txt").splitlines():
        heading = re.fullmatch(r"# Floor: (.*)", line)
        floors += [heading[1]] if heading else []
        name, _, below = line.partition("#")[0].partition(":")
        if name.strip():
            crates[name.split()[0]] = (floors[-1] if floors else None, re.split(r"[\s,]+", below.strip()))
    return floors, crates


def faults():
    told_floors, floor_of, coming = told()
    floors, crates = listed()
    folders = {it for it in os.listdir(f"{TOP}/crates") if os.path.isdir(f"{TOP}/crates/{it}/src")}
    if floors != told_floors:
        yield f"the floors are {', '.join(told_floors)} in docs/ARCHITECTURE.md and {', '.join(floors)} in crates.txt"
    for name in sorted(folders | set(crates) | set(floor_of) - coming):
        if name not in folders:
            yield f"{name}: there is no crates/{name}/src"
        if name not in crates:
            yield f"{name}: crates.txt doesn't list it"
        if name not in floor_of:
            yield f"{name}: docs/ARCHITECTURE.md has no row of it"
        elif name in coming:
            yield f"{name}: it stands, and docs/ARCHITECTURE.md marks it 'to come'"
        elif name in crates and floor_of[name] != crates[name][0]:
            yield f"{name}: floor {floor_of[name]} in docs/ARCHITECTURE.md, {crates[name][0]} in crates.txt"
    places = {name: at for at, name in enumerate(crates)}
    heights = {name: floors.index(floor) for name, (floor, _) in crates.items() if floor in floors}
    for name, (floor, below) in crates.items():
        for it in below:
            if heights.get(it, 0) > heights.get(name, 0):
                yield f"{name}: it is on floor {floor} and stands on {it}, which is on {crates[it][0]}"
            elif places.get(it, -1) > places[name]:
                yield f"{name}: it stands on {it}, which crates.txt lists behind it"


found = list(faults())
print("\n".join(found) if found else "floors: docs/ARCHITECTURE.md, crates.txt and crates/ agree")
sys.exit(1 if found else 0)

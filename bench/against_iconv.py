#!/usr/bin/env python3
"""Compares the program with the system's iconv(1) on the whole repertoire of each charset of a configuration.

    bench/against_iconv.py [--program PROGRAM] [--config DIR] [--below POINT]

PROGRAM is out/iconv_batch where none is given. DIR is a folder as tools/system_config.py makes it; where none is given,
one is made of the system's charsets. One run of the program converts, for each charset,

  codes     all codes of its table, to UTF-8
  points    all its points, from UTF-8
  more      the codes of at most two bytes, and those of the charmap's %IRREVERSIBLE% lines, that iconv reads
            besides, to UTF-8; for ISO-2022-JP some escapes of its later forms
  besides   the points that iconv writes besides, from UTF-8; they are looked for below POINT, a decimal number, or
            among all
  cut       the proper prefixes of some of its longer codes, to UTF-8

and iconv(1) converts the same files. A file counts as the same where both give the same bytes and stop at the same
place or not at all. Each other one is listed with its cause, which is looked for code by code with iconv(3):

  more      iconv has codes that the charmap hasn't, or has on lines that count for one way alone
  alike     iconv writes a point that the charmap hasn't as the code of another point
  composing iconv reads one code as several points, writes one point as several codes, or puts neighbours together
  escape    iconv takes the byte 1B for a character where no escape of the set begins
  fewer     iconv lacks a code or a point of the charmap
  other     iconv has another point or another code there
  cut       one says incomplete where the other says illegal

What the program makes must also be what the charmap says. The status is 1 where it isn't, or where a difference has no
cause. Where iconv, the charmaps or the program's long form are missing, it is skipped with a word.
"""
import argparse
import ctypes
import os
import re
import shutil
import subprocess
import sys
import tempfile

TOP = os.path.dirname(os.path.dirname(os.path.realpath(__file__)))
sys.dont_write_bytecode = True
sys.path.insert(0, f"{TOP}/tools")
from system_config import Fault, code_of, header, normal, read_charmap, span_of, words_of  # noqa: E402

PLAIN, ROMAN, OLD_KANJI, KANJI = b"\x1b(B", b"\x1b(J", b"\x1b$@", b"\x1b$B"
# Kana, the later Kanji, Chinese and Korean, as ISO-2022-JP-2 and others have them.
LATER = [b"\x1b(I1", b"\x1b$(D0!", b"\x1b$A0!", b"\x1b$(C0!"]
BLOCK, MOST_SHOWN = 4096, 4


def skip(why):
    print(f"skipped: {why}")
    sys.exit(0)


class Library:
    """iconv(3) between two sets, a whole text a call."""

    code = ctypes.CDLL(None, use_errno=True)
    code.iconv_open.restype = ctypes.c_void_p
    code.iconv.restype = ctypes.c_size_t
    code.iconv.argtypes = [ctypes.c_void_p] * 5

    def __init__(self, source, target):
        self.handle = self.code.iconv_open(target.encode(), source.encode())
        if self.handle in (None, ctypes.c_void_p(-1).value):
            raise Fault("iconv doesn't know it")
        self.room = ctypes.create_string_buffer(256)

    def __call__(self, text):
        """The bytes that a short text becomes, or None where it isn't converted whole."""
        made = ctypes.create_string_buffer(text, max(1, len(text)))
        words = [ctypes.c_void_p(ctypes.addressof(made)), ctypes.c_size_t(len(text)),
                 ctypes.c_void_p(ctypes.addressof(self.room)), ctypes.c_size_t(len(self.room))]
        ends = self.code.iconv(self.handle, *map(ctypes.byref, words))
        self.code.iconv(self.handle, None, None, *map(ctypes.byref, words[2:]))
        if ends == ctypes.c_size_t(-1).value:
            return None
        return self.room.raw[:len(self.room) - words[3].value]


class Table:
    """A charset of a table: its codes with their points, and its points with their codes."""

    def __init__(self, name, charmap):
        with open(charmap, "rb") as file:
            text = file.read()
        self.name, self.points, self.codes = name, {}, {}
        for point, code in read_charmap(text):
            self.points.setdefault(code, point)
            self.codes.setdefault(point, code)
        self.marked = marked_in(text)
        self.prefixes = {code[:it] for code in self.points for it in range(1, len(code))}

    def spelled(self, points):
        return b"".join(map(self.codes.get, points))

    def are_codes(self, text):
        """Whether bytes are codes of the table, one behind the other."""
        at = next((it for it in range(1, 5) if text[:it] in self.points), None)
        return not text or (at is not None and self.are_codes(text[at:]))

    def more(self, library):
        """The codes that iconv reads and the table hasn't."""
        ones = [bytes([it]) for it in range(256)]
        starts = [it for it in ones if it not in self.points]
        twos = [it + second for it in starts for second in ones]
        marked = sorted(it for it in self.marked if isinstance(it, bytes))
        found = [it for it in [*starts, *marked, *twos] if it not in self.points and library(it)]
        whole = set(found)
        return sorted(it for it in whole if not any(it[:at] in whole for at in range(1, len(it))))


class Japanese(Table):
    """ISO-2022-JP: each code with the escape before it and the one behind it."""

    def __init__(self, name, roman, kanji):
        self.name, self.marked = name, set()
        tables = Table(name, roman), Table(name, kanji)
        units = [(bytes([it]), it) for it in range(128) if it != 0x1B]
        for escape, table, length in ((ROMAN, tables[0], 1), (KANJI, tables[1], 2), (OLD_KANJI, tables[1], 2)):
            units += [(escape + code + PLAIN, point) for code, point in sorted(table.points.items())
                      if len(code) == length and all(0x21 <= it <= 0x7E for it in code)]
        self.points, self.codes = dict(units), {}
        for code, point in units:
            self.codes.setdefault(point, code)
        self.prefixes = {PLAIN[:1], KANJI[:2]}

    def spelled(self, points):
        made, now = [], PLAIN
        for code in map(self.codes.get, points):
            escape = code[:3] if code[:1] == b"\x1b" else PLAIN
            made.append(code[3:-3] if escape != PLAIN else code)
            if escape != now:
                made.insert(-1, escape)
            now = escape
        return b"".join([*made, PLAIN if now != PLAIN else b""])

    def more(self, library):
        return [it for it in LATER if library(it)]


def marked_in(text):
    """The codes and the points of a charmap's %IRREVERSIBLE% lines."""
    lines = text.split(b"\n")
    escape, _, start = header(lines)
    marked = [words_of(it.partition(b"%IRREVERSIBLE%")[2]) for it in lines[start:]
              if it.lstrip().startswith(b"%IRREVERSIBLE%")]
    points = {point for span in map(span_of, (first for first, _ in marked)) if span
              for point in range(span[0], span[1] + 1)}
    return points | {code_of(code, escape) for _, code in marked if code} - {None}


def utf8(points):
    return "".join(map(chr, points)).encode()


def charsets(config):
    """The charsets that a configuration binds to tables, each with its table."""
    maps = f"{config}/charmaps"
    with open(f"{config}/bindings", encoding="ascii") as file:
        bound = {words[0]: words[1:] for words in map(str.split, file) if words}
    with open(f"{config}/gconv-modules", encoding="ascii") as file:
        lines = [words for words in map(str.split, file) if words[:1] == ["module"]]
    for source, target, module in (words[1:4] for words in lines):
        if normal(target) == "INTERNAL//" and module in bound:
            kind, *words = bound[module]
            name = normal(source)[:-1].rstrip("/")
            made = Table if kind == "table" else Japanese
            yield made(name, *(f"{maps}/{it}" for it in words))


def besides(charset, points):
    """Those of these points that iconv writes and the table hasn't."""
    done = subprocess.run(["iconv", "-c", "-f", "UTF-8", "-t", charset.name], input=utf8(points), capture_output=True,
                          check=False)
    if done.stdout == charset.spelled([it for it in points if it in charset.codes]):
        return []
    if len(points) > BLOCK:
        return [it for at in range(0, len(points), BLOCK) for it in besides(charset, points[at:at + BLOCK])]
    library = Library("UTF-8", charset.name)
    return [it for it in points if it not in charset.codes and library(utf8([it]))]


class File:
    """One file that both convert: what it should become, and where it should stop."""

    def __init__(self, charset, kind, units, should):
        self.charset, self.kind, self.units = charset, kind, units
        self.is_written = kind in ("points", "besides")
        self.text = utf8(units) if self.is_written else b"".join(units)
        self.ends = ("UTF-8", charset.name) if self.is_written else (charset.name, "UTF-8")
        self.should = should


def files_of(charset, all_points):
    """The files of one charset."""
    points, codes = sorted(charset.codes), sorted(charset.points)
    yield File(charset, "codes", codes, (utf8(charset.points[it] for it in codes), "ok"))
    yield File(charset, "points", points, (charset.spelled(points), "ok"))
    more = charset.more(Library(charset.name, "UTF-8"))
    if more:
        yield File(charset, "more", more, (b"", None))
    others = besides(charset, all_points)
    if others:
        yield File(charset, "besides", others, (b"", "illegal at 0"))
    prefixes = sorted(charset.prefixes)
    for it in sorted({prefixes[0], prefixes[-1], max(prefixes, key=len)} if prefixes else ()):
        yield File(charset, "cut", [it], (b"", "incomplete at 0"))


def ours(program, config, files, folder):
    """What the program makes of all files in one run: for each the bytes and the outcome."""
    with open(f"{folder}/jobs", "w", encoding="ascii") as jobs:
        for number, it in enumerate(files):
            with open(f"{folder}/{number}.in", "wb") as out:
                out.write(it.text)
            jobs.write(f"{it.ends[0]} {it.ends[1]} {folder}/{number}.in {folder}/{number}.out\n")
    report = run(program, config, f"{folder}/jobs")
    outcomes = [line.partition(": ")[2] for line in report[:-1]]
    if len(outcomes) != len(files):
        sys.exit(f"against_iconv.py: the program's report hasn't {len(files)} jobs: {report[-1:]}")
    for number, outcome in enumerate(outcomes):
        name = f"{folder}/{number}.out"
        with open(name if os.path.exists(name) else os.devnull, "rb") as made:
            yield made.read(), outcome


def run(program, config, jobs):
    """The lines that the program writes for a list of jobs."""
    words = [program, "--modules", f"{config}/gconv-modules", "--bindings", f"{config}/bindings",
             "--charmaps", f"{config}/charmaps", "--pages", "65536", "--jobs", jobs]
    return subprocess.run(words, capture_output=True, text=True, check=False).stdout.splitlines()


def theirs(it, name):
    """What iconv(1) makes of a file, in our words."""
    done = subprocess.run(["iconv", "-f", it.ends[0], "-t", it.ends[1], name], capture_output=True, check=False,
                          env={**os.environ, "LC_ALL": "C"})
    place = re.search(rb"(?:illegal input sequence|cannot convert) at position (\d+)", done.stderr)
    outcome = "ok" if done.returncode == 0 else f"illegal at {int(place[1])}" if place else "incomplete"
    return done.stdout, outcome


def are_same(mine, other):
    """Whether both gave the same bytes and stopped alike; iconv tells no place of what is incomplete."""
    return mine[0] == other[0] and (mine[1] == other[1] or mine[1].split()[0] == other[1] == "incomplete")


def shown(units):
    """Some of the codes or points, as hexadecimal numbers."""
    found = [it.hex() if isinstance(it, bytes) else f"U+{it:04X}" for it in units[:MOST_SHOWN]]
    return " ".join([*found, "..."] if len(units) > MOST_SHOWN else found)


def more_causes(it):
    """Why iconv converts codes or points that the charmap hasn't."""
    library, found = Library(*it.ends), {}
    for unit in it.units:
        made = library(utf8([unit]) if it.is_written else unit)
        if unit == 0x1B and isinstance(it.charset, Japanese):
            word = "escape"
        elif it.is_written:
            word = "alike" if made in it.charset.points else "composing" if it.charset.are_codes(made) else "more"
        else:
            word = "escape" if made == unit else "composing" if len(made.decode()) > 1 else "more"
        found.setdefault(word, []).append(unit)
    for word, units in found.items():
        marked = len(it.charset.marked.intersection(units))
        told = f", {marked} of them marked %IRREVERSIBLE%" if marked else ""
        yield f"{word}: {len(units)}{told}: {shown(units)}"


def causes(it, mine, other, folder):
    """The causes of a difference in a file, in words; none where they don't explain all of it."""
    charset = it.charset
    if it.kind in ("more", "besides"):
        return list(more_causes(it)) if other[1] == "ok" and not mine[0] else []
    if it.kind == "cut":
        is_named = {text.split()[0] for text in (mine[1], other[1])} == {"incomplete", "illegal"}
        return [f"cut: {it.text.hex()}: the program says {mine[1]}, iconv {other[1]}"] * is_named
    library = Library(*it.ends)

    def text_of(unit):
        return utf8([unit]) if it.kind == "points" else unit

    def wanted(unit):
        return charset.codes[unit] if it.kind == "points" else utf8([charset.points[unit]])

    alone = {unit: library(text_of(unit)) for unit in it.units}
    fewer = [unit for unit in it.units if alone[unit] is None]
    others = [unit for unit in it.units if alone[unit] not in (None, wanted(unit))]
    left = [unit for unit in it.units if alone[unit] == wanted(unit)]
    pairs = [(a, b) for a, b in zip(left, left[1:])
             if library(text_of(a) + text_of(b)) != spelled(charset, it.kind, [a, b])]
    found = [f"{word}: {len(units)}: {shown(units)}" for word, units in (("fewer", fewer), ("other", others)) if units]
    if pairs:
        found.append(f"composing: {len(pairs)} pairs: {shown([unit for pair in pairs for unit in pair])}")
    # With these units left out, and those of the pairs held apart by a line's end, all must be the same.
    end = 0x0A if it.kind == "points" else charset.codes.get(0x0A)
    first, apart = {a for a, _ in pairs}, []
    for unit in left:
        apart += [unit, end] if unit in first and end is not None else [unit]
    rest = File(charset, it.kind, apart, None)
    name = f"{folder}/rest"
    with open(name, "wb") as out:
        out.write(rest.text)
    return found if theirs(rest, name) == (spelled(charset, it.kind, apart), "ok") else []


def spelled(charset, kind, units):
    """What the charmap makes of codes or of points."""
    return charset.spelled(units) if kind == "points" else utf8(map(charset.points.get, units))


def compare(program, config, folder, below):
    all_points = [it for it in range(below) if not 0xD800 <= it < 0xE000]
    sets, files, faults, differences, unnamed = list(charsets(config)), [], 0, 0, 0
    for charset in sets:
        files += files_of(charset, all_points)
    for number, (it, mine) in enumerate(zip(files, ours(program, config, files, folder))):
        name = f"{' to '.join(it.ends)}, {it.kind}"
        if mine[0] != it.should[0] or it.should[1] not in (None, mine[1]):
            print(f"{name}: the program says {mine[1]} and gives other bytes than the charmap does")
            faults += 1
        other = theirs(it, f"{folder}/{number}.in")
        if are_same(mine, other):
            continue
        differences += 1
        named = causes(it, mine, other, folder)
        unnamed += not named
        for why in named or [f"NO CAUSE: the program says {mine[1]}, {len(mine[0])} bytes, iconv {other[1]}, "
                             f"{len(other[0])} bytes"]:
            print(f"{name}: {why}", flush=True)
    print(f"{len(sets)} charsets, {len(files)} files, {len(files) - differences} the same; {differences} differ, "
          f"{unnamed} of them without a cause; {faults} aren't what the charmap says")
    return 1 if faults or unnamed else 0


def main():
    words = argparse.ArgumentParser(description=__doc__.partition("\n")[0])
    words.add_argument("--program", default=f"{TOP}/out/iconv_batch")
    words.add_argument("--config", metavar="DIR")
    words.add_argument("--below", metavar="POINT", type=int, default=0x110000)
    given = words.parse_args()
    if not shutil.which("iconv"):
        skip("iconv is missing (apt-get install libc-bin)")
    if not os.access(given.program, os.X_OK):
        skip(f"there is no program at {given.program} (./wensibag builds it)")
    program = os.path.abspath(given.program)
    with tempfile.TemporaryDirectory() as folder:
        for name in ("gconv-modules", "bindings", "jobs"):
            open(f"{folder}/{name}", "wb").close()
        if run(program, folder, f"{folder}/jobs") != ["jobs 0 ok 0 failed 0 read 0 written 0"]:
            skip("the program has no long form")
        config = given.config
        if not config:
            config = f"{folder}/charsets"
            made = subprocess.run([f"{TOP}/tools/system_config.py", "--into", config], capture_output=True, text=True,
                                  check=False)
            if made.returncode != 0:
                skip(made.stderr.strip())
            print(made.stdout.partition("\n")[0])
        return compare(program, config, folder, given.below)


if __name__ == "__main__":
    try:
        sys.exit(main())
    except OSError as fault:
        sys.exit(f"against_iconv.py: {fault.filename}: {fault.strerror}")
    except Fault as fault:
        sys.exit(f"against_iconv.py: {fault}")

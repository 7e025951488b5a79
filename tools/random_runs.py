#!/usr/bin/env python3
"""Compares a built program with tools/second_reading.py over random runs, byte by byte.

    tools/random_runs.py PROGRAM [RUNS [SEED]]

Each run has a configuration, charmaps, jobs and inputs of its own, most of them with something broken in them; one in
ten is of the short form. With no workers its files, report, status and journal have to be those of the second reading;
with workers its journal has to be a legal history of the same jobs, and the rest as said by the second reading, but
for the jobs that the report and the journal tell as refused by a full store. Before them come lists of words with
something wrong, and from 100 runs on two on input that the program makes itself. RUNS is 1,000 where none is given,
and the runs of a seed are the same each time. What differs is told, its folder is kept, and the status is then 1.
"""
import os
import random
import shutil
import subprocess
import sys
import tempfile

sys.path.insert(0, os.path.dirname(os.path.realpath(__file__)))
sys.dont_write_bytecode = True
import second_reading as reading  # noqa: E402

POINTS = [*range(0x20, 0x7F), 0, 9, 10, 13, 0x1B, 0x7F, 0x80, 0xA5, 0xE9, 0xFF, 0x203E, 0x3042, 0x3044, 0x4E00]
POINTS += [0x4E01, 0xD7FF, 0xE000, 0xFEFF, 0xFFFD, 0xFFFE, 0x10000, 0x1F600, 0x1F601, 0x10FFFF]
SETS = ["SA", "SB", "SC", "SD", "JA", "JB"]
MAPS = ["CA", "CB", "CC", "RO", "KA", "C+(1)"]


def symbol(dice, point):
    text = f"{point:04X}" if point < 0x10000 and dice.random() < 0.9 else f"{point:08X}"
    return f"<U{text if dice.random() < 0.8 else text.lower()}>"


def spelled(dice, code, escape):
    spelling = []
    for byte in code:
        kind = dice.random()
        short = f"{byte:02d}" if dice.random() < 0.3 and byte < 100 else f"{byte:03d}"
        octal = f"{byte:02o}" if dice.random() < 0.3 and byte < 64 else f"{byte:03o}"
        spelling.append(escape + (f"x{byte:02x}" if kind < 0.8 else f"d{short}" if kind < 0.9 else octal))
    return "".join(spelling)


def charmap(dice, name):
    """The text of a charmap, and whether it is about to be broken."""
    escape, comment = dice.choice(["/%", "\\#", "/#", "\\%", "!;"])
    lines = [f"<code_set_name> {name}"] if dice.random() < 0.5 else []
    if escape != "\\" or dice.random() < 0.3:
        lines.append(f"<escape_char> {escape}")
    if comment != "#" or dice.random() < 0.3:
        lines.append(f"<comment_char> {comment}")
    lines += dice.choice([[], ["<mb_cur_max> 2"], [f"{comment} a comment"], ["", "  "]])
    lines.append(dice.choice(["CHARMAP", " CHARMAP", "CHARMAP again", "CHARMAP\r"]))
    points = dice.sample(POINTS, dice.randrange(0, len(POINTS)))
    is_graphic = name in ("RO", "KA") and dice.random() < 0.9
    if dice.random() < 0.5 and name not in ("RO", "KA"):
        lines.append(f"<U0000>..<U007F> {spelled(dice, [0], escape)}")
        points = [it for it in points if it > 0x7F or dice.random() < 0.1]
    for point in points:
        low, high = (0x21, 0x7F) if is_graphic else (0x80 if dice.random() < 0.9 else 0, 0x100)
        length = {"RO": 1, "KA": 2}.get(name) or dice.choice([1, 2, 2, 2, 3, 4])
        front = {1: [], 2: [0x21, 0x22, 0x7E], 3: [0x8E, 0xFE], 4: [0x8F]}[length] if is_graphic or length == 1 else None
        if front is None:
            front = {2: [0xA1, 0xA2, 0xA3], 3: [0x8E, 0xFE], 4: [0x8F]}[length]
        code = [dice.randrange(low, high) for _ in range(length)]
        if front:
            code[0] = dice.choice(front)
        elif not is_graphic and dice.random() < 0.8:
            code[0] = dice.randrange(0xB0, 0xE0)
        last = point
        if dice.random() < 0.15:
            last = point + dice.randrange(0, 4)
        dots = dice.choice(["..", "..."])
        word = symbol(dice, point) + (dots + symbol(dice, last) if last > point or dice.random() < 0.05 else "")
        tail = dice.choice(["", "", " A NAME", "\t# x", "\r"])
        lines.append(f"{dice.choice(['', '', ' '])}{word} {spelled(dice, code, escape)}{tail}")
        if dice.random() < 0.04:
            lines.append(dice.choice([f"{comment}{word}", f"%IRREVERSIBLE%{word} {escape}x41", "", " \x0b "]))
    lines.append(dice.choice(["END CHARMAP", "END CHARMAP", "  END  CHARMAP now"]))
    text = "\n".join(lines) + dice.choice(["\n", "\n", "", "\nWIDTH\n<U0041> x\n"])
    return text.encode()


def broken(dice, text, words):
    """A text with some bytes changed, lost or added."""
    text = bytearray(text)
    for _ in range(dice.choice([1, 1, 2, 4])):
        at = dice.randrange(0, len(text) + 1)
        kind = dice.randrange(4)
        if kind == 0:
            text[at : at + 1] = bytes([dice.randrange(256)])
        elif kind == 1:
            del text[at : at + dice.choice([1, 1, 3, 20])]
        elif kind == 2:
            text[at:at] = dice.choice(words)
        else:
            text[at:at] = text[at : at + 1]
    return bytes(text)


def configuration(dice):
    names = [f"{it}{dice.choice(['', '//', '/', '//'])}" for it in SETS]
    bindings, modules = ["# name kind charmaps"], ["# from to module cost"]
    kinds = {}
    for at, name in enumerate(SETS):
        if name.startswith("J"):
            kinds[f"M{at}"] = f"iso2022jp {dice.choice(['RO', 'CA'])} {dice.choice(['KA', 'KA', 'CB'])}"
        else:
            kinds[f"M{at}"] = f"table {dice.choice(MAPS)}"
    for k in range(dice.randrange(0, 5)):
        kinds[f"R{k}"] = f"recode {dice.choice(MAPS)} {dice.choice(MAPS)}"
    for name, kind in kinds.items():
        if dice.random() < 0.97:
            bindings.append(f"{name} {kind}")
    for at, name in enumerate(names):
        for ends in (f"{name} INTERNAL", f"INTERNAL {name}"):
            if dice.random() < 0.9:
                modules.append(f"module {ends} M{at}{dice.choice(['', ' 1', ' 1', ' 2', ' 03', ' 0', ' x'])}")
    for k in range(dice.randrange(0, 8)):
        one, two = dice.choice(names), dice.choice(names + ["SZ", "UTF-8", "INTERNAL"])
        modules.append(f"module\t{one}  {two} R{dice.randrange(5)} {dice.choice(['1', '2', '3', '2147483647', '2147483648'])}")
    for alias in ("LATIN", "sa-2", "UTF8", "us-ascii", "SB", "X1", "X2"):
        if dice.random() < 0.4:
            modules.append(f"alias {alias}// {dice.choice(names + ['UTF-8//', 'X1//', 'UCS-4//', 'INTERNAL//', 'NO//'])}")
    for extra in ("modul A B C", "alias A", "module A B", "module a//b// c// D", " # x", "", "alias // X", "module SA SB R1 1 # x"):
        if dice.random() < 0.2:
            modules.append(extra)
    rest = modules[1:]
    dice.shuffle(rest)
    text = "\n".join(modules[:1] + rest) + dice.choice(["\n", ""])
    return text.encode(), ("\n".join(bindings) + dice.choice(["\n", ""])).encode()


def asked(dice):
    name = dice.choice(SETS * 3 + reading.BUILT_IN * 2 + ["latin", "SA-2", "utf8", "us-ascii", "X1", "X2", "ucs4"])
    kind = dice.random()
    if kind < 0.04:
        return dice.choice(["internal", "//", "SA//TRANSLIT", "é", "*", "S" * 63, "S" * 62, "SA/x/y/z", "s_a", "KLINGON"])
    return name.lower() if kind < 0.2 else f"{name}//" if kind < 0.3 else name


def points_of(dice):
    """Some points: any, or runs of one kind, as a converter goes through them in blocks."""
    if dice.random() < 0.5:
        return [dice.choice(POINTS) for _ in range(dice.choice([0, 1, 2, 5, 20, 60]))]
    points = []
    for _ in range(dice.choice([1, 2, 4, 8])):
        kind = dice.choice([range(0x20, 0x7F), range(0x80, 0x100), range(0x3040, 0x3050), range(0x4E00, 0x4E02), POINTS[-8:]])
        points += [dice.choice(kind) for _ in range(dice.choice([1, 3, 7, 8, 9, 15, 16, 17, 40, 130]))]
    return points


def input_of(dice, conf, charmaps, source):
    """Some bytes that are about to be a text in a set."""
    points = points_of(dice)
    history = reading.History(conf, charmaps, 1 << 20)
    made = b""
    _, chain = history.open(1, b"UTF-8", source)
    if isinstance(chain, str):
        made = "".join(map(chr, points)).encode(dice.choice(["utf-8", "utf-16-le", "utf-16-be", "utf-32-be"]))
    else:
        state = "plain"
        for point in points:
            unit = None if (carried := chain.carry(point)) is None else chain.writer.spell(state, carried)
            if unit:
                made, state = made + unit[0], unit[1]
        if dice.random() < 0.7:
            made += chain.writer.back(state)
    kind = dice.random()
    if kind < 0.1:
        made = made[: dice.randrange(len(made) + 1)]
    elif kind < 0.35:
        made = broken(dice, made, [b"\x1b(J", b"\x1b$B", b"\x1b$@", b"\xfe\xff", b"\xff\xfe", b"\xed\xa0\x80", b"\x80"])
    return made


def scene(dice):
    """The texts and files of a run."""
    modules, bindings = configuration(dice)
    charmaps = {name: charmap(dice, name) for name in MAPS if dice.random() < 0.97}
    for name in charmaps:
        if dice.random() < 0.1:
            words = [b"<U0041>", b"..", b"END CHARMAP\n", b"<comment_char> !\n", b"\n", b" ", b"<include> x\n", b"/", b"<U"]
            charmaps[name] = broken(dice, charmaps[name], words)
    words = [b" ", b"\n", b"#", b"module", b"INTERNAL", b"//", b"table", b"\r", b"M0"]
    if dice.random() < 0.1:
        modules = broken(dice, modules, words)
    if dice.random() < 0.06:
        bindings = broken(dice, bindings, words)
    files, jobs = {}, []
    try:
        conf = reading.Conf(modules, bindings)
    except reading.Refused:
        conf = reading.Conf(b"", b"")
    few = [asked(dice) for _ in range(dice.choice([2, 3, 4]))] if dice.random() < 0.3 else None
    for number in range(dice.choice([0, 1, 2, 3, 5, 8, 12] if few is None else [8, 16, 30])):
        source, target = (dice.choice(few), dice.choice(few)) if few else (asked(dice), asked(dice))
        name = f"i{number}" if dice.random() < 0.9 else dice.choice(["i0", "o1", "none"])
        if name == f"i{number}":
            files[name] = input_of(dice, conf, charmaps, source.encode())
        output = f"o{number}" if dice.random() < 0.9 else dice.choice(["o0", "i1"])
        jobs.append(f"{source} {target} {name} {output}")
        if dice.random() < 0.1:
            jobs.append(dice.choice(["", "# a comment", " \t# another", "#"]))
    jobs = ("\n".join(jobs) + "\n").encode() if jobs else b""
    if jobs and dice.random() < 0.06:
        jobs = broken(dice, jobs, [b" x", b"\n", b"#", b"\x00", b"\xff", b"\r"])
    return modules, bindings, jobs, charmaps, files


USAGE = b"usage: iconv_batch --modules F --bindings F --charmaps DIR --jobs JOBS [--workers N] [--pages P] [--journal F]\n"
TEXTS = ["--modules", "m", "--bindings", "b", "--charmaps", "d", "--jobs", "j"]
# Words, and whether the program takes them; where it does, there is no file of the modules.
WORDS = [
    ([], False),
    (["--help"], False),
    (TEXTS, True),
    (TEXTS[:6], False),
    (TEXTS[2:] + ["--modules=m"], True),
    (TEXTS + ["--workers", "64"], True),
    (TEXTS + ["--workers", "65"], False),
    (TEXTS + ["--workers", "0000000004"], True),
    (TEXTS + ["--workers", "00000000004"], False),
    (TEXTS + ["--workers", "+4"], False),
    (TEXTS + ["--workers", ""], False),
    (TEXTS + ["--workers", "1", "--workers", "1"], False),
    (TEXTS + ["--pages", "65536"], True),
    (TEXTS + ["--pages", "65537"], False),
    (TEXTS + ["--pages", "99999999999"], False),
    (TEXTS + ["--journal"], False),
    (TEXTS + ["--journal", "x"], True),
    (TEXTS + ["more"], False),
    (TEXTS + ["--unknown", "x"], False),
    (TEXTS + ["--generate", "1"], False),
    (["--generate", "0"], False),
    (["--generate", "1001"], False),
    (["--generate", "1", "--journal", "x"], False),
    (["--generate", "one"], False),
    (["-f", "UTF-8", "-t", "UTF-8", "in"], False),
    (["-f", "UTF-8", "-t", "UTF-8", "in", "out", "more"], False),
    (["-t", "UTF-8", "-f", "UTF-8", "in", "out"], False),
]


def wrong_words(program, folder, makes):
    """What differs where words are wrong, and where the program makes its input if it is asked to, in lines."""
    wrong = []
    for words, is_taken in WORDS:
        ran = subprocess.run([program, *words], cwd=folder, capture_output=True, timeout=60, check=False)
        wanted = (3, b"refused: modules: absent\n") if is_taken else (2, USAGE)
        if (ran.returncode, ran.stdout) != wanted:
            wrong.append(f"{words}: status {ran.returncode}, {shown(ran.stdout)}")
    for number, workers in ((1, "0"), (1000, "3")) if makes else ():
        words = ["--generate", str(number), "--workers", workers]
        ran = subprocess.run([program, *words], cwd=folder, capture_output=True, timeout=60, check=False)
        if ran.stdout != reading.made_report(number):
            wrong.append(f"{words}: {shown(ran.stdout)}")
    return wrong


def files_in(folder):
    found = {}
    for name in os.listdir(folder):
        with open(os.path.join(folder, name), "rb") as file:
            found[name] = file.read()
    return found


def shown(data):
    return "nothing" if data is None else f"{data[:2000]!r}"


def try_short(program, dice, folder):
    """What differs in a run of the short form, in lines."""
    names = [asked(dice) for _ in range(2)] if dice.random() < 0.2 else dice.choices(reading.BUILT_IN, k=2)
    files = {"in": input_of(dice, reading.Conf(b"", b""), {}, names[0].encode())} if dice.random() < 0.95 else {}
    for name, data in files.items():
        with open(f"{folder}/{name}", "wb") as file:
            file.write(data)
    words = ["-f", names[0], "-t", names[1], "in", "out"]
    ran = subprocess.run([program, *words], cwd=folder, capture_output=True, timeout=60, check=False)
    status, report, after, _ = reading.run_short(names[0].encode(), names[1].encode(), files)
    found = ran.returncode, ran.stdout, files_in(folder)
    wanted = status, report, after
    return [f"{words}: {found}\n  wanted: {wanted}"] if found != wanted else [], status, report


def try_run(program, dice, folder):
    """What differs in a run, in lines."""
    modules, bindings, jobs, charmaps, files = scene(dice)
    pages = 16384 if dice.random() < 0.6 else dice.randrange(0, 60)
    workers = 0 if dice.random() < 0.7 else dice.choice([1, 2, 4, 9])
    top = {"modules": modules, "bindings": bindings, "jobs": jobs}
    if dice.random() < 0.02:
        del top[dice.choice(list(top))]
    for at, held in ((folder, top), (f"{folder}/maps", charmaps), (f"{folder}/in", files)):
        os.makedirs(at, exist_ok=True)
        for name, data in held.items():
            with open(os.path.join(at, name), "wb") as file:
                file.write(data)
    words = [f"--{it}=../{it}" for it in ("modules", "bindings", "jobs", "journal")]
    words += ["--charmaps", "../maps", "--workers", str(workers), "--pages", str(pages)]
    with open(f"{folder}/words", "w", encoding="utf-8") as file:
        file.write(" ".join(words) + "\n")
    ran = subprocess.run([program, *words], cwd=f"{folder}/in", capture_output=True, timeout=60, check=False)
    texts = [top.get(it) for it in ("modules", "bindings", "jobs")]
    if workers == 0:
        status, report, after, journal = reading.run(*texts, charmaps, files, pages)
    else:
        said = enumerate(ran.stdout.decode().splitlines(), 1)
        full = {at: line.split(": ", 1)[1] for at, line in said if line.startswith(f"{at}: store full ")}
        status, report, after, journal = reading.run(*texts, charmaps, files, reading.MOST_PAIRS, full)
    journal_file = f"{folder}/journal"
    told = None
    if os.path.exists(journal_file):
        with open(journal_file, "rb") as file:
            told = file.read()
    wrong = []
    for what, found, wanted in (
        ("status", str(ran.returncode).encode(), str(status).encode()),
        ("report", ran.stdout, report),
        ("standard error", ran.stderr, b""),
    ):
        if found != wanted:
            wrong.append(f"{what}: {shown(found)}\n  wanted: {shown(wanted)}")
    found = files_in(f"{folder}/in")
    for name in sorted({*found, *after}):
        if found.get(name) != after.get(name):
            wrong.append(f"{name}: {shown(found.get(name))}\n  wanted: {shown(after.get(name))}")
    if workers == 0 or journal is None:
        if told != journal:
            wrong.append(f"journal: {shown(told)}\n  wanted: {shown(journal)}")
    elif not wrong:
        said = [it.split(": ", 1)[1] for it in report.decode().splitlines()[:-1]]
        why = reading.wrong_journal(*texts, charmaps, files, pages, workers, told or b"", said)
        if why:
            wrong.append(f"journal: {why}")
    return wrong, status, report


def main():
    program = os.path.realpath(sys.argv[1])
    runs, seed = (int(it) for it in (sys.argv[2:4] + ["1000", "1"][len(sys.argv[2:4]) :]))
    outcomes, folder = {}, tempfile.mkdtemp(prefix="random-run-")
    wrong = wrong_words(program, folder, runs >= 100)
    differ = len(wrong)
    print("".join(f"words that differ: {it}\n" for it in wrong), end="")
    shutil.rmtree(folder)
    for number in range(runs):
        folder, dice = tempfile.mkdtemp(prefix="random-run-"), random.Random(f"{seed} {number}")
        wrong, status, report = (try_short if dice.random() < 0.1 else try_run)(program, dice, folder)
        for line in report.decode().splitlines()[:-1] if status < 2 else report.decode().splitlines():
            words = line.split(": ", 1)[-1].split()
            kind = " ".join(it for it in words[:2] if it.isalpha() or it[:1] == "M")
            outcomes[kind] = outcomes.get(kind, 0) + 1
        if wrong:
            differ += 1
            print(f"run {number} of seed {seed} differs, in {folder}:\n  " + "\n  ".join(wrong))
        else:
            shutil.rmtree(folder)
    print(", ".join(f"{kind} {count}" for kind, count in sorted(outcomes.items())))
    print(f"{runs} runs, of which {differ} differ")
    sys.exit(1 if differ else 0)


if __name__ == "__main__":
    if not 2 <= len(sys.argv) <= 4:
        sys.exit(__doc__)
    main()

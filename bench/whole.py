"""What bench/run.sh measures, in parts. Times are processor time, of the user and of the system together.

- texts: one file of 16 MiB a row, for each text and direction: read, converted and written; ours also with large
  pages, as the front script runs it.
- jobs: 4,096 files of 4 KiB between 16 pairs. What a file costs beside its opening, reading and writing, as a multiple
  of what the same bytes cost in 16 files, one a pair. Files alone are those that the driver copies.
- made: the 64 jobs of --generate, the making of their input among it, beside iconv(3) from EUC-JP to GBK on as many
  bytes of such text in memory.
- memory: the most that a run had at once, less its inputs, its largest output and the same run on empty files.
- start: one small file by a configuration of two lines, and by that of all the system's sets, beside the short form.
- workers: times by the clock, with 0, 1, 2 and 4 workers, beside iconv(1) by xargs and the driver in as many processes
  and threads: the 64 jobs of --generate, the same from files, as many bytes between two of the system's sets, and four
  files of 16 MiB. Then 4,096 files of some bytes with 64 workers, which are to end, with the report of none.
"""
import filecmp
import os
import shutil
import subprocess
import sys
import time

from peers import library, passage

TOP = os.path.dirname(os.path.dirname(os.path.realpath(__file__)))
MIB = 2**20
WORDS = {
    "ascii": "the of and to in is that it was for on are as with they at be this have from or one had by "
             "word but not what all were we when your can said there use an each which she do how their",
    "latin": "déjà élève être naïf garçon où façon über Straße schön größer früh Mädchen niño mañana "
             "corazón también année château à la les des pour dans avec plus même après être",
    "cyrillic": "и в не на я быть он с что а по это она этот к но они мы весь который мочь человек год",
    "japanese": "日本語 文字 コード 変換 と は を に が で ひらがな カタカナ 漢字 東京 大阪 今日 明日 世界 "
                "こんにちは ありがとう プログラム ファイル 入力 出力 検査 証明",
    "chinese": "中文 字符 编码 转换 的 是 在 了 和 有 我们 世界 北京 上海 今天 明天 汉字 语言",
    "emoji": "😀 😁 😂 🤣 😃 🎉 🚀 🌍 🍣 🐈 🦊 🧪 🔧 📁 💾 🕰 🎼 🀄 🂡 𝄞",
}
CODECS = {"ASCII": "ascii", "UTF-8": "utf-8", "UTF-16LE": "utf-16-le", "UTF-16BE": "utf-16-be", "UCS-4": "utf-32-be",
          "EUC-JP": "euc-jp", "GBK": "gbk", "ISO-2022-JP": "iso2022_jp", "KOI8-R": "koi8-r",
          "ISO-8859-1": "iso8859-1", "EUC-KR": "euc-kr"}
# How the front script runs the program.
LARGE = {**os.environ, "GLIBC_TUNABLES": "glibc.malloc.hugetlb=1"}
UCONV = {"UCS-4": "UTF-32BE", "ASCII": "US-ASCII"}
BOTH_WAYS = [("UTF-8", "UTF-16LE", list(WORDS)), ("UTF-8", "UCS-4", ["ascii", "latin", "japanese", "emoji"]),
             ("ASCII", "UTF-8", ["ascii"])]
BY_TABLES = [("UTF-8", "EUC-JP", ["japanese"]), ("UTF-8", "GBK", ["chinese"]), ("UTF-8", "KOI8-R", ["cyrillic"]),
             ("UTF-8", "ISO-2022-JP", ["japanese"]), ("EUC-JP", "ISO-2022-JP", ["japanese"])]
# Pairs of the jobs, with a text that both sets have.
UNICODE = [it for it in CODECS if it[0] == "U"]
PAIRS = {
    "built in": [(a, b, "japanese") for a in UNICODE for b in UNICODE],
    "by tables": [pair for a, b, text in (
        ("EUC-JP", "UTF-8", "japanese"), ("GBK", "UTF-8", "chinese"), ("KOI8-R", "UTF-8", "cyrillic"),
        ("ISO-8859-1", "UTF-8", "latin"), ("ISO-2022-JP", "UTF-8", "japanese"), ("EUC-JP", "GBK", "japanese"),
        ("KOI8-R", "UTF-16LE", "cyrillic"), ("ISO-2022-JP", "EUC-JP", "japanese"))
        for pair in ((a, b, text), (b, a, text))],
}
# What GBK has no code for.
MISSING = {("GBK", "japanese"): "・"}


class Measured:
    """The programs, a folder for their files, and how often a row is measured."""

    def __init__(self, program, folder, runs):
        self.program, self.folder, self.runs = program, folder, runs
        self.driver, self.failed, self.config = f"{folder}/iconv3_driver", False, None
        self.has_uconv = shutil.which("uconv") is not None

    def path(self, name):
        return f"{self.folder}/{name}"

    def write(self, name, content):
        with open(self.path(name), "wb") as out:
            out.write(content)
        return self.path(name)

    def fail(self, text):
        print(f"FAILED: {text}")
        self.failed = True

    def long_form(self, jobs, config=None, workers=0):
        """The words that convert a list of jobs, by some configuration or by an empty one. Where processor time or
        memory is measured, the asking thread does all jobs."""
        if config is None:
            config = self.path("none")
            os.makedirs(f"{config}/charmaps", exist_ok=True)
            for name in ("gconv-modules", "bindings"):
                open(f"{config}/{name}", "wb").close()
        return [self.program, "--modules", f"{config}/gconv-modules", "--bindings", f"{config}/bindings",
                "--charmaps", f"{config}/charmaps", "--jobs", jobs, "--workers", str(workers)]

    def system(self):
        """The configuration of the system's sets; None where it can't be made."""
        if self.config is None:
            made = subprocess.run([f"{TOP}/tools/system_config.py", "--into", self.path("charsets")],
                                  capture_output=True, text=True, check=False)
            self.config = self.path("charsets") if made.returncode == 0 else ""
            print(made.stdout.partition("\n")[0] if self.config else f"skipped: {made.stderr.strip()}")
        return self.config or None

    def jobs(self, name, lines):
        return self.write(name, "".join(" ".join(line) + "\n" for line in lines).encode())


def ran(words, env=None, status_wanted=0):
    """The times of a run in ms, by the clock and of the processors; None where it ends with another status."""
    begun = time.perf_counter()
    child = subprocess.Popen(words, stdout=subprocess.DEVNULL, stderr=subprocess.DEVNULL, env=env)
    _, status, usage = os.wait4(child.pid, 0)
    clock = time.perf_counter() - begun
    child.returncode = os.WEXITSTATUS(status) if os.WIFEXITED(status) else -os.WTERMSIG(status)
    if child.returncode != status_wanted:
        return None
    return clock * 1000, (usage.ru_utime + usage.ru_stime) * 1000


def used(words, env=None):
    """The processor time of a run in ms; None where it doesn't end well."""
    times = ran(words, env)
    return times and times[1]


def least(measured, commands, of=used):
    """The least time of each command, all of them in turn; one is missing where a run of it fails."""
    took = {name: [] for name in commands}
    for _ in range(measured.runs):
        for name, words in commands.items():
            took[name].append(of(words, LARGE if "large" in str(name) else None))
    for name in [it for it in took if None in took[it]]:
        measured.fail(" ".join(commands[name]))
        del took[name]
    return {name: min(times) for name, times in took.items()}


def text_of(source, target, kind):
    """Lines of the words of a kind, as one of the two sets has them."""
    made = passage(WORDS[kind])
    for name in (source, target):
        for letter in MISSING.get((name, kind), ""):
            made = made.replace(letter, "")
    return made


def sized(text, encoding, size):
    """A text of at most so many bytes, of whole lines."""
    lines = [line.encode(CODECS[encoding]) for line in text.splitlines(True)]
    whole = b"".join(lines)
    made = bytearray(whole * (size // len(whole)))
    for line in lines:
        if len(made) + len(line) > size:
            break
        made += line
    return bytes(made)


def rows_of_texts(measured):
    """Sets, text and words before the jobs file for each row."""
    for chosen, by_tables in ((BOTH_WAYS, False), (BY_TABLES, True)):
        config = measured.system() if by_tables else None
        if by_tables and not config:
            continue
        for one, other, kinds in chosen:
            for source, target in ((one, other), (other, one)):
                for kind in kinds:
                    yield source, target, kind, config


def texts(measured):
    print(f"\n## texts: files of 16 MiB, ms of processor time, the least of {measured.runs}; ours as a multiple of\n"
          "iconv(1) and of the driver, and with large pages as a multiple of the driver")
    columns = {"ours": 8, "large": 8, "iconv": 10, "driver": 8, "uconv": 8}
    print(f"{'from':<12}{'to':<12}{'text':<10}{'ours':>8}{'large':>8}{'iconv(1)':>10}{'driver':>8}{'uconv':>8}   "
          f"{'/iconv':>7}{'/driver':>8}{'large':>7}  bytes")
    for source, target, kind, config in rows_of_texts(measured):
        name = measured.write("in", sized(text_of(source, target, kind), source, 16 * MIB))
        outs = {who: measured.path(f"out.{who}") for who in columns}
        lists = {who: measured.jobs(f"jobs.{who}", [(source, target, name, outs[who])]) for who in columns}
        commands = {who: measured.long_form(lists[who], config) if config else
                    [measured.program, "-f", source, "-t", target, name, outs[who]] for who in ("ours", "large")}
        commands["iconv"] = ["iconv", "-f", source, "-t", target, "-o", outs["iconv"], name]
        commands["driver"] = [measured.driver, lists["driver"]]
        if measured.has_uconv:
            commands["uconv"] = ["uconv", "-f", UCONV.get(source, source), "-t", UCONV.get(target, target),
                                 "-o", outs["uconv"], name]
        took = least(measured, commands)
        same = "ours" in took and all(filecmp.cmp(outs["ours"], outs[who], shallow=False) for who in took)
        if not same:
            measured.fail(f"{source} to {target}, {kind}: the bytes differ from a peer's")
        cells = "".join(f"{took[who]:>{width}.1f}" if who in took else f"{'-':>{width}}"
                        for who, width in columns.items())
        ratios = [took.get(mine, 0) / took[other] if other in took else 0
                  for mine, other in (("ours", "iconv"), ("ours", "driver"), ("large", "driver"))]
        print(f"{source:<12}{target:<12}{kind:<10}{cells}   {ratios[0]:>7.2f}{ratios[1]:>8.2f}{ratios[2]:>7.2f}  "
              f"{'same' if same else 'DIFFERENT'}", flush=True)


def small_files(measured, pairs):
    """Lists of 4,096 files of 4 KiB, the pairs in turn or one after another, and of 16 files with the same bytes."""
    many, few, empty = [], [], []
    for number, (source, target, kind) in enumerate(pairs):
        piece = sized(text_of(source, target, kind), source, 4096)
        measured.write(f"few.{number}", piece * 256)
        few.append((source, target, measured.path(f"few.{number}"), measured.path(f"few.{number}.out")))
        empty.append((source, target, os.devnull, measured.path("empty.out")))
        for at in range(256):
            measured.write(f"many.{number}.{at}", piece)
            name = measured.path(f"many.{number}.{at}")
            many.append((source, target, name, f"{name}.out"))
    turns = [many[number * 256 + at] for at in range(256) for number in range(len(pairs))]
    return {"in turn": measured.jobs("turns", turns), "pair by pair": measured.jobs("many", many),
            "16 files": measured.jobs("few", few), "16 empty files": measured.jobs("empty", empty)}


def jobs(measured):
    print(f"\n## jobs: 4,096 files of 4 KiB between 16 pairs, ms of processor time, the least of {measured.runs}")
    for name, pairs in PAIRS.items():
        config = measured.system() if name == "by tables" else None
        if name == "by tables" and not config:
            continue
        lists = small_files(measured, pairs)
        commands = {}
        for it, path in lists.items():
            commands[it] = measured.long_form(path, config)
            commands[f"driver, {it}"] = [measured.driver, path]
            commands[f"copied, {it}"] = [measured.driver, "-c", path]
        took = least(measured, commands)
        if len(took) != len(commands):
            continue
        plain = took["16 files"] - took["16 empty files"] - took["copied, 16 files"]
        for it in ("in turn", "pair by pair"):
            over = took[it] - took["16 empty files"] - took[f"copied, {it}"]
            driver = took[f"driver, {it}"]
            print(f"{name}, {it}: {took[it]:.1f}, of which files {took[f'copied, {it}']:.1f} and a start "
                  f"{took['16 empty files']:.1f}; the rest is {over / plain:.2f} times that of 16 files ({plain:.1f}); "
                  f"the driver {driver:.1f}, ours {took[it] / driver:.2f} times that", flush=True)


def charset(number, k):
    """The codes of Gk by their points, as docs/FORMATS.md has the made charmaps."""
    codes = {point: bytes([point]) for point in range(0x80)}
    for i in range(1024):
        codes[0x4E00 + (i * (2 * k + 1) + number) % 1024] = bytes([0x81 + i // 64, 0x40 + i % 64])
    return codes


def made_files(measured, number):
    """The files of --generate, with a configuration of their sets: the words that convert them, and their length."""
    codes, lines, length = [charset(number, k) for k in range(8)], [], 0
    os.makedirs(measured.path("gen/charmaps"), exist_ok=True)
    for k, table in enumerate(codes):
        rows = "".join(f"<U{point:04X}> {''.join(f'/x{byte:02x}' for byte in code)}\n" for point, code in table.items())
        measured.write(f"gen/charmaps/G{k}", f"<escape_char> /\nCHARMAP\n{rows}END CHARMAP\n".encode())
    ways = "module GEN-{0}// INTERNAL GEN{0} 1\nmodule INTERNAL GEN-{0}// GEN{0} 1\n"
    measured.write("gen/gconv-modules", "".join(map(ways.format, range(8))).encode())
    measured.write("gen/bindings", "".join(f"GEN{k} table G{k}\n" for k in range(8)).encode())
    for j in range(1, 65):
        x, text, table = 64 * number + j, [], codes[j % 8]
        for _ in range(65_536):
            x = (1103515245 * x + 12345) % 2**31
            text.append(table[0x4E00 + (x >> 18) % 1024 if (x >> 16) % 4 else 32 + (x >> 18) % 95])
        name = measured.write(f"gen/in-{j}", b"".join(text))
        length += os.path.getsize(name)
        lines.append((f"GEN-{j % 8}", f"GEN-{(3 * j + 1) % 8}", name, f"{name}.out"))
    whole, config = measured.jobs("gen/jobs", lines), measured.path("gen")
    empty = measured.jobs("gen/empty", [(*it[:2], os.devnull, it[3]) for it in lines])
    return {"files": measured.long_form(whole, config), "empty": measured.long_form(empty, config),
            "copied": [measured.driver, "-c", whole]}, length


def made(measured):
    print(f"\n## made: --generate 1, ms of processor time, the least of {measured.runs}")
    commands, length = made_files(measured, 1)
    both = [it for it in map(chr, range(0x4E00, 0x5200)) if has("EUC-JP", it) and has("GBK", it)]
    x, letters = 1, []
    for _ in range(MIB):
        x = (1103515245 * x + 12345) % 2**31
        letters.append(both[(x >> 18) % len(both)] if (x >> 16) % 4 else chr(32 + (x >> 18) % 90))
    text = ("".join(letters).encode("euc-jp") * 5)[:length].decode("euc-jp", "ignore").encode("euc-jp")
    theirs = [library("EUC-JP", "GBK", text) for _ in range(measured.runs)]
    took = least(measured, {"made": [measured.program, "--generate", "1", "--workers", "0"], **commands})
    theirs += [library("EUC-JP", "GBK", text) for _ in range(measured.runs)]
    if None in theirs or len(took) != 4:
        measured.fail("--generate 1, or iconv(3) from EUC-JP to GBK")
        return
    other, alone = min(theirs) * 1000 * length / len(text), took["files"] - took["empty"] - took["copied"]
    print(f"{length} bytes: ours {took['made']:.1f} with the making of the input, iconv(3) in memory {other:.1f}: "
          f"{other / took['made']:.2f} times its rate")
    print(f"the same from files: {took['files']:.1f}, of which start and tables {took['empty']:.1f} and files "
          f"{took['copied']:.1f}; the rest {alone:.1f}: {other / alone:.2f} times its rate")


def has(name, letter):
    try:
        return len(letter.encode(CODECS[name])) == 2
    except UnicodeEncodeError:
        return False


def peak(measured, words):
    """The most memory that a run had at once, in KiB, by time(1), since what Python starts counts Python's too."""
    note = measured.path("peak")
    subprocess.run(["/usr/bin/time", "-o", note, "-f", "%M", *words], stdout=subprocess.DEVNULL,
                   stderr=subprocess.DEVNULL, check=False)
    with open(note, encoding="ascii") as lines:
        return int(lines.read().split()[-1])


def memory(measured):
    print("\n## memory: the most at once in KiB, and what it is above inputs, largest output and a run on empty files")
    if not os.access("/usr/bin/time", os.X_OK):
        print("skipped: /usr/bin/time is missing (apt-get install time)")
        return
    config = measured.system()
    rows = [([("UTF-8", "UTF-16LE", "ascii")], 16), ([("UTF-16LE", "UTF-8", "japanese")], 16),
            ([("UTF-8", "UTF-16LE", "latin")] * 4, 8)]
    if config:
        rows += [([("EUC-JP", "UTF-8", "japanese")], 16), ([("UTF-8", "ISO-2022-JP", "japanese")], 16),
                 (PAIRS["by tables"][:8], 1)]
    for pairs, mib in rows:
        full, empty, read, largest = [], [], 0, 0
        for number, (source, target, kind) in enumerate(pairs):
            path = measured.write(f"in.{number}", sized(text_of(source, target, kind), source, mib * MIB))
            full.append((source, target, path, measured.path(f"out.{number}")))
            empty.append((source, target, os.devnull, measured.path("empty.out")))
            read += os.path.getsize(path)
        by = None if {*pairs[0][:2]} <= {*UNICODE} else config
        most = peak(measured, measured.long_form(measured.jobs("full", full), by))
        nothing = peak(measured, measured.long_form(measured.jobs("empty", empty), by))
        largest = max(os.path.getsize(it[3]) for it in full)
        above = most - nothing - (read + largest) / 1024
        print(f"{len(pairs)} of {mib} MiB, {pairs[0][0]} to {pairs[0][1]}: {most}, on empty files {nothing}; "
              f"{above:.0f} above", flush=True)


def start(measured):
    runs = 40 * measured.runs
    print(f"\n## start: one small file, ms of processor time, the mean of {runs}")
    config = measured.system()
    if not config:
        return
    tiny, two = measured.write("tiny", "日本語\n".encode("euc-jp")), measured.path("two")
    os.makedirs(f"{two}/charmaps", exist_ok=True)
    shutil.copy(f"{config}/charmaps/EUC-JP", f"{two}/charmaps/EUC-JP")
    measured.write("two/gconv-modules", b"module EUC-JP// INTERNAL EUC-JP 1\nmodule INTERNAL EUC-JP// EUC-JP 1\n")
    measured.write("two/bindings", b"EUC-JP table EUC-JP\n")
    ascii_tiny = measured.write("tiny.ascii", b"hello\n")
    line = [measured.jobs("start", [("EUC-JP", "UTF-8", tiny, measured.path("out"))]),
            measured.jobs("start.ascii", [("ASCII", "UTF-8", ascii_tiny, measured.path("out"))])]
    commands = {"short form": [measured.program, "-f", "ASCII", "-t", "UTF-8", ascii_tiny, measured.path("out")],
                "two lines": measured.long_form(line[0], two), "two lines, no table": measured.long_form(line[1], two),
                "the system's": measured.long_form(line[0], config),
                "the system's, no table": measured.long_form(line[1], config)}
    took = {name: [] for name in commands}
    for _ in range(runs):
        for name, words in commands.items():
            took[name].append(used(words))
    for name, times in took.items():
        if None in times:
            measured.fail(" ".join(commands[name]))
            return
        mean = sum(times) / runs
        base = sum(took["short form"]) / runs
        print(f"{name:<24}{mean:>7.2f}   {mean - base:>+6.2f}   least {min(times):.2f}")


# How many workers, threads or processes.
NUMBERS = (0, 1, 2, 4)


def list_for(measured, who, files, source, target):
    """A list of jobs over some files, each with an output of its own for one who converts them."""
    return measured.jobs(f"list.{who}", [(source, target, path, f"{path}.{who}") for path in files])


def peers_of(measured, files, source, target):
    """What the peers are told, by name and number: the driver, and an iconv(1) for each file, so many at once."""
    jobs = list_for(measured, "driver", files, source, target)
    commands = {("driver", number): [measured.driver, "-j", str(number), jobs] for number in NUMBERS[1:]}
    if shutil.which("xargs"):
        lines = "".join(f"-f {source} -t {target} -o {path}.iconv {path}\n" for path in files)
        told = measured.write("list.iconv", lines.encode())
        for number in NUMBERS[1:]:
            commands["iconv(1)", number] = ["xargs", "-P", str(number), "-L", "1", "-a", told, "iconv"]
    return commands


def rows(measured, title, ours, peers):
    """Prints the rows of some jobs: ours by the words for each number of workers, also with large pages, and peers."""
    commands = {(who, number): words for who in ("ours", "ours, large pages") for number, words in ours.items()}
    took = least(measured, {**commands, **peers}, ran)
    if len(took) != len(commands) + len(peers):
        return
    for who in dict.fromkeys(who for who, _ in took):
        times = {number: took[who, number] for number in NUMBERS if (who, number) in took}
        alone = times[min(times)]
        cells = [title, who, *(f"{times[it][0]:.1f}" if it in times else "-" for it in NUMBERS),
                 f"{alone[1]:.1f}", f"{times[4][1]:.1f}", f"{alone[0] / times[4][0]:.2f}",
                 f"{took['ours', 4][0] / times[4][0]:.2f}"]
        print(f"| {' | '.join(cells)} |", flush=True)


def told_by(measured, commands, files, suffix):
    """What each run says, with its status and the outputs that it leaves; a run that doesn't end has none."""
    left = {}
    for name, words in commands.items():
        try:
            done = subprocess.run(words, capture_output=True, timeout=120, check=False)
        except subprocess.TimeoutExpired:
            measured.fail(f"{' '.join(words)} didn't end in 120 s")
            continue
        outputs = []
        for path in files:
            with open(path + suffix, "rb") as output:
                outputs.append(output.read())
        left[name] = (done.returncode, done.stdout, outputs)
    return left


def agree(measured, title, ours, peers, files, suffix=".ours"):
    """Whether all runs with workers say and leave what the one with none does, and the peers leave that too."""
    left = told_by(measured, ours, files, suffix)
    good = len(left) == len(ours) and all(it == left[0] for it in left.values())
    for who in ("driver", "iconv"):
        commands = {it: words for it, words in peers.items() if it[0].startswith(who)}
        theirs = told_by(measured, commands, files, f".{who}")
        good = good and all(it[2] == left[0][2] for it in theirs.values())
    if not good:
        measured.fail(f"{title}: a report or bytes differ")
    return good


def of_sets(measured, title, contents, source, target, config):
    """The rows of files between two sets that the peers have too."""
    files = [measured.write(f"in.{number}", content) for number, content in enumerate(contents)]
    jobs = list_for(measured, "ours", files, source, target)
    ours = {number: measured.long_form(jobs, config, number) for number in NUMBERS}
    peers = peers_of(measured, files, source, target)
    if agree(measured, title, ours, peers, files):
        rows(measured, title, ours, peers)


def of_made(measured):
    """The rows of the made jobs, in memory and from files; answers the bytes of all."""
    ours = {number: [measured.program, "--generate", "1", "--workers", str(number)] for number in NUMBERS}
    if agree(measured, "made", ours, {}, []):
        rows(measured, "64 made jobs, their making among it", ours, {})
    commands, length = made_files(measured, 1)
    files = [measured.path(f"gen/in-{j}") for j in range(1, 65)]
    ours = {number: measured.long_form(commands["copied"][-1], measured.path("gen"), number) for number in NUMBERS}
    if agree(measured, "made, from files", ours, {}, files, ".out"):
        rows(measured, "the same from files", ours, {})
    return length


def of_tiny(measured):
    """4,096 files of some bytes, with up to 64 workers."""
    made = "日本語\n".encode()
    files = [measured.write(f"in.{number}", made[:number % 11]) for number in range(4096)]
    jobs = list_for(measured, "ours", files, "UTF-8", "UTF-16LE")
    ours = {number: measured.long_form(jobs, None, number) for number in (0, 1, 4, 64)}
    good = agree(measured, "4,096 tiny files", ours, {}, files)
    print("\n| 4,096 files of 0 to 10 bytes | By the clock, ms | Processors, ms |\n|---|---|---|")
    took = least(measured, ours, lambda words, env: ran(words, env, status_wanted=1))
    for number, (clock, spent) in took.items():
        print(f"| {number} workers | {clock:.1f} | {spent:.1f} |")
    print("All ended, with the report and the outputs of none." if good else "Not as with none.")


def workers(measured):
    processors = len(os.sched_getaffinity(0))
    print(f"\n## workers: ms by the clock, the least of {measured.runs}, on {processors} processors; the gain is that\n"
          "to 4 workers, threads or processes from 0 workers, else from 1")
    if not shutil.which("xargs"):
        print("skipped: xargs is missing (apt-get install findutils)")
    print("| Jobs | Who | 0 | 1 | 2 | 4 | Processors, alone | Processors, 4 | Gain | Ours with 4, to it |")
    print("|---|---|---|---|---|---|---|---|---|---|")
    length, config = of_made(measured), measured.system()
    japanese = {it: text_of(*it, "japanese") for it in (("EUC-JP", "GBK"), ("UTF-8", "UTF-16LE"), ("EUC-JP", "UTF-8"))}
    for (source, target), text in japanese.items():
        if source == "EUC-JP" and not config:
            continue
        many, size = (64, length // 64) if target == "GBK" else (4, 16 * MIB)
        each = f"{size // MIB} MiB" if size >= MIB else f"{size // 1024} KiB"
        of_sets(measured, f"{many} files of {each}, {source} to {target}", [sized(text, source, size)] * many,
                source, target, config if source == "EUC-JP" else None)
    of_tiny(measured)


def main():
    measured = Measured(sys.argv[1], sys.argv[2], int(sys.argv[3]))
    parts = {it.__name__: it for it in (texts, jobs, made, memory, start, workers)}
    asked = sys.argv[4:] or list(parts)
    for name in asked:
        if name not in parts:
            sys.exit(f"run.sh: no part {name}; there are {', '.join(parts)}")
    with open("/proc/loadavg", encoding="ascii") as load:
        print(f"load: {' '.join(load.read().split()[:3])}")
    if not measured.has_uconv:
        print("skipped: uconv is missing")
    for name in asked:
        parts[name](measured)
    return 1 if measured.failed else 0


if __name__ == "__main__":
    sys.exit(main())

#!/usr/bin/env python3
"""Makes a configuration of the charsets that this system ships.

    tools/system_config.py [--into DIR] [--gconv DIR] [--charmaps DIR]

DIR (./charsets where none is given) gets the files gconv-modules and bindings and the folder charmaps, as
docs/FORMATS.md says. They are made from the GNU C Library's gconv-modules with its gconv-modules.d and from the
charmaps of the package locales. A charset gets the charmap that has its name, or else the one that has a name in
common with it; a charset whose charmap isn't there, or has a fault, is left out. Each charset gets a module word of its
own, so that none is bound to another one's table. A charmap that was shipped without its line CHARMAP is mended. It
prints how many charsets and names are bound, and why each other one isn't, with its aliases in parentheses.
"""
import argparse
import collections
import functools
import glob
import gzip
import os
import re
import sys

CHARMAPS = "/usr/share/i18n/charmaps"
GCONV = ["/usr/lib/*/gconv", "/usr/lib64/gconv", "/usr/lib/gconv"]
INTERNAL = "INTERNAL//"
BUILT_IN = ["ASCII//", "UTF-8//", "UTF-16//", "UTF-16LE//", "UTF-16BE//", "UCS-4//"]
# What the library calls them besides, without a line in any file.
LIBRARY_ALIASES = {
    "UTF-8//": "ISO-10646/UTF8/ ISO-10646/UTF-8/ ISO-IR-193// OSF05010001//",
    "UCS-4//": "ISO-10646/UCS4/ UCS-4BE// CSUCS4// ISO-10646// 10646-1:1993// 10646-1:1993/UCS4/ OSF00010104// "
               "OSF00010105// OSF00010106//",
    "ASCII//": "ANSI_X3.4// ANSI_X3.4-1968// ANSI_X3.4-1986// ISO-IR-6// ISO_646.IRV:1991// ISO646-US// US// IBM367// "
               "CP367// CSASCII// OSF00010020//",
    "ISO-10646/UCS2/": "UCS2// UCS-2// OSF00010100// OSF00010101// OSF00010102//",
    "UCS-2LE//": "UNICODELITTLE//",
    "UCS-2BE//": "UNICODEBIG//",
}
# Its own charsets that aren't built in here.
LIBRARY_SETS = ["ISO-10646/UCS2/", "UCS-2LE//", "UCS-2BE//", "UCS-4LE//", "WCHAR_T//"]
JP, ROMAN, KANJI = "ISO-2022-JP//", "JIS_X0201-ROMAN", "JIS_X0208"
LIMIT, MOST_PAIRS, MOST_LINES = 16_777_216, 2_097_152, 16_384
SYMBOL = rb"<U([0-9A-Fa-f]{4}|[0-9A-Fa-f]{8})>"
SPAN = re.compile(SYMBOL + rb"(?:\.{2,3}" + SYMBOL + rb")?")
WORD = re.compile(r"[A-Za-z0-9_\-,:+()][A-Za-z0-9_\-.,:+()]{0,63}")


class Fault(Exception):
    """Why a charmap isn't read."""


def normal(text):
    """The normal form of a name, or None."""
    kept = re.sub(r"[^A-Z0-9_\-.,:/]", "", text.upper())
    first, second, rest = (kept.split("/") + ["", ""])[:3]
    name = f"{first}/{second}/"
    return name if first and not rest and len(name) <= 64 else None


def bare(name):
    """A normal form without the slashes that end it."""
    return name[:-2] if name.endswith("//") else name


def stop(text):
    print(f"{os.path.basename(sys.argv[0])}: {text}", file=sys.stderr)
    sys.exit(1)


# The library's configuration.


def conf_lines(folder):
    """The words of each line of gconv-modules, and then of the files in gconv-modules.d."""
    for name in [f"{folder}/gconv-modules", *sorted(glob.glob(f"{folder}/gconv-modules.d/*.conf"))]:
        with open(name, encoding="ascii", errors="replace") as file:
            for line in file:
                words = line.partition("#")[0].split()
                if words:
                    yield words


def read_conf(folder):
    """The module lines by the charset that each converts, those between two charsets, and the alias pairs."""
    sets, between, aliases = collections.OrderedDict(), [], []
    for kind, *words in conf_lines(folder):
        names = [normal(it) for it in words[:2]]
        if len(names) < 2 or None in names:
            continue
        if kind == "alias":
            aliases.append(tuple(names))
        elif kind == "module" and len(words) > 2:
            cost = words[3] if len(words) > 3 and words[3].isdigit() else "1"
            if INTERNAL not in names:
                between.append((*names, words[2]))
                continue
            way = "from" if names[1] == INTERNAL else "to"
            name = names[0] if way == "from" else names[1]
            sets.setdefault(name, {"module": words[2]})[way] = cost
    return sets, between, aliases


def resolved(pairs):
    """What each alias stands for in the end: the first pair counts, and originals that are aliases are followed."""
    first = {}
    for alias, original in pairs:
        first.setdefault(alias, original)
    ends = {}
    for alias in first:
        name, seen = alias, set()
        while name in first and name not in seen:
            seen.add(name)
            name = first[name]
        ends[alias] = name
    return ends


# Charmaps.


def words_of(line):
    """The first two words of a line, empty where there are fewer."""
    return (line.split(None, 2) + [b"", b""])[:2]


@functools.lru_cache(None)
def spelled_byte(escape):
    return re.compile(re.escape(escape) + rb"(?:x([0-9A-Fa-f]{2})|d([0-9]{2,3})|([0-7]{2,3}))")


def code_of(word, escape):
    """The bytes that a code's word spells; None where it spells none."""
    byte, code, at = spelled_byte(escape), bytearray(), 0
    while at < len(word):
        found = byte.match(word, at)
        if not found:
            return None
        value = int(found[1], 16) if found[1] else int(found[2]) if found[2] else int(found[3], 8)
        if value > 255:
            return None
        code.append(value)
        at = found.end()
    return bytes(code) or None


def is_point(number):
    return number < 0xD800 or 0xE000 <= number <= 0x10FFFF


def span_of(word):
    """The points from the first to the last that a first word speaks of, or None."""
    found = SPAN.fullmatch(word)
    if not found:
        return None
    first = int(found[1], 16)
    last = int(found[2], 16) if found[2] else first
    return (first, last) if is_point(first) and is_point(last) else None


def header(lines):
    """The escape and the comment character behind the header, and the number of the line that ends it."""
    escape, comment = b"\\", b"#"
    for number, line in enumerate(lines, 1):
        first, second = words_of(line)
        if not first or first[:1] == comment:
            continue
        if first == b"CHARMAP":
            return escape, comment, number
        is_sign = len(second) == 1 and b"!" <= second <= b"~" and second != b"<"
        if first in (b"<include>", b"<addset>") or (first in (b"<escape_char>", b"<comment_char>") and not is_sign):
            raise Fault(f"line {number}: bad line")
        escape = second if first == b"<escape_char>" else escape
        comment = second if first == b"<comment_char>" else comment
    raise Fault(f"line {len(lines)}: no start")


def members(first, second, escape, number):
    """The pairs of one mapping line: points and codes."""
    span = span_of(first)
    if not span:
        raise Fault(f"line {number}: bad symbol {first.decode('ascii', 'replace')}")
    if not second:
        raise Fault(f"line {number}: bad line")
    code = code_of(second, escape)
    if not code:
        raise Fault(f"line {number}: bad code")
    if len(code) > 4:
        raise Fault(f"line {number}: code length")
    start, last = int.from_bytes(code, "big"), span[1]
    if last < span[0] or (span[0] < 0xD800 and last >= 0xE000) or start + last - span[0] >= 256**len(code):
        raise Fault(f"line {number}: bad range")
    return [(point, (start + point - span[0]).to_bytes(len(code), "big")) for point in range(span[0], last + 1)]


def read_charmap(text):
    """The pairs of a charmap in its order, or the fault that the program would tell."""
    if len(text) > LIMIT:
        raise Fault("too long")
    lines = text.split(b"\n")
    lines = lines[:-1] if lines[-1] == b"" else lines
    escape, comment, start = header(lines)
    pairs = []
    for number, line in enumerate(lines[start:], start + 1):
        first, second = words_of(line)
        if not first or first[:1] == comment:
            continue
        if first == b"END" and second == b"CHARMAP":
            break
        if first.startswith(b"%IRREVERSIBLE%"):
            continue
        pairs += members(first, second, escape, number)
        if len(pairs) > MOST_PAIRS:
            raise Fault(f"line {number}: too many pairs")
    else:
        raise Fault(f"line {len(lines)}: no end")
    codes = sorted({code for _, code in pairs})
    for code, after in zip(codes, codes[1:]):
        if after.startswith(code):
            raise Fault(f"overlap: the code {code.hex()} begins {after.hex()}")
    return pairs


def mended(text):
    """A charmap text with a header in place of its own, where it has mapping lines and no line CHARMAP; else None."""
    start = re.search(rb"(?m)^<U[0-9A-Fa-f]{4,8}>[ \t]+/", text)
    if not start or re.search(rb"(?m)^CHARMAP\b", text):
        return None
    end = b"" if re.search(rb"(?m)^END[ \t]+CHARMAP\b", text) else b"END CHARMAP\n"
    return b"<escape_char> /\n<comment_char> %\nCHARMAP\n" + text[start.start():].rstrip(b"\n") + b"\n" + end


def names_in(text):
    """The names that a charmap gives itself: its code set's name, and the aliases in its comments."""
    head = text.partition(b"\nCHARMAP")[0]
    found = re.findall(rb"(?m)^<code_set_name>[ \t]+\"?([^\s\"]+)|^.[ \t]*alias[ \t]+(\S+)", head)
    return [normal((first or second).decode("ascii", "replace")) for first, second in found]


class Shipped:
    """The system's charmaps, by file name, and which of them have a name."""

    def __init__(self, folder):
        self.texts, self.files, self.others, self.mended = {}, {}, collections.defaultdict(list), set()
        for path in sorted(glob.glob(f"{folder}/*")):
            name = re.sub(r"\.gz$", "", os.path.basename(path))
            with gzip.open(path) if path.endswith(".gz") else open(path, "rb") as file:
                self.texts[name] = file.read()
            self.files.setdefault(normal(name), name)
            for other in names_in(self.texts[name]):
                self.others[other].append(name)
            if mended(self.texts[name]):
                self.texts[name] = mended(self.texts[name])
                self.mended.add(name)
        self.read = {}

    def charmap_for(self, name, aliases):
        """The charmap of a charset: that with its name, or that which says its name, or has an alias of it."""
        for it in [name, *aliases]:
            if it in self.files:
                return self.files[it]
        for it in [name, *aliases]:
            if self.others.get(it):
                return self.others[it][0]
        return None

    def pairs(self, name):
        if name not in self.read:
            try:
                self.read[name] = read_charmap(self.texts[name]), None
            except Fault as fault:
                self.read[name] = None, str(fault)
        return self.read[name]


def charmap_text(pairs):
    """A charmap of these pairs."""
    lines = ["<escape_char> /", "<comment_char> %", "CHARMAP"]
    for point, code in pairs:
        symbol = f"<U{point:04X}>" if point < 0x10000 else f"<U{point:08X}>"
        lines.append(symbol + " " + "".join(f"/x{byte:02x}" for byte in code))
    return ("\n".join([*lines, "END CHARMAP"]) + "\n").encode()


def jp_charmaps(shipped):
    """The two tables of ISO-2022-JP: the Roman half of JIS X 0201, and what EUC-JP has of JIS X 0208."""
    roman = next((it for it in ("JIS_X0201", "JIS_C6220-1969-RO") if it in shipped.texts), None)
    if not roman or "EUC-JP" not in shipped.texts:
        return None
    both = [shipped.pairs(it)[0] for it in (roman, "EUC-JP")]
    if None in both:
        return None
    graphic = [pair for pair in both[0] if len(pair[1]) == 1 and 0x21 <= pair[1][0] <= 0x7E]
    kanji = [(point, bytes(it - 0x80 for it in code)) for point, code in both[1]
             if len(code) == 2 and all(0xA1 <= it <= 0xFE for it in code)]
    return {ROMAN: charmap_text(graphic), KANJI: charmap_text(kanji)}


# The configuration.


class Made:
    """What is bound, the charmaps that it takes, and why each other charset isn't."""

    def __init__(self):
        self.modules, self.bindings, self.charmaps, self.left = [], [], {}, []
        self.sets = collections.OrderedDict()

    def bind(self, name, lines, words):
        """Binds one charset, in the ways that the library has, by a module word of its own."""
        module = bare(name).replace("/", "-")
        self.sets[name] = [way for way in ("from", "to") if way in lines]
        for way in self.sets[name]:
            ends = (name, "INTERNAL") if way == "from" else ("INTERNAL", name)
            self.modules.append(f"module {ends[0]} {ends[1]} {module} {lines[way]}")
        self.bindings.append(f"{module} {words}")


def why_alone(name, lines):
    """Why a charset without a charmap isn't bound, in words."""
    if lines["module"] in ("UTF-16", "UTF-32", "UTF-7", "UNICODE", "gconv") or name.startswith("ISO-10646/"):
        return "a form of Unicode that isn't built in"
    if name.startswith("ISO-2022"):
        return "its escapes choose other sets than those of ISO-2022-JP"
    return "no charmap of that name is shipped"


def make(sets, between, aliases, shipped):
    made, called = Made(), collections.defaultdict(list)
    for alias, name in resolved(aliases).items():
        called[name].append(alias)
    taken = {}
    for name, lines in sets.items():
        if name in BUILT_IN:
            continue
        if name == JP:
            tables = jp_charmaps(shipped)
            if tables:
                made.charmaps.update(tables)
                made.bind(name, lines, f"iso2022jp {ROMAN} {KANJI}")
            else:
                made.left.append((name, "JIS_X0201 or EUC-JP isn't shipped"))
            continue
        charmap = shipped.charmap_for(name, called[name])
        if not charmap:
            made.left.append((name, why_alone(name, lines)))
        elif shipped.pairs(charmap)[0] is None:
            made.left.append((name, f"charmap {charmap}: {shipped.pairs(charmap)[1]}"))
        elif charmap in taken:
            made.left.append((name, f"charmap {charmap} is that of {taken[charmap]}"))
        elif not WORD.fullmatch(charmap):
            made.left.append((name, f"charmap {charmap}: a name that no binding can have"))
        else:
            taken[charmap] = name
            made.charmaps[charmap] = shipped.texts[charmap]
            made.bind(name, lines, f"table {charmap}")
    for name in LIBRARY_SETS:
        if name not in sets:
            made.left.append((name, why_alone(name, {"module": "gconv"})))
    for source, target, module in between:
        made.left.append((f"{source} to {target}", f"{module}: its own table isn't shipped"))
    return made


def alias_lines(made, aliases, sets):
    """The aliases of what is bound or built in, each straight to it, and those of each charset that is left out."""
    known, lines, lost = {*made.sets, *BUILT_IN}, [], collections.defaultdict(list)
    pairs = [(it, name) for name, all_names in LIBRARY_ALIASES.items() for it in all_names.split()] + aliases
    for alias, name in resolved(pairs).items():
        if alias in sets or alias in known:
            continue
        if name in known:
            lines.append(f"alias {alias} {name}")
        else:
            lost[name].append(alias)
    return lines, lost


def write(folder, made, aliases):
    os.makedirs(f"{folder}/charmaps", exist_ok=True)
    texts = {"gconv-modules": aliases + made.modules, "bindings": made.bindings}
    for name, lines in texts.items():
        with open(f"{folder}/{name}", "w", encoding="ascii") as file:
            file.write("\n".join(lines) + "\n")
    for name, text in made.charmaps.items():
        with open(f"{folder}/charmaps/{name}", "wb") as file:
            file.write(text)


def tell(folder, made, aliases, lost, mended_ones):
    both = sum(len(ways) == 2 for ways in made.sets.values())
    built_in = len(BUILT_IN)
    print(f"{both + built_in} sets both ways, {built_in} of them built in, and {len(made.sets) - both} in one way, by "
          f"{len(made.charmaps)} charmaps")
    print(f"{len(made.sets) + built_in + len(aliases)} names, {len(aliases)} of them aliases")
    for name in sorted(mended_ones & {*made.charmaps}):
        print(f"mended: charmap {name}: its line CHARMAP is missing")
    print(f"left out, with {sum(map(len, lost.values()))} aliases: {len(made.left)}")
    for name, why in made.left:
        also = " ".join(bare(it) for it in lost.pop(name, ()))
        print(f"  {bare(name)}{f' ({also})' if also else ''}: {why}")
    for name, also in lost.items():
        print(f"  {' '.join(bare(it) for it in also)}: stands for {bare(name)}, which isn't there")
    print(f"written: {folder}/gconv-modules, {folder}/bindings, {folder}/charmaps")


def main():
    words = argparse.ArgumentParser(description=__doc__.partition("\n")[0])
    words.add_argument("--into", metavar="DIR", default="charsets")
    words.add_argument("--gconv", metavar="DIR", help="where gconv-modules is")
    words.add_argument("--charmaps", metavar="DIR", default=CHARMAPS)
    given = words.parse_args()
    places = [given.gconv] if given.gconv else [it for place in GCONV for it in sorted(glob.glob(place))]
    gconv = next((it for it in places if os.path.isfile(f"{it}/gconv-modules")), None)
    if not gconv:
        stop(f"there is no gconv-modules in {' '.join(places) or GCONV[0]}: apt-get install libc6")
    if not glob.glob(f"{given.charmaps}/*"):
        stop(f"there are no charmaps in {given.charmaps}: apt-get install locales")
    if os.path.isdir(f"{given.into}/charmaps") and os.path.samefile(f"{given.into}/charmaps", given.charmaps):
        stop(f"{given.into}/charmaps are the charmaps that are read: give another folder to --into")
    if not glob.glob(f"{gconv}/gconv-modules.d/*.conf"):
        print(f"{os.path.basename(sys.argv[0])}: there is no {gconv}/gconv-modules.d; where the system has a package "
              "libc-gconv-modules-extra, most charsets are in it: apt-get install libc-gconv-modules-extra",
              file=sys.stderr)
    sets, between, aliases = read_conf(gconv)
    shipped = Shipped(given.charmaps)
    made = make(sets, between, aliases, shipped)
    lines, lost = alias_lines(made, aliases, sets)
    if max(len(lines), len(made.modules), len(made.bindings)) > MOST_LINES:
        stop(f"more than {MOST_LINES} lines of one kind")
    write(given.into, made, lines)
    tell(given.into, made, lines, lost, shipped.mended)
    return 0


if __name__ == "__main__":
    try:
        sys.exit(main())
    except BrokenPipeError:
        # nobody reads the rest of what is told; all was written before
        os.dup2(os.open(os.devnull, os.O_WRONLY), sys.stdout.fileno())
        sys.exit(0)
    except OSError as fault:
        stop(f"{fault.filename}: {fault.strerror}")

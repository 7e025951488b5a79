"""A second reading of what a run does: plain functions from texts to files, report, status and journal.

It was written from the rules alone, not from the program, and stands on nothing of it: no table is kept, nothing is
looked up twice as fast as by a list, and no thread is made. tools/random_runs.py compares the two. A name is bytes, a
point an int, a state one of "plain", "roman", "kanji", "little" and "big".
"""
import heapq
import re

BUILT_IN = ["ASCII", "UTF-8", "UTF-16", "UTF-16LE", "UTF-16BE", "UCS-4"]
INTERNAL = b"INTERNAL//"
BUILT_IN_NAMES = {f"{it}//".encode(): it for it in BUILT_IN}
BUILT_IN_ALIASES = {b"UTF8//": b"UTF-8//", b"UTF16//": b"UTF-16//", b"UCS4//": b"UCS-4//", b"US-ASCII//": b"ASCII//"}
KEPT = set(b"ABCDEFGHIJKLMNOPQRSTUVWXYZ0123456789_-.,:/")
CHARMAP_WORD = re.compile(rb"[A-Za-z0-9_\-,:+()][A-Za-z0-9_\-.,:+()]{0,63}")
LONGEST_TEXT, ALL_INPUTS, MOST_LINES, MOST_JOBS, MOST_PAIRS = 16777216, 268435456, 16384, 4096, 2097152


class Refused(Exception):
    """A refusal, by its text."""


def lines_of(text):
    lines = text.split(b"\n")
    return lines[:-1] if not lines[-1] else lines


# Names and configurations.


def normal(text):
    """The normal form of a name."""
    kept, slashes, suffix = b"", 0, None
    for at, byte in enumerate(text.upper()):
        if byte not in KEPT:
            continue
        slashes += byte == 0x2F
        if slashes == 3:
            break
        if slashes == 2 and byte != 0x2F and suffix is None:
            suffix = at
        kept += bytes([byte])
    if suffix is not None:
        raise Refused(f"suffix at {suffix}")
    if not kept or kept.startswith(b"/"):
        raise Refused("empty")
    kept += b"/" * (2 - kept.count(b"/"))
    if len(kept) > 64:
        raise Refused(f"too long {len(kept)}")
    return kept


def has_name(text):
    try:
        normal(text)
    except Refused:
        return False
    return True


class Conf:
    """A gconv-modules text with its bindings."""

    def __init__(self, modules, bindings):
        self.lines, self.aliases, self.fixed, aliases = [], {}, set(), 0
        for number, line in enumerate(lines_of(modules), 1):
            words = line.split(b"#")[0].split()
            if words[:1] == [b"alias"] and len(words) >= 3 and all(map(has_name, words[1:3])):
                aliases += 1
                self.aliases.setdefault(normal(words[1]), normal(words[2]))
            elif words[:1] == [b"module"] and len(words) >= 4 and all(map(has_name, words[1:3])) and len(words[3]) <= 64:
                cost = words[4] if len(words) > 4 else b""
                cost = int(cost) if re.fullmatch(rb"[0-9]+", cost) and 1 <= int(cost) <= 2147483647 else 1
                self.lines.append((number, normal(words[1]), normal(words[2]), words[3], cost))
                self.fixed |= {normal(words[1]), normal(words[2])}
            if max(aliases, len(self.lines)) > MOST_LINES:
                raise Refused(f"refused: modules: line {number}: too many lines")
        self.kinds = bound(bindings)
        self.edges, self.modules = [], []
        for at, name in enumerate(BUILT_IN):
            node = f"{name}//".encode()
            self.edges += [(2 * at, node, INTERNAL, 1, None), (2 * at + 1, INTERNAL, node, 1, None)]
        for number, source, target, module, cost in self.lines:
            kind = self.kinds.get(module)
            ends = [source == INTERNAL, target == INTERNAL].count(True)
            if kind and not {source, target} & set(BUILT_IN_NAMES) and ends == (kind[0] != b"recode"):
                if kind not in self.modules:
                    self.modules.append(kind)
                self.edges.append((15 + number, source, target, cost, self.modules.index(kind)))

    def resolve(self, name):
        if name == INTERNAL or name in BUILT_IN_NAMES or name in self.fixed:
            return name
        return self.aliases.get(name) or BUILT_IN_ALIASES.get(name, name)

    def asked(self, text):
        """The name that a caller asks for."""
        name = self.resolve(normal(text))
        if name == INTERNAL:
            raise Refused("reserved")
        return name

    def least(self, source, target):
        """The chain of the least key from one name to another: its cost and its edges."""
        best, heap = {}, [(0, 0, [], target, [])]
        while heap:
            cost, length, ordinals, node, edges = heapq.heappop(heap)
            if node in best:
                continue
            best[node] = cost, length, ordinals, edges
            for edge in self.edges:
                if edge[2] == node and edge[1] not in best:
                    heapq.heappush(heap, (edge[3] + cost, 1 + length, [edge[0]] + ordinals, edge[1], [edge] + edges))
        found = []
        for edge in self.edges:
            if edge[1] == source and edge[2] in best:
                cost, length, ordinals, edges = best[edge[2]]
                found.append((edge[3] + cost, 1 + length, [edge[0]] + ordinals, [edge] + edges))
        return min(found, key=lambda it: it[:3], default=None)


def bound(text):
    """The kind of each module name of a bindings text: its word, and its charmaps."""
    kinds, count = {}, 0
    for number, line in enumerate(lines_of(text), 1):
        words = line.split()
        if not words or words[0].startswith(b"#"):
            continue
        count += 1
        wanted = {b"table": 3, b"iso2022jp": 4, b"recode": 4}.get(words[1]) if len(words) > 1 else None
        for is_fault, fault in [
            (count > MOST_LINES, "too many bindings"),
            (len(words) < 2, "word count"),
            (wanted is None, "bad kind"),
            (len(words) != wanted, "word count"),
            (len(words[0]) > 64 or not all(map(CHARMAP_WORD.fullmatch, words[2:])), "bad word"),
            (words[0] in kinds, "twice"),
        ]:
            if is_fault:
                raise Refused(f"refused: bindings: line {number}: {fault}")
        kinds[words[0]] = tuple(words[1:])
    return kinds


# Charmaps and tables.

SYMBOL = re.compile(rb"<U([0-9A-Fa-f]{4}|[0-9A-Fa-f]{8})>(?:\.{2,3}<U([0-9A-Fa-f]{4}|[0-9A-Fa-f]{8})>)?")


def is_point(number):
    return number <= 0x10FFFF and not 0xD800 <= number <= 0xDFFF


def code_of(word, escape):
    """The bytes that a word spells, or None."""
    sign = re.escape(bytes([escape]))
    spelled = rb"%s(?:x([0-9A-Fa-f]{2})|d([0-9]{3}|[0-9]{2})|([0-7]{3}|[0-7]{2}))" % sign
    values, at = [], 0
    while at < len(word):
        found = re.compile(spelled).match(word, at)
        if not found:
            return None
        values.append(next(int(it, base) for it, base in zip(found.groups(), (16, 10, 8)) if it))
        at = found.end()
    return bytes(values) if values and max(values) < 256 else None


def mapping(words, escape):
    """The pairs of a mapping line, or its fault."""
    symbol = SYMBOL.fullmatch(words[0])
    ends = [int(it, 16) for it in symbol.groups() if it] if symbol else [0xD800]
    if not all(map(is_point, ends)):
        return "M4"
    if len(words) < 2:
        return "M3"
    code = code_of(words[1], escape)
    if code is None:
        return "M5"
    if len(code) > 4:
        return "M6"
    first, last = ends[0], ends[-1]
    value = int.from_bytes(code, "big")
    if last < first or first < 0xD800 <= last or value + last - first >= 256 ** len(code):
        return "M7"
    return [(first + k, (value + k).to_bytes(len(code), "big")) for k in range(last - first + 1)]


def charmap(text):
    """The pairs of a charmap text."""
    if len(text) > LONGEST_TEXT:
        raise Refused("M8 line 0")
    if text.startswith(b"\x1f\x8b"):
        raise Refused("M9 line 0")
    lines, escape, comment, pairs, is_header = lines_of(text), 0x5C, 0x23, [], True
    for number, line in enumerate(lines, 1):
        words, rest = line.split(), line.lstrip(b" \t\x0b\x0c\r")
        if not words or rest[0] == comment or (not is_header and rest.startswith(b"%IRREVERSIBLE%")):
            continue
        if is_header:
            is_header = words[0] != b"CHARMAP"
            if words[0] in (b"<include>", b"<addset>"):
                raise Refused(f"M3 line {number}")
            if words[0] in (b"<escape_char>", b"<comment_char>"):
                sign = words[1] if len(words) > 1 else b""
                if len(sign) != 1 or not 0x21 <= sign[0] <= 0x7E or sign == b"<":
                    raise Refused(f"M3 line {number}")
                escape, comment = (sign[0], comment) if words[0] == b"<escape_char>" else (escape, sign[0])
        elif words[:2] == [b"END", b"CHARMAP"]:
            return pairs
        else:
            more = mapping(words, escape)
            if isinstance(more, str):
                raise Refused(f"{more} line {number}")
            pairs += more
            if len(pairs) > MOST_PAIRS:
                raise Refused(f"M11 line {number}")
    raise Refused(f"{'M1' if is_header else 'M2'} line {len(lines)}")


class Table:
    """The table of a charmap."""

    def __init__(self, text):
        self.points, self.codes = {}, {}
        for point, code in charmap(text):
            self.points.setdefault(code, point)
            self.codes.setdefault(point, code)
        self.fronts = {code[:k] for code in self.points for k in range(len(code))} | {b""}
        inner = sorted(self.fronts & set(self.points))
        if inner:
            beyond = min(it for it in self.points if it.startswith(inner[0]) and it != inner[0])
            raise Refused(f"M10 {inner[0].hex().upper()} {beyond.hex().upper()}")
        self.pages = len(self.fronts) + 1 + len({it >> 16 for it in self.codes}) + len({it >> 8 for it in self.codes})


# Sets: what the first unit of some bytes is, and how a point is spelled.

INCOMPLETE, ILLEGAL = "incomplete", "illegal"


def is_graphic(bytes_):
    return all(0x21 <= it <= 0x7E for it in bytes_)


class Ascii:
    def unit(self, state, rest):
        return (1, rest[0], state) if rest[0] < 0x80 else ILLEGAL

    def spell(self, state, point):
        return (bytes([point]), state) if point < 0x80 else None

    def back(self, state):
        return b""


class Utf8(Ascii):
    FORMS = [(0xC2, 0xDF, 0x80, 0xBF, 2), (0xE0, 0xE0, 0xA0, 0xBF, 3), (0xE1, 0xEC, 0x80, 0xBF, 3)]
    FORMS += [(0xED, 0xED, 0x80, 0x9F, 3), (0xEE, 0xEF, 0x80, 0xBF, 3), (0xF0, 0xF0, 0x90, 0xBF, 4)]
    FORMS += [(0xF1, 0xF3, 0x80, 0xBF, 4), (0xF4, 0xF4, 0x80, 0x8F, 4)]

    def unit(self, state, rest):
        if rest[0] < 0x80:
            return 1, rest[0], state
        for low, high, least, most, length in self.FORMS:
            if low <= rest[0] <= high:
                bounds = [(least, most)] + [(0x80, 0xBF)] * (length - 2)
                if not all(a <= it <= b for it, (a, b) in zip(rest[1:], bounds)):
                    return ILLEGAL
                if len(rest) < length:
                    return INCOMPLETE
                return length, ord(rest[:length].decode()), state
        return ILLEGAL

    def spell(self, state, point):
        return chr(point).encode(), state


class Utf16(Ascii):
    """UTF-16 in one order, or with a mark."""

    def __init__(self, order=None):
        self.order = order

    def unit(self, state, rest):
        order = self.order or {"big": "big"}.get(state, "little")
        if self.order is None and state == "plain":
            if rest[:2] in (b"\xfe\xff", b"\xff\xfe"):
                return 2, None, "big" if rest[0] == 0xFE else "little"
        after = state if self.order else order
        if len(rest) < 2:
            if order == "big" and 0xDC <= rest[0] <= 0xDF:
                return ILLEGAL
            return INCOMPLETE
        one = int.from_bytes(rest[:2], order)
        if 0xDC00 <= one <= 0xDFFF:
            return ILLEGAL
        if not 0xD800 <= one <= 0xDBFF:
            return 2, one, after
        if order == "big" and len(rest) == 3 and not 0xDC <= rest[2] <= 0xDF:
            return ILLEGAL
        if len(rest) < 4:
            return INCOMPLETE
        two = int.from_bytes(rest[2:4], order)
        if not 0xDC00 <= two <= 0xDFFF:
            return ILLEGAL
        return 4, 0x10000 + (one - 0xD800) * 0x400 + two - 0xDC00, after

    def spell(self, state, point):
        if self.order:
            return chr(point).encode(f"utf-16-{self.order[0]}e"), state
        if state == "plain":
            return b"\xff\xfe" + chr(point).encode("utf-16-le"), "little"
        return chr(point).encode(f"utf-16-{state[0]}e"), state


class Ucs4(Ascii):
    def unit(self, state, rest):
        front = rest[:4]
        least = int.from_bytes(front + b"\x00" * (4 - len(front)), "big")
        most = int.from_bytes(front + b"\xff" * (4 - len(front)), "big")
        if len(front) == 4:
            return (4, least, state) if is_point(least) else ILLEGAL
        # some point begins so
        return INCOMPLETE if least <= 0x10FFFF and not (0xD800 <= least and most <= 0xDFFF) else ILLEGAL

    def spell(self, state, point):
        return point.to_bytes(4, "big"), state


class OfTable(Ascii):
    def __init__(self, table):
        self.table = table

    def unit(self, state, rest):
        for length in range(1, 5):
            if rest[:length] in self.table.points:
                return length, self.table.points[rest[:length]], state
        return INCOMPLETE if rest in self.table.fronts else ILLEGAL

    def spell(self, state, point):
        code = self.table.codes.get(point)
        return (code, state) if code is not None else None


class Iso2022Jp(Ascii):
    ESCAPES = {b"\x1b(B": "plain", b"\x1b(J": "roman", b"\x1b$@": "kanji", b"\x1b$B": "kanji"}
    MARKS = {"plain": b"\x1b(B", "roman": b"\x1b(J", "kanji": b"\x1b$B"}

    def __init__(self, roman, kanji):
        self.roman, self.kanji = roman, kanji

    def unit(self, state, rest):
        if rest[:3] in self.ESCAPES:
            return 3, None, self.ESCAPES[rest[:3]]
        if rest[0] == 0x1B:
            return INCOMPLETE if rest in (b"\x1b", b"\x1b(", b"\x1b$") else ILLEGAL
        if rest[0] >= 0x80:
            return ILLEGAL
        if not is_graphic(rest[:1]) or state == "plain":
            return 1, rest[0], state
        if state == "roman":
            point = self.roman.points.get(rest[:1])
            return (1, point, state) if point is not None else ILLEGAL
        codes = [it for it in self.kanji.points if len(it) == 2 and is_graphic(it) and it[0] == rest[0]]
        if rest[:2] in codes:
            return 2, self.kanji.points[rest[:2]], state
        return INCOMPLETE if len(rest) == 1 and codes else ILLEGAL

    def spell(self, state, point):
        roman, kanji = self.roman.codes.get(point), self.kanji.codes.get(point)
        if point < 0x80 and point != 0x1B:
            after, code = "plain", bytes([point])
        elif roman is not None and len(roman) == 1 and is_graphic(roman):
            after, code = "roman", roman
        elif kanji is not None and len(kanji) == 2 and is_graphic(kanji):
            after, code = "kanji", kanji
        else:
            return None
        return (code if state == after else self.MARKS[after] + code), after

    def back(self, state):
        return b"" if state == "plain" else self.MARKS["plain"]


BUILT = dict(zip(BUILT_IN, [Ascii(), Utf8(), Utf16(), Utf16("little"), Utf16("big"), Ucs4()]))


class Chain:
    """A chain's recipe: the set that it reads, its joints, and the set that it writes."""

    def __init__(self, conf, edges, tables):
        reads, writes = [], []
        for _, source, target, _, module in edges:
            if module is None:
                named = BUILT[BUILT_IN_NAMES[target if source == INTERNAL else source]]
                one = two = named
            else:
                kind, own = conf.modules[module][0], tables[module]
                one, two = OfTable(own[0]), OfTable(own[-1])
                if kind == b"iso2022jp":
                    one = two = Iso2022Jp(*own)
            reads.append(one)
            writes.append(two)
        inner = [at for at, edge in enumerate(edges[1:]) if edge[1] != INTERNAL]
        self.reader, self.writer = reads[0], writes[-1]
        self.joints = [(writes[at], reads[at + 1]) for at in inner]

    def carry(self, point):
        for writer, reader in self.joints:
            spelled = writer.spell("plain", point)
            unit = reader.unit("plain", spelled[0]) if spelled else ILLEGAL
            if isinstance(unit, str) or unit[0] != len(spelled[0]) or unit[1] is None:
                return None
            point = unit[1]
        return point

    def whole(self, text):
        """What a whole text gives: the verdict with its offset, and the bytes."""
        reading, writing, at, made = "plain", "plain", 0, []
        while at < len(text):
            unit = self.reader.unit(reading, text[at:])
            if isinstance(unit, str):
                return unit, at, b"".join(made)
            length, point, after = unit
            if point is not None:
                carried = self.carry(point)
                spelled = None if carried is None else self.writer.spell(writing, carried)
                if spelled is None:
                    return ILLEGAL, at, b"".join(made)
                made.append(spelled[0])
                writing = spelled[1]
            reading, at = after, at + length
        return "done", at, b"".join(made) + self.writer.back(writing)


# The runtime of one thread, by its whole history.


class History:
    """A legal history, and what the next entry of it has to be."""

    def __init__(self, conf, charmaps, pages):
        self.conf, self.charmaps, self.pages = conf, charmaps, pages
        self.events, self.entries, self.live, self.loaded, self.tables, self.chains = [], [], {}, {}, {}, {}

    def is_resident(self, module):
        own = [at for at, (_, it) in enumerate(self.events) if it == module]
        if not own:
            return False
        if sum(1 if self.events[at][0] == "use" else -1 for at in own) > 0:
            return True
        return sum(kind == "release" for kind, _ in self.events[own[-1] :][1:]) < 3

    def fetched(self, module):
        """The tables of a module, or the refusal of its first charmap that has none."""
        tables = []
        for word in self.conf.modules[module][1:]:
            name = word.decode()
            if name not in self.charmaps:
                raise Refused(f"no charmap {name}")
            if name not in self.tables:
                try:
                    self.tables[name] = Table(self.charmaps[name])
                except Refused as why:
                    self.tables[name] = Refused(f"bad charmap {name}: {why}")
            if isinstance(self.tables[name], Refused):
                raise self.tables[name]
            tables.append(self.tables[name])
        return tables

    def open(self, caller, source, target):
        """Opens a pair of texts: the position, and the chain or the refusal's text."""
        names, said = [], ""
        for side, text in (("from", source), ("to", target)):
            try:
                names.append(self.conf.asked(text))
            except Refused as why:
                names.append(b"?")
                said = said or f"bad name {side}: {why}"
        answer = chain = None
        pair = tuple(names)
        if not said:
            if pair not in self.chains:
                self.chains[pair] = self.conf.least(*names)
            chain = self.chains[pair]
            said = "" if chain else "no conversion"
        at = len(self.entries)
        if not said:
            try:
                answer, loads = self.load(pair, chain)
                ordinals = ",".join(map(str, chain[2]))
                said = f"ok cost {chain[0]} chain {ordinals} loaded {','.join(f'{m}:{n}' for m, n in loads) or '-'}"
                self.live[at] = caller, pair
            except Refused as why:
                answer, said = str(why), f"refused {why}"
        else:
            answer, said = said, f"refused {said}"
        self.entries.append(f"{at} {caller} open {names[0].decode()} {names[1].decode()} {said}")
        return at, answer

    def load(self, pair, chain):
        modules = [edge[4] for edge in chain[3] if edge[4] is not None]
        absent = [it for it in dict.fromkeys(modules) if not self.is_resident(it)]
        found = {it: self.fetched(it) for it in absent}
        loads = [(it, sum(table.pages for table in found[it])) for it in absent]
        need = sum(pages for _, pages in loads)
        free = self.pages - sum(self.loaded[it] for it in self.loaded if self.is_resident(it))
        if absent and need > free:
            raise Refused(f"store full need {need} free {free}")
        self.loaded.update(loads)
        if all(it[1] != pair for it in self.live.values()):
            self.events += [("use", it) for it in modules]
        return Chain(self.conf, chain[3], {it: self.fetched(it) for it in modules}), loads

    def close(self, caller, number):
        pair = self.live.pop(number)[1]
        if all(it[1] != pair for it in self.live.values()):
            self.events += [("release", edge[4]) for edge in self.chains[pair][3] if edge[4] is not None]
        self.entries.append(f"{len(self.entries)} {caller} close {number}")

    def text(self):
        return "".join(f"{it}\n" for it in self.entries).encode()


# Runs.


def jobs_of(text):
    """The jobs of a jobs text: four words each."""
    jobs = []
    for number, line in enumerate(lines_of(text), 1):
        words = line.split()
        if not words or words[0].startswith(b"#"):
            continue
        fault = "word count" if len(words) != 4 else None
        if not fault:
            try:
                fault = "not text" if b"\0" in b"".join(words[2:]) else None
                for word in words[2:]:
                    word.decode()
            except UnicodeDecodeError:
                fault = "not text"
        if not fault and len(jobs) == MOST_JOBS:
            fault = "too many jobs"
        if fault:
            raise Refused(f"refused: jobs: line {number}: {fault}")
        jobs.append(words)
    return jobs


def report_of(outcomes, read, written):
    good = sum(it == "ok" for it in outcomes)
    lines = [f"{at}: {it}\n" for at, it in enumerate(outcomes, 1)]
    lines.append(f"jobs {len(outcomes)} ok {good} failed {len(outcomes) - good} read {read} written {written}\n")
    return "".join(lines).encode()


def taken(jobs, files):
    """The input of each job, or why it has none."""
    inputs, left = [], ALL_INPUTS
    for _, _, name, _ in jobs:
        text = files.get(name.decode())
        inputs.append("absent" if text is None else "too large" if len(text) > min(left, LONGEST_TEXT) else text)
        left -= len(inputs[-1]) if isinstance(inputs[-1], bytes) else 0
    return inputs


def run(modules, bindings, jobs, charmaps, files, pages, full=()):
    """What a run of no workers leaves: the status, what it writes, the files, and the journal."""
    try:
        for which, text in (("modules", modules), ("bindings", bindings), ("jobs", jobs)):
            if text is None:
                raise Refused(f"refused: {which}: absent")
            if which == "modules":
                Conf(text, b"")
            elif which == "bindings":
                bound(text)
        conf, jobs = Conf(modules, bindings), jobs_of(jobs)
    except Refused as why:
        return 3, f"{why}\n".encode(), dict(files), None
    return run_jobs(conf, jobs, charmaps, files, pages, full)


def run_jobs(conf, jobs, charmaps, files, pages, full=()):
    """What the jobs of a run of no workers leave. The jobs of full, by number, are refused with that text where their
    pair could be opened: which these are is by turns with workers, and the journal tells whether they may be."""
    history, after, outcomes, written = History(conf, charmaps, pages), dict(files), [], 0
    inputs = taken(jobs, files)
    for place, ((source, target, _, output), text) in enumerate(zip(jobs, inputs), 1):
        if isinstance(text, str):
            outcomes.append(text)
            continue
        number, chain = history.open(1, source, target)
        if isinstance(chain, str):
            outcomes.append(chain)
            continue
        history.close(1, number)
        if place in full:
            outcomes.append(full[place])
            continue
        verdict, at, made = chain.whole(text)
        outcomes.append("ok" if verdict == "done" else f"{verdict} at {at}")
        after[output.decode()] = made
        written += len(made)
    read = sum(len(it) for it in inputs if isinstance(it, bytes))
    status = 0 if all(it == "ok" for it in outcomes) else 1
    return status, report_of(outcomes, read, written), after, history.text()


def run_short(source, target, files):
    """What a run of the short form leaves, over the files in and out."""
    return run_jobs(Conf(b"", b""), [(source, target, b"in", b"out")], {}, files, 0)


def made_report(number):
    """What a run on input of its own making writes, by the charmaps' texts and the rows of points."""
    maps = []
    for k in range(8):
        text = b"<escape_char> /\n<comment_char> %\nCHARMAP\n<U0000>..<U007F> /x00\n"
        for i in range(1024):
            text += b"<U%04X> /x%02x/x%02x\n" % (0x4E00 + (i * (2 * k + 1) + number) % 1024, 0x81 + i // 64, 0x40 + i % 64)
        maps.append(Table(text + b"END CHARMAP\n"))
    total = count = 0
    for j in range(1, 65):
        read, write, x = maps[j % 8], maps[(3 * j + 1) % 8], 64 * number + j
        sums = {point: sum(code) for point, code in write.codes.items()}
        for _ in range(65536):
            x = (1103515245 * x + 12345) % (1 << 31)
            point = 32 + (x >> 18) % 95 if (x >> 16) % 4 == 0 else 0x4E00 + (x >> 18) % 1024
            count += len(read.codes[point])
            total += sums[point]
    return f"jobs 64 ok 64 failed 0 read {count} written {count}\nsum {total}\n".encode()


def wrong_journal(modules, bindings, jobs, charmaps, files, pages, workers, journal, report):
    """Why a journal of some workers is no legal history of these jobs, or None."""
    conf, jobs = Conf(modules, bindings), jobs_of(jobs)
    history, asked = History(conf, charmaps, pages), {}
    for job, text, outcome in zip(jobs, taken(jobs, files), report):
        if isinstance(text, bytes):
            names = []
            for word in job[:2]:
                try:
                    names.append(conf.asked(word))
                except Refused:
                    names.append(b"?")
            asked.setdefault(tuple(names), []).append((job, outcome))
    last = {}
    for line in journal.decode().splitlines():
        position, caller, what, *words = line.split(" ")
        if not 1 <= int(caller) <= max(workers, 1):
            return f"no caller has the number {caller}"
        if what == "open":
            if last.get(caller, "close") != "close":
                return f"caller {caller} opens beside an open pair: {line}"
            left = asked.get((words[0].encode(), words[1].encode()), [])
            said = " ".join(words[3:]) if words[2] == "refused" else None
            found = [it for it in left if (it[1] == said if said else it[1] == "ok" or " at " in it[1])]
            if not found:
                return f"no job is left for {line}"
            left.remove(found[0])
            number, answer = history.open(int(caller), *found[0][0][:2])
            if not isinstance(answer, str):
                last[caller] = str(number)
        else:
            if last.get(caller) != words[0]:
                return f"caller {caller} closes what it hasn't: {line}"
            history.close(int(caller), int(words[0]))
            last[caller] = "close"
        if history.entries[-1] != line:
            return f"{line!r} should be {history.entries[-1]!r}"
    if any(asked.values()):
        return "some jobs have no entry"
    return None

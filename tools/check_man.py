#!/usr/bin/env python3
"""Compares the man page with the program's words.

    tools/check_man.py [PAGE]

PAGE is docs/iconv_batch.1 where none is given. The second form of its synopsis must be the usage line, which is one
and the same wherever the sources have it. Its options must be those of its synopsis, each told once. Where a crate
reads the words with clap, the long options must be those that it declares, no more and no fewer. The status is 1
where something differs.
"""
import glob
import os
import re
import sys

TOP = os.path.dirname(os.path.dirname(os.path.realpath(__file__)))
PAGE = f"{TOP}/docs/iconv_batch.1"
SHORT = "-f FROM -t TO IN OUT"


def text_of(name):
    with open(name, encoding="utf-8") as file:
        return file.read()


def section(page, name):
    return re.split(r"(?m)^\.Sh ", page.partition(f"\n.Sh {name}\n")[2])[0].splitlines()


def plain(macro):
    """What one line of the synopsis or of an item prints: '.Op Fl -pages Ar P' is '[--pages P]'."""
    words, said, is_option = macro.lstrip(".").split(), [], False
    for word in words:
        if word == "Op":
            is_option = True
        elif word == "Fl":
            said.append("-")
        elif word not in ("Ar", "It"):
            said.append(word)
    line = re.sub(r"(^| )- ", r"\1-", " ".join(said))
    return f"[{line}]" if is_option else line


def forms(page):
    """The forms of the synopsis, each in one line."""
    found = []
    for line in section(page, "SYNOPSIS"):
        if line == ".Nm":
            found.append([])
        elif line.startswith("."):
            found[-1].append(plain(line))
    return [" ".join(it) for it in found]


def sources():
    for name in sorted(glob.glob(f"{TOP}/crates/*/src/*.rt") + glob.glob(f"{TOP}/crates/*/specs/*.antt")):
        yield os.path.relpath(name, TOP), text_of(name)


def declared():
    """The usage lines of the sources, with a file that has each, and the options that clap is told of."""
    lines, options = {}, set()
    for name, text in sources():
        for line in re.findall(r'"usage: iconv_batch ([^"]*?)\\n"', text):
            lines.setdefault(line, name)
        if re.search(r"(?m)^use clap::", text) and "/src/" in name:
            options.update(re.findall(r'(?:with_option\([^()]*|\.long\()"(\w+)"\)', text))
    return lines, {f"--{it}" for it in options}


def differences(page):
    lines, options = declared()
    synopsis = forms(page)
    if len(lines) != 1:
        yield f"the sources have {len(lines)} usage lines: {'; '.join(f'{line} ({it})' for line, it in lines.items())}"
    for line, name in lines.items():
        if line not in synopsis:
            yield f"the synopsis hasn't the usage line of {name}: {line}"
    if SHORT not in synopsis:
        yield f"the synopsis hasn't the short form: {SHORT}"
    told = [plain(line).split()[0] for line in section(page, "OPTIONS") if line.startswith(".It Fl")]
    asked = {it for form in synopsis for it in re.findall(r"(?<![\w-])--?\w+", form)}
    for it in sorted(asked - {*told}):
        yield f"the synopsis has {it}, and OPTIONS doesn't tell it"
    for it in sorted({*told} - asked):
        yield f"OPTIONS tells {it}, and no form of the synopsis has it"
    for it in sorted({it for it in told if told.count(it) > 1}):
        yield f"OPTIONS tells {it} twice"
    if options:
        for it in sorted(options ^ {it for it in told if it.startswith("--")}):
            yield f"{it} is {'read by the program and not told' if it in options else 'told and not read'}"


def main():
    name = sys.argv[1] if len(sys.argv) > 1 else PAGE
    found = list(differences(text_of(name)))
    for it in found:
        print(f"{os.path.relpath(name)}: {it}")
    if not found:
        print("man page: its words are the program's")
    return 1 if found else 0


if __name__ == "__main__":
    try:
        sys.exit(main())
    except OSError as fault:
        print(f"check_man.py: {fault.filename}: {fault.strerror}", file=sys.stderr)
        sys.exit(1)

#!/bin/sh
# Reads the charmaps of the system's package locales, tells which aren't accepted and why, and measures
# conversions by some of them in memory, beside iconv(1) and iconv(3) on the same text of 16 MiB.
#
#   bench/charmaps.sh [PROGRAM]
#
# PROGRAM is crates/charmap_bench/out/charmap_bench where none is given. RUNS=N measures each row N times
# (3 where it isn't set), the three turn and turn about; a figure is the best of them. Figures are MB/s of
# input by processor time, since that varies least where other programs run. The program and iconv(3) convert a
# text that is in memory, in pieces of 64 KiB into a scratch that is used again. Of iconv(1) all time counts,
# that of its start, of its reading and of its writing to /dev/null too.
# A text is made in UTF-8 from a few words, and iconv(1) makes it in the other set. The two tables of
# ISO-2022-JP are JIS_C6220-1969-RO and what EUC-JP has of JIS X 0208.
. "$(dirname "$0")/setup.sh"
charmaps=/usr/share/i18n/charmaps
need python3 iconv gzip
if [ ! -f "$charmaps/EUC-JP.gz" ]; then
    echo "skipped: there are no charmaps in $charmaps (package locales)"
    exit 0
fi
built charmap_bench "$@"
scratch

mkdir "$folder/maps" || exit 2
for packed in "$charmaps"/*.gz; do
    gzip -dc "$packed" >"$folder/maps/$(basename "$packed" .gz)" || exit 2
done
echo "load: $(cut -d ' ' -f 1-3 /proc/loadavg)"
(cd "$folder/maps" && "$program" check *) | grep -v ' ok [0-9]* pairs [0-9]* pages$'
# As many pairs as a charmap may have, which a text of 16 MiB can hold as ranges alone: one run in each of
# five programs, since a program reads a charmap once.
cat >"$folder/ranges" <<'MAP'
<escape_char> /
CHARMAP
<U00010000>..<U0010FFFF> /x00/x00/x00/x00
<U00010000>..<U0010FFFF> /x10/x00/x00/x00
END CHARMAP
MAP
echo "EUC-JP: $("$program" time "$folder/maps/EUC-JP" 20 | tr '\n' ' ')"
for _ in 1 2 3 4 5; do
    echo "2,097,152 pairs in two ranges: $("$program" time "$folder/ranges" 1 | tr '\n' ' ')"
done

python3 - "$program" "$folder" "${RUNS:-3}" "$here/bench" <<'PY'
import os
import re
import subprocess
import sys

program, folder, runs = sys.argv[1], sys.argv[2], int(sys.argv[3])
sys.dont_write_bytecode = True
sys.path.insert(0, sys.argv[4])
from peers import library, passage, used

SIZE, TIMES = 16 * 2**20, 5
words = {
    "japanese": "日本語 文字 コード 変換 と は を に が で ひらがな カタカナ 漢字 東京 大阪 今日 明日 世界 、 。",
    "chinese": "中文 字符 编码 转换 的 是 在 了 和 有 我们 世界 北京 上海 今天 明天 汉字 语言 ， 。",
    "cyrillic": "и в не на я быть он с что а по это она этот к но они мы весь который мочь",
    "latin": "déjà élève être naïf garçon où façon über Straße schön größer früh Mädchen niño mañana the",
}


def write_text(kind):
    whole = passage(words[kind], 15, " " if kind in ("cyrillic", "latin") else "").encode()
    name = f"{folder}/{kind}"
    with open(name, "wb") as out:
        out.write(whole * (SIZE // len(whole)))
    return name


def write_kanji():
    # what EUC-JP has of JIS X 0208, by the codes that ISO-2022-JP has for it
    row = re.compile(r"(<U[0-9A-F]{4}>)\s+/x([a-f][0-9a-f])/x([a-f][0-9a-f])\s")
    name = f"{folder}/kanji"
    with open(f"{folder}/maps/EUC-JP") as rows, open(name, "w") as out:
        out.write("<escape_char> /\n<comment_char> %\nCHARMAP\n")
        for found in map(row.match, rows):
            if found and int(found[2], 16) > 0xA0 and int(found[3], 16) > 0xA0:
                out.write(f"{found[1]} /x{int(found[2], 16) - 128:02x}/x{int(found[3], 16) - 128:02x}\n")
        out.write("END CHARMAP\n")
    return name


def ours(command, way, name):
    # bytes of output, and MB/s of the best run
    answer = subprocess.run([program, *command, way, name, str(TIMES)], capture_output=True, text=True)
    found = re.fullmatch(r"in (\d+) out (\d+) Done\n(\d+) MB/s\n", answer.stdout)
    if not found or int(found[1]) != os.path.getsize(name):
        return None, f"the program says: {answer.stdout}{answer.stderr}"
    return int(found[2]), int(found[3])


def rate(size, took):
    return size / took / 1e6 if took else 0


def row(label, command, way, source, target, name, size):
    with open(name, "rb") as text:
        made = text.read()
    mine, peers, calls = 0, 0, 0
    for _ in range(runs):
        out, speed = ours(command, way, name)
        if out is None:
            print(f"{label:<26}{speed}", flush=True)
            return
        mine, calls, peers = max(mine, speed), max(calls, rate(len(made), library(source, target, made))), max(
            peers, rate(len(made), used(["iconv", "-f", source, "-t", target, name])))
    same = "" if out == size else f"  {out} bytes, not {size}"
    print(f"{label:<26}{mine:>8.0f}{peers:>10.0f}{calls:>10.0f}{mine / peers:>10.2f}{mine / calls:>10.2f}{same}",
          flush=True)


print(f"{'MB/s, best of ' + str(runs):<26}{'program':>8}{'iconv(1)':>10}{'iconv(3)':>10}{'ratio':>10}{'ratio':>10}")
jobs = [("EUC-JP", ["convert", f"{folder}/maps/EUC-JP"], "japanese"),
        ("GBK", ["convert", f"{folder}/maps/GBK"], "chinese"),
        ("KOI8-R", ["convert", f"{folder}/maps/KOI8-R"], "cyrillic"),
        ("ISO-8859-1", ["convert", f"{folder}/maps/ISO-8859-1"], "latin"),
        ("ISO-2022-JP", ["jp", f"{folder}/maps/JIS_C6220-1969-RO", write_kanji()], "japanese")]
for charset, command, kind in jobs:
    plain, coded = write_text(kind), f"{folder}/{kind}.{charset}"
    with open(coded, "wb") as out:
        if subprocess.run(["iconv", "-f", "UTF-8", "-t", charset, plain], stdout=out).returncode != 0:
            print(f"{charset:<26}skipped: iconv doesn't have it")
            continue
    row(f"{charset} -> UTF-8", command, "FROM", charset, "UTF-8", coded, os.path.getsize(plain))
    row(f"UTF-8 -> {charset}", command, "TO", "UTF-8", charset, plain, os.path.getsize(coded))

# Kanji alone: what the set costs beside a set that has the same codes and no state.
roman, kanji, alone = f"{folder}/maps/JIS_C6220-1969-RO", write_kanji(), f"{folder}/alone"
with open(write_text("japanese"), encoding="utf-8") as text, open(alone, "w", encoding="utf-8") as out:
    out.write(text.read().replace("\n", ""))
made = subprocess.run(["iconv", "-f", "UTF-8", "-t", "ISO-2022-JP", alone], capture_output=True).stdout
for name, text in ((f"{alone}.jp", made), (f"{alone}.table", made[3:-3])):
    with open(name, "wb") as out:
        out.write(text)
for _ in range(runs):
    cells = [("written", alone, alone, "TO"), ("read", f"{alone}.table", f"{alone}.jp", "FROM")]
    for label, of_table, of_jp, way in cells:
        table, jp = ours(["convert", kanji], way, of_table)[1], ours(["jp", roman, kanji], way, of_jp)[1]
        print(f"Kanji alone, {label}: its table {table} MB/s, ISO-2022-JP {jp} MB/s", flush=True)
PY

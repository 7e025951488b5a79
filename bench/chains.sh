#!/bin/sh
# Measures one chain at work in memory, beside iconv(3) of the C library on the same pieces and beside
# iconv(1) on the same file of 16 MiB. Figures are MB/s of input, by processor time.
#
#   bench/chains.sh [PROGRAM]
#
# bench/draw.py draws what it prints. PROGRAM is crates/chain_bench/out/chain_bench where none is given. RUNS=N measures each row N times
# (5 where it isn't set); a figure is the best of them. A row is skipped where a peer is missing.
. "$(dirname "$0")/setup.sh"
need python3 iconv
built chain_bench "$@"
scratch

python3 - "$program" "$folder" "${RUNS:-5}" "$here/bench" <<'PY'
import os
import sys

program, folder, runs = sys.argv[1], sys.argv[2], int(sys.argv[3])
sys.dont_write_bytecode = True
sys.path.insert(0, sys.argv[4])
from peers import library, passage, used

SIZE, TIMES = 16 * 2**20, 8
words = {
    "ascii": "the of and to in is that it was for on are as with they at be this have from or one had by",
    "latin": "déjà élève être naïf garçon où façon über Straße schön größer früh Mädchen niño mañana the",
    "cyrillic": "и в не на я быть он с что а по это она этот к но они мы весь который мочь",
    "japanese": "日本語 文字 コード 変換 と は を に が で ひらがな カタカナ 漢字 東京 大阪 今日 明日 世界",
    "chinese": "中文 字符 编码 转换 的 是 在 了 和 有 我们 世界 北京 上海 今天 明天 汉字 语言 ， 。",
    "emoji": "😀 😁 😂 🤣 😃 🎉 🚀 🌍 🍣 🐈 🦊 🧪 🔧 📁 💾 🕰 🎼 🀄 🂡 𝄞",
}
rows = [("UTF-8", "UTF-16LE", k) for k in words] + [("UTF-16LE", "UTF-8", k) for k in words]
rows += [("UTF-8", "UCS-4", k) for k in ("ascii", "latin", "japanese")]
rows += [("UTF-8", "UTF-8", "ascii"), ("ASCII", "UTF-8", "ascii")]


def write_text(kind, encoding):
    whole = passage(words[kind]).encode(encoding)
    made = whole * (SIZE // len(whole))
    name = f"{folder}/{kind}.{encoding}"
    with open(name, "wb") as out:
        out.write(made)
    return name, made


def ours(source, target, name):
    many, one = (used([program, source, target, name, str(n)]) for n in (TIMES + 1, 1))
    return (many - one) / TIMES if many is not None and one is not None else None


def tool(source, target, name):
    whole, empty = (used(["iconv", "-f", source, "-t", target, n]) for n in (name, os.devnull))
    return whole - empty if whole is not None and empty is not None else None


def rate(measured, size):
    took = [m for m in measured if m is not None and m > 0]
    return f"{size / min(took) / 1e6:>10.0f}" if took else f"{'-':>10}"


print(f"{'pair':<19}{'text':<9}{'chain':>10}{'iconv(3)':>10}{'iconv(1)':>10}   MB/s, best of {runs}")
for source, target, kind in rows:
    name, made = write_text(kind, "utf-16-le" if source == "UTF-16LE" else "utf-8")
    measured = [(ours(source, target, name), library(source, target, made), tool(source, target, name))
                for _ in range(runs)]
    cells = "".join(rate(column, len(made)) for column in zip(*measured))
    print(f"{source} -> {target}".ljust(19) + kind.ljust(9) + cells, flush=True)
PY

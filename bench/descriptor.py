"""What bench/descriptor.sh measures: lists of jobs with one worker and with none."""
import filecmp
import os
import subprocess
import sys

from peers import passage
from whole import CODECS, TOP, WORDS

SIZE, JOBS = 16 * 2**20, 4
ROWS = [("EUC-JP", "UTF-8", "ascii"), ("EUC-JP", "UTF-8", "japanese"), ("UTF-8", "EUC-JP", "ascii"),
        ("UTF-8", "EUC-JP", "japanese"), ("GBK", "UTF-8", "chinese"), ("UTF-8", "GBK", "chinese"),
        ("KOI8-R", "UTF-8", "cyrillic"), ("UTF-8", "KOI8-R", "cyrillic"), ("ISO-2022-JP", "UTF-8", "japanese"),
        ("UTF-8", "ISO-2022-JP", "japanese"), ("UTF-8", "UTF-16LE", "japanese")]


def write(name, content):
    with open(name, "wb") as out:
        out.write(content)
    return name


def words(program, folder, jobs, workers):
    return [program, "--modules", f"{folder}/charsets/gconv-modules", "--bindings", f"{folder}/charsets/bindings",
            "--charmaps", f"{folder}/charsets/charmaps", "--jobs", jobs, "--workers", str(workers)]


def used(command):
    """The processor time of a child that ends well, in ms, all of it and what is the program's own, else None."""
    child = subprocess.Popen(command, stdout=subprocess.DEVNULL)
    _, status, usage = os.wait4(child.pid, 0)
    child.returncode = status
    return ((usage.ru_utime + usage.ru_stime) * 1000, usage.ru_utime * 1000) if status == 0 else None


def least_of(one, other):
    return tuple(min(pair) for pair in zip(one, other))


def main(program, folder, runs):
    made = subprocess.run([f"{TOP}/tools/system_config.py", "--into", f"{folder}/charsets"],
                          capture_output=True, text=True, check=False)
    if made.returncode != 0:
        sys.exit(f"skipped: {made.stderr.strip()}")
    print(f"{'ms, least of ' + str(runs):<34}{'owned':>8}{'descriptor':>12}{'ratio':>8}{'own alone':>12}{'':>8}{'ratio':>8}")
    for source, target, text in ROWS:
        whole = passage(WORDS[text]).encode(CODECS[source])
        write(f"{folder}/full", whole * (SIZE // len(whole)))
        write(f"{folder}/empty", b"")
        least = {}
        for _ in range(runs):
            for file in ("full", "empty"):
                for workers in (0, 1):
                    lines = [f"{source} {target} {folder}/{file} {folder}/out{workers}.{k}\n" for k in range(JOBS)]
                    jobs = write(f"{folder}/jobs", "".join(lines).encode())
                    took = used(words(program, folder, jobs, workers))
                    if took is None:
                        sys.exit(f"{source} to {target}: a run with {workers} workers fails")
                    least[file, workers] = least_of(took, least.get((file, workers), took))
                same = all(filecmp.cmp(f"{folder}/out0.{k}", f"{folder}/out1.{k}", False) for k in range(JOBS))
                if not same:
                    sys.exit(f"{source} to {target}: the outputs differ")
        row = f"{source} to {target}, {text}".ljust(34)
        for kind, wide in ((0, 8), (1, 12)):
            owned, shared = (least["full", workers][kind] - least["empty", workers][kind] for workers in (0, 1))
            row += f"{owned:>{wide}.1f}{shared:>{20 - wide}.1f}{shared / owned:>8.2f}"
        print(row, flush=True)


main(sys.argv[1], sys.argv[2], int(sys.argv[3]))

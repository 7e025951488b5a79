#!/usr/bin/env python3
"""Sees to it that out/iconv_batch is the proved program of the sources as they are.

    tools/proved_program.py [RT]

RT is the toolchain's command, the first rt of PATH where none is given. Nothing is done where the program is that of
the sources. Else the crates that it stands on and the program are proved, lowest first, side by side where rt lets
them, with a line a crate on the standard error, and the new program is put in place only once all is proved and no
source has changed meanwhile. So a failed build leaves the program of before, and two runs at once don't build twice.
WENSIBAG_JOBS=N lets at most N crates be proved at a time (as many as there are processors and memory, where it isn't
set).

out/iconv_batch.stamp has what the program was made from: the toolchain's version and the sum of each source. out/seen
has the times of change that a look into the sources began with, for the quick test of ./wensibag.
The status is 0 where the program is there, else 70.
"""
import fcntl
import hashlib
import os
import re
import shlex
import shutil
import signal
import subprocess
import sys
import time

TOP = os.path.dirname(os.path.dirname(os.path.realpath(__file__)))
PROGRAM, OUT = "iconv_batch", f"{TOP}/out"
KEPT, STAMP, SEEN = f"{OUT}/{PROGRAM}", f"{OUT}/{PROGRAM}.stamp", f"{OUT}/seen"
# Where rt builds the program, and what it says of each crate.
BUILT, LOGS = f"{TOP}/crates/{PROGRAM}/out/{PROGRAM}", f"{OUT}/logs"
FAILED, PARTS = 70, ("src", "specs", "proofs")
# What one check of a crate takes at most, mostly, in KiB.
MEMORY = 3 * 2**20


def say(text):
    print(f"wensibag: {text}", file=sys.stderr, flush=True)


def stop(text):
    say(text)
    sys.exit(FAILED)


def read(name):
    try:
        with open(name, encoding="utf-8") as file:
            return file.read()
    except FileNotFoundError:
        return None


def write(name, text):
    with open(f"{name}.new", "w", encoding="utf-8") as file:
        file.write(text)
    os.replace(f"{name}.new", name)


def crates_needed():
    """The crates that the program stands on and the program, lowest first, each with those right below it."""
    rows = [line.partition("#")[0] for line in (read(f"{TOP}/crates.txt") or "").splitlines()]
    listed = {line.partition(":")[0].split()[0]: re.split(r"[\s,]+", line.partition(":")[2].strip())
              for line in rows if line.strip()}
    needed = {}

    def add(name):
        if name in listed and name not in needed:
            for below in listed[name]:
                add(below)
            needed[name] = [below for below in listed[name] if below in listed]

    add(PROGRAM)
    return needed or stop(f"crates.txt doesn't list {PROGRAM}")


def sources(crates):
    """All files and folders that say what the crates do and promise, from the top.

    Those are not the folders in proofs/, whose files are steps of the proof of one function: nothing else reads
    them, so what was proved by earlier ones stays proved.
    """
    files, folders = ["crates.txt"], []
    for name in crates:
        folders.append(f"crates/{name}")
        for part in PARTS:
            for folder, below, names in os.walk(f"{TOP}/crates/{name}/{part}"):
                below[:] = [] if part == "proofs" else sorted(below)
                folders.append(os.path.relpath(folder, TOP))
                files += [os.path.relpath(f"{folder}/{it}", TOP) for it in sorted(names)]
    return files, folders


def sum_of(name):
    with open(name, "rb") as file:
        return hashlib.sha256(file.read()).hexdigest()


def stamp_of(files, version):
    """What the program is made from: the toolchain, and the names and sums of the sources."""
    return "".join([f"{version}\n", *(f"{sum_of(f'{TOP}/{it}')} {it}\n" for it in files)])


def toolchain_files(rt):
    """The files by whose change another toolchain is noticed."""
    folder = os.path.dirname(os.path.realpath(rt))
    beside = [f"{folder}/{it}" for it in sorted(os.listdir(folder)) if it.startswith(("rt", "rattle"))]
    marks = [f"{os.path.dirname(folder)}/{it}" for it in ("KIT-ID", "WHAT")]
    return [rt, *(it for it in [*beside, *marks] if it != rt and os.path.lexists(it))]


def times_of(names):
    """What `stat -c %.9Z` prints of these names, or None where one is gone."""
    try:
        found = [os.lstat(os.path.join(TOP, it)).st_ctime_ns for it in names]
    except FileNotFoundError:
        return None
    return "\n".join(f"{it // 10**9}.{it % 10**9:09d}" for it in found)


def write_seen(rt, names, times):
    """Leaves what the quick test compares, where names and times fit into its words."""
    if times and not any(re.search(r"\s", it) for it in names):
        write(SEEN, f"toolchain={shlex.quote(rt or '')}\nfiles={shlex.quote(' '.join(names))}\n"
                    f"times={shlex.quote(times)}\n")


def version_of(rt):
    ran = subprocess.run([rt, "version"], capture_output=True, text=True, check=False)
    return ran.stdout.strip() if ran.returncode == 0 else stop(f"`rt version` fails: {ran.stderr.strip()}")


def at_a_time():
    """How many crates may be proved at a time."""
    asked = os.environ.get("WENSIBAG_JOBS", "")
    if asked.isdigit() and int(asked) > 0:
        return int(asked)
    found = re.search(r"MemAvailable:\s+(\d+)", read("/proc/meminfo") or "")
    fits = int(found[1]) // MEMORY if found else 1
    return max(1, min(len(os.sched_getaffinity(0)), fits))


class Proving:
    """Proves crates, each once those below it are proved, and builds the program."""

    def __init__(self, rt, crates):
        self.rt, self.number, self.most, self.begun = rt, len(crates), at_a_time(), 0
        self.below, behind = {}, dict.fromkeys(crates, 0)
        for name, right_below in crates.items():
            self.below[name] = {name}.union(*(self.below[it] for it in right_below))
        for name in reversed(list(crates)):
            for it in crates[name]:
                behind[it] = max(behind[it], behind[name] + 1)
        # first those with the longest chain of others above them
        self.waiting = sorted(crates, key=lambda it: -behind[it])
        self.running, self.proved = {}, set()
        shutil.rmtree(LOGS, ignore_errors=True)
        os.makedirs(LOGS)

    def is_ready(self, name, beside=()):
        """Whether a crate can be proved beside those that run and these: rt keeps a crate and all below to itself."""
        return self.below[name] - {name} <= self.proved and not any(
            self.below[name] & self.below[it] for it in (*self.running, *beside))

    def start(self, name):
        self.waiting.remove(name)
        others = [it for it in self.waiting if self.is_ready(it, [name])]
        share = max(1, self.most // (len(self.running) + 1 + len(others)))
        # rt itself knows best how many jobs a crate alone can use
        jobs = ["--jobs", str(share)] if share < self.most or self.most == 1 else []
        self.begun += 1
        say(f"proving {self.begun} of {self.number}: {name}")
        with open(f"{LOGS}/{name}", "wb") as log:
            self.running[name] = subprocess.Popen(
                [self.rt, "run" if name == PROGRAM else "lib", *jobs], cwd=f"{TOP}/crates/{name}",
                stdin=subprocess.DEVNULL, stdout=log, stderr=subprocess.STDOUT, start_new_session=True)

    def take_ended(self):
        for name, child in list(self.running.items()):
            status = child.poll()
            if status is None:
                continue
            del self.running[name]
            # The program was run without words, so its own status says nothing: it must have been made.
            if status != 0 if name != PROGRAM else not os.access(BUILT, os.X_OK):
                stop_on(name, f"{LOGS}/{name}")
            self.proved.add(name)

    def end_all(self):
        for child in self.running.values():
            try:
                os.killpg(child.pid, signal.SIGTERM)
            except ProcessLookupError:
                pass
            child.wait()

    def run(self):
        try:
            while self.waiting or self.running:
                for name in list(self.waiting):
                    if len(self.running) < self.most and self.is_ready(name):
                        self.start(name)
                time.sleep(0.05)
                self.take_ended()
        finally:
            self.end_all()


def stop_on(name, log):
    with open(log, encoding="utf-8", errors="replace") as file:
        print("".join(file.readlines()[-20:]), end="", file=sys.stderr)
    say(f"{name} isn't proved or built; the whole log is {log}")
    if os.path.isfile(KEPT):
        say(f"the program of before, made from other sources, is still {KEPT}")
    sys.exit(FAILED)


def build(rt, crates, stamp):
    started = time.monotonic()
    say(f"proving and building the program, {len(crates)} crates; the first time takes some minutes")
    # rt leaves an old program where a source is refused, so what is there afterwards must be new.
    if os.path.lexists(BUILT):
        os.remove(BUILT)
    Proving(rt, crates).run()
    if Look(rt).stamp != stamp:
        stop("a source or the toolchain has changed meanwhile: run it again (what is proved stays so)")
    shutil.copy2(BUILT, f"{KEPT}.new")
    if os.path.exists(STAMP):
        os.remove(STAMP)
    os.replace(f"{KEPT}.new", KEPT)
    write(STAMP, f"{stamp}{sum_of(KEPT)} program\n")
    say(f"proved and built in {time.monotonic() - started:.0f} s")


class Look:
    """What the sources and the toolchain are, with the times of change from before they were read."""

    def __init__(self, rt):
        self.crates = crates_needed()
        files, folders = sources(self.crates)
        self.names = [*files, *folders, f"out/{PROGRAM}", *(toolchain_files(rt) if rt else [])]
        self.times = times_of(self.names)
        # An edit in the clock tick of these times comes before the sums.
        time.sleep(0.02)
        self.stamp = stamp_of(files, version_of(rt) if rt else (read(STAMP) or "").partition("\n")[0])

    def is_kept(self):
        return os.access(KEPT, os.X_OK) and read(STAMP) == f"{self.stamp}{sum_of(KEPT)} program\n"


def locked():
    """Waits until no other run builds here, and returns what keeps others out until it is closed."""
    try:
        os.makedirs(OUT, exist_ok=True)
        lock = open(f"{OUT}/lock", "w", encoding="utf-8")
    except OSError as fault:
        stop(f"{OUT} can't be written to: {fault.strerror}")
    try:
        fcntl.flock(lock, fcntl.LOCK_EX | fcntl.LOCK_NB)
    except BlockingIOError:
        say("another run is proving the program; waiting for that one")
        fcntl.flock(lock, fcntl.LOCK_EX)
    return lock


def main():
    rt = sys.argv[1] if len(sys.argv) > 1 and sys.argv[1] else shutil.which("rt")
    with locked():
        look = Look(rt)
        if not look.is_kept():
            if not rt:
                stop("the toolchain's command rt isn't on the PATH")
            build(os.path.abspath(rt), look.crates, look.stamp)
            look = Look(rt)
        if look.is_kept():
            write_seen(rt, look.names, look.times)


if __name__ == "__main__":
    for ending in (signal.SIGHUP, signal.SIGINT, signal.SIGTERM):
        signal.signal(ending, lambda *_: stop("stopped; what is proved stays so"))
    main()

"""Texts, and iconv(3) and other programs at work on them, for the scripts of this folder."""
import ctypes
import os
import subprocess
import time

# How much of a text is handed to one call, and the room for what it gives, in bytes.
PIECE, SCRATCH = 2**16, 2**17

libc = ctypes.CDLL(None)
libc.iconv_open.restype = ctypes.c_void_p
libc.iconv.restype = ctypes.c_size_t
libc.iconv.argtypes = [ctypes.c_void_p] + [ctypes.c_void_p] * 4
libc.iconv_close.argtypes = [ctypes.c_void_p]


def passage(words, many=10, between=" "):
    """Lines of so many words, drawn by a fixed rule, so that each run measures the same bytes."""
    choices, state, lines = words.split(), 1, []
    for _ in range(1200):
        line = []
        for _ in range(many):
            state = (state * 1103515245 + 12345) % 2**31
            line.append(choices[(state >> 16) % len(choices)])
        lines.append(between.join(line) + "\n")
    return "".join(lines)


def library(source, target, made):
    """The processor time of iconv(3) on a text in memory, in pieces, into a scratch that is used again."""
    handle = libc.iconv_open(target.encode(), source.encode())
    scratch = ctypes.create_string_buffer(SCRATCH)
    base = ctypes.cast(ctypes.c_char_p(made), ctypes.c_void_p).value
    place, left, out, room = ctypes.c_void_p(), ctypes.c_size_t(), ctypes.c_void_p(), ctypes.c_size_t()
    arguments = [handle] + [ctypes.byref(c) for c in (place, left, out, room)]
    start, at = time.process_time(), 0
    while at < len(made):
        piece = min(PIECE, len(made) - at)
        place.value, left.value = base + at, piece
        out.value, room.value = ctypes.addressof(scratch), SCRATCH
        libc.iconv(*arguments)
        if left.value == piece:
            return None
        at += piece - left.value
    took = time.process_time() - start
    libc.iconv_close(handle)
    return took


def used(command):
    """The processor time of a child that ends well, else None."""
    child = subprocess.Popen(command, stdout=subprocess.DEVNULL)
    _, status, usage = os.wait4(child.pid, 0)
    child.returncode = status
    return usage.ru_utime + usage.ru_stime if status == 0 else None

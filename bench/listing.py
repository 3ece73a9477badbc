#!/usr/bin/env python3
"""Times `attest show` on executables, each twice as long as the one before: seconds, and the size of the listing.

Usage: listing.py PROGRAM

First files whose one segment is words: three of four are instructions with random fields, and the others random words,
of which most are none. Then files of which four bytes are loaded, and the rest is passed over: nearly all that is timed
there is that the file is read. Prints the best of three runs, with the start of the program in it.
"""
import os
import random
import struct
import subprocess
import sys
import tempfile
import time

# the fixed bits of an instruction of each form, and those that may be anything: lui, jal, beq, lw, sw, addi, sub
FORMS = [(0x37, 0xFFFFFF80), (0x6F, 0xFFFFFF80), (0x63, 0xFFFF8F80), (0x2003, 0xFFFF8F80), (0x2023, 0xFFFF8F80),
         (0x13, 0xFFFF8F80), (0x40000033, 0x01FF8F80)]
MIB = 2**20


def words(size):
    pick, found = random.Random(1), []
    for k in range(size // 4):
        fixed, free = FORMS[k % len(FORMS)] if k % 4 else (0, 2**32 - 1)
        found.append(fixed | pick.getrandbits(32) & free)
    return struct.pack(f"<{len(found)}I", *found)


def elf(loaded, passed_over):
    """An executable with one segment, at the end of the file."""
    head = struct.pack("<HHIIIIIHHHHHH", 2, 243, 1, 0x80000000, 52, 0, 0, 52, 32, 1, 0, 0, 0)
    segment = struct.pack("<8I", 1, 84 + passed_over, 0x80000000, 0x80000000, len(loaded), len(loaded), 7, 1)
    return b"\x7fELF\1\1\1" + bytes(9) + head + segment + bytes(passed_over) + loaded


def timed(program, path):
    begun = time.perf_counter()
    done = subprocess.run([program, "show", path], capture_output=True)
    seconds = time.perf_counter() - begun
    assert done.returncode == 0, (done.returncode, done.stderr)
    return seconds, done.stdout


def row(program, what, path, file):
    with open(path, "wb") as it:
        it.write(file)
    runs = [timed(program, path) for _ in range(3)]
    best, lines, size = min(s for s, _ in runs), runs[0][1].count(b"\n"), len(runs[0][1]) / MIB
    print(f"{len(file) / MIB:5.3f} MiB, {what}: {best:.3f} s, {lines:6} lines of {size:5.2f} MiB")


def main():
    program = sys.argv[1]
    with tempfile.TemporaryDirectory() as folder:
        path = os.path.join(folder, "long.elf")
        for size in (MIB // 4, MIB // 2, MIB, 2 * MIB):
            row(program, "words", path, elf(words(size), 0))
        for size in (MIB, 2 * MIB, 4 * MIB):
            row(program, "passed over", path, elf(words(4), size - 88))


main()

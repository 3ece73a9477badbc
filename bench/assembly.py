#!/usr/bin/env python3
"""Times `attest asm` on long texts, each twice as long as the one before: seconds, statements and labels.

Usage: assembly.py PROGRAM

Each label is the target of one jump far from it, so that a walk over all labels for each use would show. Prints the
best of three runs, with the start of the program in it.
"""
import os
import subprocess
import sys
import tempfile
import time


def text(labels):
    lines = [".segment 0x80000000", ".entry l0"]
    for k in range(labels):
        lines.append(f"l{k}: addi x1, x2, {k % 2048}")
        lines.append(f" j l{(k * 7919) % labels}")
    return "\n".join(lines) + "\n"


def timed(program, source, elf):
    begun = time.perf_counter()
    done = subprocess.run([program, "asm", source, elf], capture_output=True, text=True)
    assert done.returncode == 0, (done.returncode, done.stderr)
    return time.perf_counter() - begun


def main():
    program = sys.argv[1]
    with tempfile.TemporaryDirectory() as folder:
        source, elf = os.path.join(folder, "long.s"), os.path.join(folder, "long.elf")
        for labels in (10_000, 20_000, 40_000, 80_000):
            with open(source, "w") as file:
                file.write(text(labels))
            best = min(timed(program, source, elf) for _ in range(3))
            size = os.path.getsize(source) / 2**20
            print(f"{size:5.2f} MiB, {2 * labels:6} statements, {labels:5} labels: {best:6.3f} s")


main()

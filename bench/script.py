#!/usr/bin/env python3
"""Times `attest script` on long scripts over a memory of 1 MiB, each twice as long as the one before.

Usage: script.py PROGRAM [STEPS]   (STEPS is that of the longest script, 90,000 unless given)

Each script writes and reads all over memory while one Dec-Lock pass copies as many of its 4,096 blocks as
there are steps for. Prints, for each length, the seconds of the best of three runs and the greatest
resident memory in KiB. Linear growth shows as seconds that double.
"""
import os
import random
import subprocess
import sys
import tempfile
import time

BASE, SIZE, BLOCKS = 0x80000000, 256, 4096
NONCE = "000102030405060708090a0b0c0d0e0f"


def script(steps):
    pick = random.Random(1)
    lines = [f"memory {BASE:08x} {SIZE} {BLOCKS} {steps}", f"attest 0 {BLOCKS}", "key 6b6579", f"start dec 1 {NONCE}"]
    copied = 0
    for k in range(1, steps):
        if copied < BLOCKS and k % 10 == 9:
            lines.append("copy")
            copied += 1
        elif copied == BLOCKS:
            lines.append("end")
            copied += 1
        else:
            addr = BASE + 4 * pick.randrange(SIZE * BLOCKS // 4)
            lines.append(f"store 4 {addr:08x} {pick.randrange(1 << 32):08x}" if k % 2 else f"load 4 {addr:08x}")
    return "\n".join(lines) + "\n"


def timed(program, path):
    with open(path, "rb") as text, open(os.devnull, "wb") as sink:
        begun = time.perf_counter()
        child = subprocess.Popen([program, "script"], stdin=text, stdout=sink)
        _, status, used = os.wait4(child.pid, 0)
        seconds = time.perf_counter() - begun
    if os.waitstatus_to_exitcode(status) != 0:
        sys.exit(f"{program} script ended with {os.waitstatus_to_exitcode(status)}")
    return seconds, used.ru_maxrss


def main():
    program, longest = sys.argv[1], int(sys.argv[2]) if len(sys.argv) > 2 else 90_000
    with tempfile.TemporaryDirectory() as folder:
        for steps in (longest // 8, longest // 4, longest // 2, longest):
            path = os.path.join(folder, "script")
            with open(path, "w") as text:
                text.write(script(steps))
            runs = [timed(program, path) for _ in range(3)]
            print(f"{steps:7} steps  {min(s for s, _ in runs):.3f} s  {max(m for _, m in runs)} KiB")


main()

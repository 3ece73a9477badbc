#!/usr/bin/env python3
"""Times `attest verify` over 16, 32 and 64 known images of 1 MiB, of which the last has the report's tag.

Usage: verify.py PROGRAM

Each image is read, and digested where it lies. Prints the best of three runs, with the start of the program in it, and
beside it the time that Python's hashlib takes to digest the same bytes.
"""
import hashlib
import hmac
import os
import struct
import subprocess
import sys
import tempfile
import time

KEY, NONCE, SIZE, BLOCKS = b"key", bytes(range(16)), 256, 4096
PLACES = struct.pack(">QQ", 1, BLOCKS + 2)


def digest(*parts):
    return hmac.new(KEY, b"".join(parts), hashlib.sha256).digest()


def challenge():
    head = b"TMC1" + bytes([3, 0, 0, 0]) + struct.pack(">IIQ", 0, 0, 8) + NONCE
    return head + digest(head)


def report(image):
    head = b"TMR1" + bytes([3, 0, 0, 0]) + struct.pack(">Q", 8) + NONCE + struct.pack(">IIII", 0x80000000, SIZE, 0, BLOCKS)
    return head + PLACES + digest(head, image, PLACES)


def verifier(names):
    images = ", ".join(f'"{name}"' for name in names)
    return (f"base = 0x80000000\nblock = {SIZE}\nblocks = {BLOCKS}\nfirst = 0\nattested = {BLOCKS}\nkey = 'key'\n"
            f"last = 7\nchallenge = 'challenge'\nimages = [{images}]\n")


def timed(program, folder, last):
    begun = time.perf_counter()
    done = subprocess.run([program, "verify", "verifier", "report"], cwd=folder, capture_output=True)
    seconds = time.perf_counter() - begun
    if done.returncode != 0 or done.stdout != f"verdict accepted {last}\n".encode():
        sys.exit(f"{program} verify ended with {done.returncode}: {done.stdout}")
    return seconds


def main():
    program = os.path.abspath(sys.argv[1])
    images = [bytes([k]) * (SIZE * BLOCKS) for k in range(64)]
    with tempfile.TemporaryDirectory() as folder:
        for name, content in [("key", KEY), ("challenge", challenge())] + [(f"{k}.img", image) for k, image in enumerate(images)]:
            with open(os.path.join(folder, name), "wb") as file:
                file.write(content)
        for count in (16, 32, 64):
            names = [f"{k}.img" for k in range(count)]
            with open(os.path.join(folder, "verifier"), "w") as file:
                file.write(verifier(names))
            with open(os.path.join(folder, "report"), "wb") as file:
                file.write(report(images[count - 1]))
            best = min(timed(program, folder, names[-1]) for _ in range(3))
            begun = time.perf_counter()
            for image in images[:count]:
                digest(image)
            other = time.perf_counter() - begun
            print(f"{count:3} images of 1 MiB: {best:6.3f} s, {count / best:4.0f} MiB/s; hashlib alone {other:6.3f} s")


main()

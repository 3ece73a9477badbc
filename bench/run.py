#!/usr/bin/env python3
"""Times `attest run` on the device of sched.py, eight applications and two challenges on threads, trace file and all.

Usage: run.py PROGRAM TURN_BENCH [LOOPS]   (LOOPS is how often each application loops, 60,000 unless given)

Each loop is seven entries, so that there are some 3.4 million. Beside the entries a second of the best of three runs it prints
those of a bare core in the same mix, with no lock, no thread and no file, by TURN_BENCH, and the seconds of a run with all threads
on one processor.
"""
import os
import sys
import tempfile

sys.dont_write_bytecode = True
import sched  # those of this folder
import turns


def on_one_processor(*words):
    """The same run with every thread on one processor."""
    allowed = os.sched_getaffinity(0)
    os.sched_setaffinity(0, {min(allowed)})
    try:
        return sched.timed(*words)
    finally:
        os.sched_setaffinity(0, allowed)


def main():
    program, turn_bench = os.path.abspath(sys.argv[1]), os.path.abspath(sys.argv[2])
    loops = int(sys.argv[3]) if len(sys.argv) > 3 else 60_000
    with tempfile.TemporaryDirectory() as folder:
        os.chdir(folder)
        sched.prepare(program)
        sched.assemble(program, loops)
        runs = [sched.timed(program, "run", "device") for _ in range(3)]
        alone = on_one_processor(program, "run", "device")
        os.chdir("/")
    best, entries = min(r[0] for r in runs), runs[0][2]
    bare = turns.best(turn_bench, "bare", 1, entries // turns.MIX * turns.MIX, 3)
    print(f"{entries:8} entries  {best:.3f} s  {entries / best:,.0f} a second  {max(r[1] for r in runs)} KiB")
    print(f"  a bare core: {bare:,.0f} a second, {bare * best / entries:.1f} times as many")
    print(f"  on one processor: {alone[0]:.3f} s, {alone[0] / best:.2f} times as long")


if __name__ == "__main__":
    main()

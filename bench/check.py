#!/usr/bin/env python3
"""Times `attest check` on traces of the device of sched.py, without reports and with two, and `attest gen 1`.

Usage: check.py PROGRAM TURN_BENCH [LOOPS]   (LOOPS is how often each application loops in the longest run, 67,000 unless given)

Each loop is seven entries, so that the longest trace has some 3.8 million, in 84 MB. Prints, for each length, the entries, the
seconds of the best of three runs, entries a second and the greatest resident memory in KiB. Linear growth shows as seconds that
double. Beside them stand the entries a second of a bare core in the same mix, by TURN_BENCH.
"""
import os
import sys
import tempfile

sys.dont_write_bytecode = True
import sched  # those of this folder
import turns


def best(*words):
    runs = [sched.ran((0,), *words) for _ in range(3)]
    return min(run[0] for run in runs), max(run[1] for run in runs), runs[0][2]


def main():
    program, turn_bench = os.path.abspath(sys.argv[1]), os.path.abspath(sys.argv[2])
    most = int(sys.argv[3]) if len(sys.argv) > 3 else 67_000
    with tempfile.TemporaryDirectory() as folder:
        os.chdir(folder)
        sched.prepare(program)
        for loops in (most // 4, most // 2, most):
            sched.assemble(program, loops)
            sched.timed(program, "sched", "device", "schedule")
            for reports in ((), ("1.report", "2.report")):
                spent, memory, said = best(program, "check", "trace", "key", *reports)
                entries = int(said[1])
                print(f"{entries:8} entries, {len(reports)} reports  {spent:.3f} s  {entries / spent:,.0f} a second  {memory} KiB")
        os.chdir("/")
    bare = turns.best(turn_bench, "bare", 1, entries // turns.MIX * turns.MIX, 3)
    print(f"  a bare core: {bare:,.0f} a second, {bare * spent / entries:.1f} times as many")
    print(f"  gen 1: {best(program, 'gen', '1')[0]:.3f} s")


if __name__ == "__main__":
    main()

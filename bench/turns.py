#!/usr/bin/env python3
"""Times `turn_bench`: events per second at a core that one actor has, and turns per second at a shared core, alone and
by two, four and nine threads that contend.

Usage: turns.py PROGRAM [TURNS [RUNS]]   (TURNS is that of all threads together, 1,000,000 unless given; RUNS is 5)

Prints the best of RUNS runs, without the start of the program: a run of few turns is timed too, and taken off.
"""
import subprocess
import sys
import time

MIX = 7  # turns of a mix

# the job, its threads, and what it is
JOBS = (
    ("bare", 1, "no lock, in the mix of five Fetches, a Load and a Store"),
    ("fetches", 1, "Fetches"),
    ("mix", 1, "the mix"),
    ("ticks", 1, "Ticks"),
    ("fetches", 2, "Fetches"),
    ("fetches", 4, "Fetches"),
    ("ticks", 2, "a measurer's Ticks beside Fetches"),
    ("ticks", 4, "a measurer's Ticks beside Fetches"),
    ("ticks", 9, "a measurer's Ticks beside Fetches"),
)


def timed(program, job, threads, turns):
    """The seconds that so many turns of each thread take, and how many entries they make."""
    begun = time.perf_counter()
    line = f"{job} {threads} {turns}\n"
    done = subprocess.run([program], input=line, capture_output=True, text=True, check=True)
    spent = time.perf_counter() - begun
    assert done.stdout == f"{line.strip()}: {turns * threads} entries\n", done.stdout
    return spent


def best(program, job, threads, turns, runs):
    """Turns a second of all threads together, by the best of some runs, without the start of the program."""
    start = min(timed(program, job, threads, MIX) for _ in range(runs))
    return turns * threads / (min(timed(program, job, threads, turns) for _ in range(runs)) - start)


def main():
    program = sys.argv[1]
    wanted = int(sys.argv[2]) if len(sys.argv) > 2 else 1_000_000
    runs = int(sys.argv[3]) if len(sys.argv) > 3 else 5
    for job, threads, what in JOBS:
        turns = wanted // threads // MIX * MIX
        print(f"{threads} threads, {what}: {best(program, job, threads, turns, runs):,.0f} a second")


if __name__ == "__main__":
    main()

#!/usr/bin/env python3
"""Times `attest sched` on a device of eight applications that count in memory, and two challenges, trace file and all.

Usage: sched.py PROGRAM TURN_BENCH [LOOPS]   (LOOPS is how often each application loops in the longest run, 67,000 unless given)

Each loop is seven entries. Prints, for each length, the entries, the seconds of the best of five runs, entries a second and
the greatest resident memory in KiB; and below, the entries a second of a bare core that makes as many in the same mix, by
TURN_BENCH, also the best of five runs. The runs of both come in turn, so that they have the same minute of a machine that has
other work. Each run makes its trace anew: that of the run before is removed first, and the time that this takes isn't counted.
Linear growth shows as seconds that double.
"""
import os
import pathlib
import subprocess
import sys
import tempfile
import time

sys.dont_write_bytecode = True
import turns  # those of this folder

APPS = 8
RUNS = 5


def text(k, loops):
    return (
        f".segment 0x{0x80000000 + 256 * k:08x}\n.entry main\nmain: lui t0, 0x{0x80010 + k:05x}\n li t1, {loops}\n"
        "loop: lw t2, 0(t0)\n addi t2, t2, 1\n sw t2, 0(t0)\n addi t1, t1, -1\n bnez t1, loop\n li a7, 93\n li a0, 0\n ecall\n"
    )


def device():
    apps = "".join(f'[[app]]\nfile = "{k}.elf"\nconsole = "{k}.out"\nstack = 0\nfuel = 1000000\n' for k in range(APPS))
    sent = "".join(f'[[challenge]]\nfile = "{c}.challenge"\nreport = "{c}.report"\nnote = "{c}.note"\n' for c in (1, 2))
    return (
        "base = 0x80000000\nblock = 256\nblocks = 4096\nfirst = 0\nattested = 512\nkey = \"key\"\nlast = 0\ncap = 4000000\n"
        "trace = \"trace\"\n" + apps + sent
    )


def run(program, *words):
    subprocess.run([program, *words], stdout=subprocess.DEVNULL, check=True)


def write(name, content):
    with open(name, "w") as file:
        file.write(content)


def prepare(program):
    """Writes the device, its key, an empty schedule and its challenges."""
    nonce = "000102030405060708090a0b0c0d0e0f"
    write("key", "key")
    write("schedule", "")
    write("device", device())
    run(program, "challenge", "key", "dec", "4000", "0", "1", nonce, "1.challenge")
    run(program, "challenge", "key", "inc-ext", "100", "50", "2", nonce, "2.challenge")


def assemble(program, loops):
    """Makes the applications, each of which loops so often."""
    for k in range(APPS):
        write(f"{k}.s", text(k, loops))
        run(program, "asm", f"{k}.s", f"{k}.elf")


def ran(statuses, *words):
    """The seconds, the greatest resident memory in KiB and the words printed by a run that ends with one of these statuses."""
    begun = time.perf_counter()
    child = subprocess.Popen(words, stdout=subprocess.PIPE, text=True)
    said = child.stdout.read()
    _, status, usage = os.wait4(child.pid, 0)
    spent = time.perf_counter() - begun
    child.returncode = os.waitstatus_to_exitcode(status)
    assert child.returncode in statuses, said
    return spent, usage.ru_maxrss, said.split()


def timed(*words):
    """The seconds, the resident memory and the entries of one run of a device, which makes its trace anew.

    Status 1 is a report of memory that is no known image.
    """
    pathlib.Path("trace").unlink(missing_ok=True)
    spent, memory, said = ran((0, 1), *words)
    return spent, memory, int(said[-1])


def compared(program, turn_bench):
    """RUNS runs of `sched` on the device that stands, each followed by one of a bare core; the seconds of the bare core's best,
    without the start of its program."""
    runs, bare = [], []
    start = min(turns.timed(turn_bench, "bare", 1, turns.MIX) for _ in range(RUNS))
    for _ in range(RUNS):
        runs.append(timed(program, "sched", "device", "schedule"))
        bare.append(turns.timed(turn_bench, "bare", 1, runs[0][2] // turns.MIX * turns.MIX))
    return runs, min(bare) - start


def main():
    program, turn_bench = (os.path.abspath(word) for word in sys.argv[1:3])
    most = int(sys.argv[3]) if len(sys.argv) > 3 else 67_000
    with tempfile.TemporaryDirectory() as folder:
        os.chdir(folder)
        prepare(program)
        for loops in (most // 4, most // 2, most):
            assemble(program, loops)
            runs, bare = compared(program, turn_bench)
            best, entries = min(r[0] for r in runs), runs[0][2]
            print(f"{entries:8} entries  {best:.3f} s  {entries / best:,.0f} a second  {max(r[1] for r in runs)} KiB")
            print(f"  a bare core: {entries / bare:,.0f} a second, {best / bare:.1f} times as many")
        os.chdir("/")


if __name__ == "__main__":
    main()

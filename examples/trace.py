#!/usr/bin/env python3
"""Traces and reports on them, read and checked from docs/FORMATS.md alone, and compared with what `check` prints of them: as they are,
and with one word, byte or line of them changed.

Usage: trace.py PROGRAM TRACE KEY REPORT [SEED]   (a new seed unless one is given; it is printed)
"""
import os, pathlib, random, re, subprocess, sys, tempfile
from formats import EXTENDED, read_report, report_bytes

FROM_START = (1, 2, 3)  # codes of the disciplines that lock all blocks from Start on
HEADS = ("TMT([12])", r"memory ([0-9a-f]{8}) (\d+) (\d+)", r"attest ([0-9 ]+)", r"cap (\d+)")

def number(text, least, most):
    return int(text) if re.fullmatch("0|[1-9][0-9]{0,19}", text) and least <= int(text) <= most else None

def ranges_of(words, blocks):
    parts = [number(word, 0, 4096) for word in words]
    pairs = list(zip(parts[::2], parts[1::2]))
    if None in parts or len(parts) % 2 or len(pairs) > 8 or 0 in parts[1::2] or sum(pairs[-1]) > blocks:
        return None
    return pairs if all(sum(one) < other[0] for one, other in zip(pairs, pairs[1:])) else None

def entry_of(line):
    """The actor, the kind, and what the kind says: the width, address and value of an access."""
    said = re.fullmatch("([0-8]) (?:(f|[ls][124]) ([0-9a-f]{8}) ([0-9a-f]+)|(start|copy) ([0-9 ]+)|(end|tick|release))", line, re.ASCII)
    if not said or said[7]:
        return said and (int(said[1]), said[7])
    if said[2]:
        width = int(said[2][1:] or 4)
        return (int(said[1]), said[2][0], width, int(said[3], 16), int(said[4], 16)) if len(said[4]) == 2 * width else None
    words, limits = said[6].split(" "), [(1, 5), (0, 2**64 - 1)] if said[5] == "start" else [(0, 4095)]
    parts = [number(word, *limit) for word, limit in zip(words, limits)]
    return None if None in parts or len(words) != len(limits) else (int(said[1]), said[5], *parts)

def read(text):
    """What a trace says, or the number of the first line that leaves the grammar."""
    *lines, rest = text.split("\n")
    said = [re.fullmatch(head, line, re.ASCII) for head, line in zip(HEADS, [*lines, "", "", "", ""])]
    if not said[0]:
        return 1
    many = said[0][1] == "2"
    base, size, blocks = (int(said[1][1], 16), number(said[1][2], 16, 65536), number(said[1][3], 1 + 2 * many, 4096)) if said[1] else (0, 0, 0)
    if not (size and blocks and size & (size - 1) == base % size == 0 and size * blocks <= 2**20 and base + size * blocks <= 2**32):
        return 2
    ranges = ranges_of(said[2][1].split(" "), blocks) if said[2] else None
    if not ranges or (len(ranges) > 1) != many:
        return 3
    if not said[3] or not number(said[3][1], 1, 4000000):
        return 4
    image, entries, place, lines = b"", [], 4, [*lines, ""]
    while len(image) < size * blocks:
        if not re.fullmatch("[0-9a-f]{%d}" % (2 * min(32, size * blocks - len(image))), lines[place]):
            return place + 1
        image, place = image + bytes.fromhex(lines[place]), place + 1
    while (entry := entry_of(lines[place])) and len(entries) < 4000000:
        entries, place = [*entries, entry], place + 1
    if lines[place] != f"end {len(entries)}":
        return place + 1
    return (base, size, ranges, int(said[3][1]), image, entries) if rest == "" and place + 2 == len(lines) else place + 2

def check(base, size, ranges, cap, image, entries):
    """The first place and the least rule that is broken, if there is one; the passes that have ended; and memory at each place."""
    copies = [block for first, count in ranges for block in range(first, first + count)]
    code, copied, passes, states = 0, -1, {}, [image]  # no pass is open where the code is 0, and the pass has ended where copied is -1
    for place, (actor, kind, *what) in enumerate(entries, 1):
        at, is_access, memory = what[1] - base if kind in "fls" else 0, kind in "fls", states[-1]
        width, little = (what[0], what[2].to_bytes(what[0], "little")) if is_access else (0, b"")
        done, block = copies[:copied] if copied >= 0 else copies, at // size
        locked = code and block in copies and (code in (1, 2) or (block in done) == (code not in FROM_START))
        next_step = "start" if not code else "release" if copied < 0 else "end" if copied == len(copies) else f"copy {copies[copied]}"
        in_range = 0 <= at and at + width <= len(image) and at % max(width, 1) == 0
        fits = not in_range or memory[at : at + width] == little
        in_order = is_access or kind == "tick" or next_step == (f"copy {what[0]}" if kind == "copy" else kind)
        holds = ((actor > 0) == is_access, in_range, kind == "s" or fits, kind != "s" or not locked, in_order, place <= cap)
        if not all(holds):
            return (place, [bool(rule) for rule in holds].index(False) + 1), passes, states
        states.append(memory[:at] + little + memory[at + width :] if kind == "s" else memory)
        if kind == "start":
            code, copied, start, counter = what[0], 0, place, what[1]
        copied += kind == "copy"
        if kind == "end":
            passes[code, counter, start, place], copied = copies, -1
        code = code if kind != "release" and (kind != "end" or code in EXTENDED) else 0
    return None, passes, states

def told(key, text, trace, passes, states):
    """0 where the report is on a pass of the trace, else why it isn't: malformed, another shape, no such pass, another tag."""
    base, size, ranges = trace[:3]
    report = read_report(text)
    if not report or report[1] != (base, size, ranges) or (*report[0][:2], *report[2:]) not in passes:
        return 1 if not report else 2 if report[1] != (base, size, ranges) else 3
    memory = states[report[2] if report[0][0] in FROM_START else report[3]]
    attested = b"".join(memory[first * size : (first + count) * size] for first, count in ranges)
    return 0 if report_bytes(key, text[:-48], attested, *report[2:]) == text else 4

def said(text, key, report):
    trace = read(text.decode("latin-1"))
    if isinstance(trace, int):
        return f"attest: bad input trace trace {trace}\n"
    broken, passes, states = check(*trace)
    if broken:
        return "broken {} rule {}\n".format(*broken)
    why = told(key, report, trace, passes, states)
    return f"legal {len(trace[5])}\n" + (f"refused report {why}\n" if why else "confirmed report\n")

def changed(draw, text):
    """One byte, word or line of a text is another one of it, or is gone."""
    parts = re.split(draw.choice((b"()", b"([ \n])", b"(\n)")), text)
    at, other = draw.randrange(len(parts)), draw.choice((b"", b"0", b"8", b"1 ", draw.choice(parts), draw.choice(parts)))
    return b"".join([*parts[:at], other, *parts[at + 1 :]])

PROGRAM, NAMES = os.path.abspath(sys.argv[1]), sys.argv[2:5]
SEED = int(sys.argv[5]) if len(sys.argv) > 5 else random.randrange(2**32)
TRACE, KEY, REPORT = (pathlib.Path(name).read_bytes() for name in NAMES)
print(f"trace: seed {SEED}", flush=True)
with tempfile.TemporaryDirectory() as folder:
    os.chdir(folder)
    for case in range(500):
        draw = random.Random(SEED + case)
        text, report = (changed(draw, TRACE), REPORT) if case % 3 else (TRACE, changed(draw, REPORT) if case else REPORT)
        for name, content in (("trace", text), ("key", KEY), ("report", report)):
            pathlib.Path(name).write_bytes(content)
        came = subprocess.run([PROGRAM, "check", "trace", "key", "report"], capture_output=True, text=True)
        if came.stdout + came.stderr != said(text, KEY, report):
            sys.exit(f"trace: {text} and {report} are told {came.stdout + came.stderr!r}, and by docs/FORMATS.md {said(text, KEY, report)!r}")
print("trace: 500 traces and reports are told what docs/FORMATS.md says")

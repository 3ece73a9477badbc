#!/usr/bin/env python3
"""Challenges, reports, notes and verdicts from docs/FORMATS.md alone, compared with those of the program on 100 random devices.
Usage: formats.py PROGRAM [SEED]   (a new seed unless one is given; it is printed)
"""
import hmac, os, pathlib, random, struct, subprocess, sys, tempfile

WORDS, EXTENDED = ("all", "all-ext", "dec", "inc", "inc-ext"), (2, 5)  # their codes are 1 to 5
TABLES = '[[app]]\nfile = "app"\nconsole = "console"\nstack = 0\nfuel = 2\n[[challenge]]\nfile = "sent"\nreport = "report"\nnote = "note"\n'

def tag(key, text):
    return hmac.new(key, text, "sha256").digest()

def challenge_bytes(key, code, lead, hold, counter, nonce):
    front = struct.pack(">4sB3xIIQ", b"TMC1", code, lead, hold, counter) + nonce
    return front + tag(key, front)

def head_bytes(code, counter, nonce, base, size, ranges):
    name, number = (b"TMR1", []) if len(ranges) == 1 else (b"TMR2", [len(ranges)])
    numbers = [base, size, *number, *(part for pair in ranges for part in pair)]
    return struct.pack(">4sB3xQ16s", name, code, counter, nonce) + struct.pack(f">{len(numbers)}I", *numbers)

def report_bytes(key, head, attested, start, end):
    places = struct.pack(">QQ", start, end)
    return head + places + tag(key, head + attested + places)

def note_bytes(key, counter, start, end, release, report_tag):
    front = struct.pack(">4s4xQQQQ", b"TMN1", counter, start, end, release)
    return front + tag(key, front + report_tag)

def read_report(text):
    """What a report says, or nothing where the bytes aren't in the grammar."""
    if len(text) not in (96, *range(108, 157, 8)):
        return None
    code, counter, nonce, base, size = struct.unpack_from(">4xB3xQ16sII", text)
    ranges = list(struct.iter_unpack(">II", text[40 if len(text) == 96 else 44 : -48]))
    start, end = struct.unpack_from(">QQ", text, len(text) - 48)
    past, copies = sum(ranges[-1]), sum(count for _, count in ranges)
    layout = size in [2**k for k in range(4, 17)] and base % size == 0 and past * size <= 2**20 and base + past * size <= 2**32
    apart = past <= 4096 and all(count for _, count in ranges) and all(sum(r) < s[0] for r, s in zip(ranges, ranges[1:]))
    spelled = 1 <= code <= 5 and text[:-48] == head_bytes(code, counter, nonce, base, size, ranges)
    right = layout and apart and spelled and 1 <= start < end - copies
    return ((code, counter, nonce), (base, size, ranges), start, end) if right else None

def verdict(key, text, sent, last, shape, images):
    said = read_report(text)
    if said is None or said[0] != sent:
        return "rejected 1" if said is None else "rejected 2"
    if sent[1] <= last or said[1] != shape:
        return f"rejected 3 {last}" if sent[1] <= last else "rejected 4"
    return next((f"accepted {name}" for name, image in images if report_bytes(key, text[:-48], image, *said[2:]) == text), "rejected 5")

def write(**files):
    for name, content in files.items():
        pathlib.Path(name).write_bytes(content.encode() if isinstance(content, str) else content)

def same(words, wanted, **files):
    came = subprocess.run([PROGRAM, *map(str, words)], stdout=subprocess.PIPE, text=True).stdout
    if came != wanted or any(pathlib.Path(name).read_bytes() != content for name, content in files.items()):
        sys.exit(f"formats: {words} printed {came!r}; wanted are {wanted!r} and {files}")

def case(draw):
    key, nonce, code, lead = draw.randbytes(draw.randint(1, 80)), draw.randbytes(16), draw.randint(1, 5), draw.randint(0, 9)
    hold, counter, size = draw.randint(0, 9) * (code in EXTENDED), draw.choice((1, draw.randint(1, 2**64 - 1))), 2 ** draw.randint(4, 9)
    ranges, number = [(draw.randint(0, 2), draw.randint(1, 3))], draw.choice((1, 2, 8))
    while len(ranges) < number:
        ranges.append((sum(ranges[-1]) + draw.randint(1, 3), draw.randint(1, 3)))
    blocks, copies = sum(ranges[-1]) + draw.randint(0, 2), sum(count for _, count in ranges)
    base, filled = size * draw.randint(0, 2**32 // size - blocks), draw.randint(8, size * blocks)
    memory = struct.pack("<2I", 0x05D00893, 0x73) + draw.randbytes(filled - 8) + bytes(size * blocks - filled)  # li a7, 93; ecall
    numbers = (2, 243, 1, base, 52, 0, 0, 52, 32, 1, 0, 0, 0, 1, 84, base, base, filled, len(memory), 7, 1)
    image = b"".join(memory[first * size : (first + count) * size] for first, count in ranges)
    images = {"other": image[1:] + b"!", "image": image}
    layout = f'block = {size}\nblocks = {blocks}\nranges = {[list(pair) for pair in ranges]}\nkey = "key"\nimages = ["other", "image"]\n'
    write(key=key, app=struct.pack("<16s2H5I6H8I", b"\x7fELF\1\1\1", *numbers) + memory[:filled], schedule="", **images)
    write(device=f'base = {base}\nlast = 0\ncap = 1000\ntrace = "trace"\n' + layout + TABLES)
    sent = challenge_bytes(key, code, lead, hold, counter, nonce)
    same(["challenge", "key", WORDS[code - 1], lead, hold, counter, nonce.hex(), "sent"], f"challenge {counter} {sent[40:].hex()}\n", sent=sent)
    start, end, release = (n + min(n - 1, 2) for n in (lead + 1, lead + copies + 2, lead + copies + 3 + hold))  # 2 are the application's
    report = report_bytes(key, head_bytes(code, counter, nonce, base, size, ranges), image, start, end)
    said = f"app 1 exit 0\nwaits 1 0\nchallenge 1 report {start} {end} {report[-32:].hex()}\nverdict 1 accepted image\n"
    said += f"release 1 {release}\nentries {release}\n" if code in EXTENDED else f"entries {end}\n"
    note = {"note": note_bytes(key, counter, start, end, release, report[-32:])} if code in EXTENDED else {}
    same(["sched", "device", "schedule"], said, report=report, **note)
    for _ in range(4):  # a bit that is changed, another nonce, a counter that isn't new, or memory elsewhere
        text, other, last = bytearray(report), draw.choice((nonce, nonce, bytes(16))), draw.choice((0, 0, 2**63 - 1))
        text[draw.randrange(len(text))] ^= draw.choice((0, 1, 128))
        away = draw.choice((base, base - base % (2 * size)))
        asked = f'base = {away}\nlast = {last}\nchallenge = "sent"\n' + layout
        write(report=text, sent=challenge_bytes(key, code, lead, hold, counter, other), verifier=asked)
        said = verdict(key, bytes(text), (code, counter, other), last, (away, size, ranges), images.items())
        same(["verify", "verifier", "report"], f"verdict {said}\n")

if __name__ == "__main__":
    PROGRAM, SEED = os.path.abspath(sys.argv[1]), int(sys.argv[2]) if len(sys.argv) > 2 else random.randrange(2**32)
    print(f"formats: seed {SEED}", flush=True)
    with tempfile.TemporaryDirectory() as folder:
        os.chdir(folder)
        for n in range(100):
            case(random.Random(SEED + n))
    print("formats: 100 devices and 400 verdicts as the program has them")

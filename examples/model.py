#!/usr/bin/env python3
"""What `challenge`, `image`, `sched` and `run` must have written and printed, by a second implementation that shares no code with the
program.

Usage: model.py FOLDER   (FOLDER has a transcript of commands, and the files as those commands have left them)

For each command of the transcript that ends with status 0, 1 or 5 it computes from the files that the command reads what is
printed and each file that is written, byte for byte: memory is replayed store by store, and each tag is Python's own HMAC over
it. A report's tag is compared at every place at which its discipline says that it holds. It knows RV32I.
"""
import hashlib
import hmac
import os
import struct
import sys
import tomllib

MASK = 0xFFFFFFFF
DISCIPLINES = {"all": 1, "all-ext": 2, "dec": 3, "inc": 4, "inc-ext": 5}
ALL, ALL_EXT, DEC, INC, INC_EXT = range(1, 6)
EXTENDED = (ALL_EXT, INC_EXT)
CONSOLE = 4096


def mac(key, *pieces):
    return hmac.new(key, b"".join(pieces), hashlib.sha256).digest()


def signed(word):
    return word - (1 << 32) if word >> 31 else word


def field(word, low, count):
    return word >> low & (1 << count) - 1


def extended(value, bits):
    return value - (1 << bits) if value >> bits - 1 else value


class Memory:
    def __init__(self, device, image):
        self.base, self.size, self.blocks = device["base"], device["block"], device["blocks"]
        self.bytes = bytearray(image)

    def fits(self, addr, width):
        return self.base <= addr and addr + width <= self.base + self.size * self.blocks

    def load(self, addr, width):
        return int.from_bytes(self.bytes[addr - self.base:addr - self.base + width], "little")

    def store(self, addr, width, value):
        self.bytes[addr - self.base:addr - self.base + width] = value.to_bytes(width, "little")


class Core:
    """One application: what it asks for next, and how it has ended."""

    def __init__(self, memory, entry, stack, fuel):
        self.memory, self.pc, self.fuel = memory, entry, fuel
        self.x = [0] * 32
        self.x[2] = stack
        self.console = bytearray()
        self.word, self.end, self.stopped, self.waits = None, None, False, 0
        self.see_fetch()

    def see_fetch(self):
        self.word = None
        if not self.memory.fits(self.pc, 4):
            self.trap(2)
        elif self.fuel == 0:
            self.end = "fuel"

    def trap(self, kind):
        self.end = f"trap {kind} {self.pc:08x}"

    def asks(self):
        """('f', addr, 4, None), ('l', addr, width, None) or ('s', addr, width, value)"""
        if self.word is None:
            return "f", self.pc, 4, None
        opcode, width = field(self.word, 0, 7), 1 << field(self.word, 12, 2)
        a = self.x[field(self.word, 15, 5)]
        if opcode == 0x03:
            return "l", a + extended(field(self.word, 20, 12), 12) & MASK, width, None
        offset = extended(field(self.word, 25, 7) << 5 | field(self.word, 7, 5), 12)
        return "s", a + offset & MASK, width, self.x[field(self.word, 20, 5)] & (1 << 8 * width) - 1

    def write(self, value):
        rd = field(self.word, 7, 5)
        if rd:
            self.x[rd] = value & MASK

    def goes_to(self, pc):
        self.pc = pc & MASK
        self.see_fetch()

    def jump(self, pc, link=None):
        if pc & 3:
            self.trap(3)
            return
        if link is not None:
            self.write(link)
        self.goes_to(pc)

    def told(self, value):
        """The access that it asked for is made."""
        if self.word is None:
            self.fuel -= 1
            self.word = value
            self.execute()
            return
        if field(self.word, 0, 7) == 0x03:
            width, sign = 8 << field(self.word, 12, 2), not field(self.word, 14, 1)
            self.write(extended(value, width) if sign else value)
        self.goes_to(self.pc + 4)

    def execute(self):
        word = self.word
        opcode, funct3, funct7 = field(word, 0, 7), field(word, 12, 3), field(word, 25, 7)
        a, b = self.x[field(word, 15, 5)], self.x[field(word, 20, 5)]
        immediate = extended(field(word, 20, 12), 12)
        if opcode in (0x37, 0x17):
            self.write((word & 0xFFFFF000) + (self.pc if opcode == 0x17 else 0))
        elif opcode == 0x6F:
            low = field(word, 31, 1) << 20 | field(word, 12, 8) << 12 | field(word, 20, 1) << 11 | field(word, 21, 10) << 1
            return self.jump(self.pc + extended(low, 21) & MASK, self.pc + 4)
        elif opcode == 0x67 and funct3 == 0:
            return self.jump(a + immediate & MASK & ~1, self.pc + 4)
        elif opcode == 0x63 and funct3 not in (2, 3):
            if self.is_taken(funct3, a, b):
                low = field(word, 31, 1) << 12 | field(word, 7, 1) << 11 | field(word, 25, 6) << 5 | field(word, 8, 4) << 1
                return self.jump(self.pc + extended(low, 13) & MASK)
        elif opcode == 0x03 and funct3 in (0, 1, 2, 4, 5) or opcode == 0x23 and funct3 < 3:
            return self.see_access(opcode)
        elif opcode == 0x13 and (funct3 not in (1, 5) or funct7 == 0 or (funct3, funct7) == (5, 32)):
            self.write(self.computed(funct3, funct7 if funct3 == 5 else 0, a, field(word, 20, 5) if funct3 in (1, 5) else immediate & MASK))
        elif opcode == 0x33 and (funct7 == 0 or funct7 == 32 and funct3 in (0, 5)):
            self.write(self.computed(funct3, funct7, a, b))
        elif word == 0x73:
            return self.call()
        elif word == 0x100073:
            return self.trap(8)
        elif not (opcode == 0x0F and funct3 == 0):
            return self.trap(1)
        self.goes_to(self.pc + 4)

    @staticmethod
    def is_taken(funct3, a, b):
        if funct3 < 2:
            return (a == b) != (funct3 == 1)
        less = signed(a) < signed(b) if funct3 < 6 else a < b
        return less != (funct3 in (5, 7))

    @staticmethod
    def computed(funct3, funct7, a, b):
        shift = b & 31
        return {0: a - b if funct7 else a + b, 1: a << shift, 2: int(signed(a) < signed(b)), 3: int(a < b), 4: a ^ b,
                5: signed(a) >> shift if funct7 else a >> shift, 6: a | b, 7: a & b}[funct3]

    def see_access(self, opcode):
        _, addr, width, _ = self.asks()
        if addr % width:
            self.trap(5 if opcode == 0x03 else 7)
        elif not self.memory.fits(addr, width):
            self.trap(4 if opcode == 0x03 else 6)

    def call(self):
        if self.x[17] == 93:
            self.end = f"exit {self.x[10]}"
        elif self.x[17] == 1:
            if len(self.console) < CONSOLE:
                self.console.append(self.x[10] & 255)
                self.x[10] = 0
            else:
                self.x[10] = MASK
            self.goes_to(self.pc + 4)
        else:
            self.trap(9)


class Elf:
    def __init__(self, data):
        self.entry, at = struct.unpack_from("<II", data, 24)
        headers = [struct.unpack_from("<8I", data, at + 32 * k) for k in range(struct.unpack_from("<H", data, 44)[0])]
        self.segments = [(h[2], data[h[1]:h[1] + h[4]], h[5]) for h in headers if h[0] == 1]


class Challenge:
    def __init__(self, data):
        self.code, self.lead, self.hold, self.counter, self.nonce = struct.unpack(">B3xIIQ16s", data[4:40])

    def acts(self, blocks):
        yield from [("tick",)] * self.lead
        yield ("start",)
        yield from (("copy", block) for block in blocks)
        yield ("end",)
        if self.code in EXTENDED:
            yield from [("tick",)] * self.hold
            yield ("release",)


def admissions(device, key, last):
    """For each challenge the words of its refusal, or a Challenge with the counter that stood before it."""
    for asked in device.get("challenge", []):
        data = read(asked["file"])
        rightly = len(data) == 72 and data[:4] == b"TMC1" and 1 <= data[4] <= 5 and data[5:8] == bytes(3)
        if not rightly or not all(number <= 4096 for number in struct.unpack(">II", data[8:16])):
            yield "malformed"
            continue
        challenge = Challenge(data)
        if challenge.hold and challenge.code not in EXTENDED:
            yield "malformed"
        elif data[40:] != mac(key, data[:40]):
            yield "badmac"
        elif challenge.counter <= last:
            yield f"stale {last}"
        else:
            last = challenge.counter
            yield challenge


class Pass:
    """What is known of a measurement: the places of its entries, and memory at the places at which its report holds."""

    def __init__(self, challenge):
        self.challenge, self.start, self.end, self.release = challenge, None, None, None
        self.copied, self.tag = b"", None


class Device:
    def __init__(self, device, key, admitted):
        self.plan, self.key, self.cap = device, key, device["cap"]
        self.ranges = device.get("ranges") or [[device["first"], device["attested"]]]
        self.attested = [block for first, count in self.ranges for block in range(first, first + count)]
        image, entries = placed(device)
        self.image, self.memory = bytes(image), Memory(device, image)
        self.apps = [Core(self.memory, entry, app["stack"], app["fuel"]) for app, entry in zip(device["app"], entries)]
        self.passes = [Pass(challenge) for challenge in admitted]
        self.acts = [(one, act) for one in self.passes for act in one.challenge.acts(self.attested)]
        self.made, self.stopped, self.lines, self.open = 0, False, [], None
        self.snapshots = []

    def is_locked(self, addr):
        block = (addr - self.memory.base) // self.memory.size
        if self.open is None or block not in self.attested:
            return False
        code, copied = self.open.challenge.code, self.attested.index(block) < len(self.open.copied) // self.memory.size
        return {ALL: self.open.end is None, ALL_EXT: True, DEC: not copied, INC: copied and self.open.end is None, INC_EXT: copied}[code]

    def is_done(self, actor):
        if actor == 0:
            return self.stopped or self.made == len(self.acts)
        return self.apps[actor - 1].stopped or self.apps[actor - 1].end is not None

    def turn(self, actor):
        if self.is_done(actor):
            return False
        full = len(self.lines) == self.cap
        if actor == 0:
            self.stopped = full
            if not full:
                self.measure(*self.acts[self.made])
            return True
        core = self.apps[actor - 1]
        kind, addr, width, value = core.asks()
        if full:
            core.stopped = True
        elif kind == "s" and self.is_locked(addr):
            core.waits += 1
        else:
            value = self.memory.load(addr, width) if value is None else value
            if kind == "s":
                self.memory.store(addr, width, value)
            name = "f" if kind == "f" else f"{kind}{width}"
            self.lines.append(f"{actor} {name} {addr:08x} {value:0{2 * width}x}")
            core.told(value)
            self.see_instants()
        return True

    def measure(self, one, act):
        self.made += 1
        if act[0] == "start":
            self.lines.append(f"0 start {one.challenge.code} {one.challenge.counter}")
            self.open, one.start, self.snapshots = one, len(self.lines), []
        else:
            self.lines.append(" ".join(["0", *map(str, act)]))
        if act[0] == "copy":
            at = act[1] * self.memory.size
            one.copied += self.memory.bytes[at:at + self.memory.size]
        elif act[0] == "end":
            one.end = len(self.lines)
            one.tag = mac(self.key, self.head(one.challenge), one.copied, struct.pack(">QQ", one.start, one.end))
        elif act[0] == "release":
            one.release = len(self.lines)
        self.see_instants()
        if act[0] == "release" or act[0] == "end" and one.challenge.code not in EXTENDED:
            self.judge_instants(one)
            self.open = None

    def see_instants(self):
        """Attested memory at a place at which the report of the open pass may hold."""
        if self.open is None:
            return
        code, place = self.open.challenge.code, len(self.lines)
        if code in (ALL, ALL_EXT) or code == DEC and place == self.open.start or code in (INC, INC_EXT) and self.open.end is not None:
            if code != INC or place == self.open.end:
                self.snapshots.append(self.attested_bytes(self.memory.bytes))

    def judge_instants(self, one):
        """The copies are attested memory at every instant of the pass."""
        assert self.snapshots and all(memory == one.copied for memory in self.snapshots), f"report {one.challenge.counter}"

    def attested_bytes(self, memory):
        size = self.memory.size
        return b"".join(bytes(memory[block * size:(block + 1) * size]) for block in self.attested)

    def shape(self):
        numbers = [number for pair in self.ranges for number in pair]
        count = [] if len(self.ranges) == 1 else [len(self.ranges)]
        return struct.pack(f">{2 + len(count) + len(numbers)}I", self.memory.base, self.memory.size, *count, *numbers)

    def head(self, challenge):
        version = b"TMR1" if len(self.ranges) == 1 else b"TMR2"
        return version + struct.pack(">B3xQ16s", challenge.code, challenge.counter, challenge.nonce) + self.shape()

    def report(self, one):
        return self.head(one.challenge) + struct.pack(">QQ", one.start, one.end) + one.tag

    def note(self, one):
        head = b"TMN1" + struct.pack(">4xQQQQ", one.challenge.counter, one.start, one.end, one.release)
        return head + mac(self.key, head, one.tag)

    def trace(self):
        ranges = " ".join(f"{first} {count}" for first, count in self.ranges)
        head = [f"TMT{1 if len(self.ranges) == 1 else 2}", f"memory {self.memory.base:08x} {self.memory.size} {self.memory.blocks}",
                f"attest {ranges}", f"cap {self.cap}"]
        image = [self.image[at:at + 32].hex() for at in range(0, len(self.image), 32)]
        return "".join(line + "\n" for line in [*head, *image, *self.lines, f"end {len(self.lines)}"]).encode()


def read(name):
    with open(name, "rb") as file:
        return file.read()


def placed(device):
    image, entries = bytearray(device["block"] * device["blocks"]), []
    for app in device["app"]:
        elf = Elf(read(app["file"]))
        for addr, data, _ in elf.segments:
            image[addr - device["base"]:addr - device["base"] + len(data)] = data
        entries.append(elf.entry)
    return image, entries


def verdict(device, run, one):
    """The first known image with the report's tag."""
    for name in device.get("images", []):
        tail = struct.pack(">QQ", one.start, one.end)
        if mac(run.key, run.head(one.challenge), read(name), tail) == one.tag:
            return f"accepted {name}"
    return "rejected 5"


def turns_of(schedule):
    return [tuple(map(int, line.split())) for line in schedule.decode().splitlines()]


def turns_in(trace):
    """Whose the entries are: their lines begin with an actor and a space."""
    return [(int(line[:1]), 1) for line in trace.decode().splitlines() if line[:1].isdigit() and line[1:2] == " "]


def run_by(device, key, admitted, order):
    run = Device(device, key, admitted)
    for actor, turns in order:
        for _ in range(turns):
            if not run.turn(actor):
                break
    while not all(run.is_done(actor) for actor in range(len(run.apps) + 1)):
        for actor in range(len(run.apps) + 1):
            run.turn(actor)
    if run.open is not None and run.open.end is not None:
        run.judge_instants(run.open)
    return run


def challenge_lines(device, run, admitted):
    """The lines of each challenge, with the files that are written for it (None: there is none)."""
    passes = iter(run.passes)
    for number, (asked, one) in enumerate(zip(device.get("challenge", []), admitted), 1):
        files = {asked["report"]: None, asked["note"]: None}
        if isinstance(one, str):
            yield [f"challenge {number} refused {one}"], files
            continue
        one = next(passes)
        if one.end is None:
            yield [f"challenge {number} stopped"], files
            continue
        files[asked["report"]] = run.report(one)
        lines = [f"challenge {number} report {one.start} {one.end} {one.tag.hex()}", f"verdict {number} {verdict(device, run, one)}"]
        if one.challenge.code in EXTENDED:
            lines.append(f"release {number} {one.release or 'stopped'}")
        if one.release:
            files[asked["note"]] = run.note(one)
        yield lines, files


def sched(name, schedule):
    return outcome(name, lambda device: turns_of(read(schedule)), "waits {} {}")


def run(name):
    return outcome(name, lambda device: turns_in(read(device["trace"])))


def outcome(name, order, waits=None):
    device = tomllib.loads(read(name).decode())
    key = read(device["key"])
    admitted = list(admissions(device, key, device["last"]))
    run = run_by(device, key, [one for one in admitted if not isinstance(one, str)], order(device))
    files = {device["trace"]: run.trace()}
    lines = [f"app {k} {'stopped' if core.stopped else core.end}" for k, core in enumerate(run.apps, 1)]
    lines += [waits.format(k, core.waits) for k, core in enumerate(run.apps, 1) if waits]
    files.update((app["console"], bytes(core.console)) for app, core in zip(device["app"], run.apps))
    for more, written in challenge_lines(device, run, admitted):
        lines += more
        files.update(written)
    lines.append(f"entries {len(run.lines)}")
    if run.stopped or any(core.stopped for core in run.apps):
        lines += [f"attest: full at {run.cap}", "status 5"]
    elif any(" refused " in line or " rejected " in line for line in lines):
        lines.append("status 1")
    return lines, files


def image(name, out):
    device = tomllib.loads(read(name).decode())
    memory, _ = placed(device)
    size, ranges = device["block"], device.get("ranges") or [[device["first"], device["attested"]]]
    return [], {out: b"".join(bytes(memory[first * size:(first + count) * size]) for first, count in ranges)}


def challenge(key, discipline, lead, hold, counter, nonce, out):
    data = b"TMC1" + struct.pack(">B3xIIQ16s", DISCIPLINES[discipline], int(lead), int(hold), int(counter), bytes.fromhex(nonce))
    tag = mac(read(key), data)
    return [f"challenge {counter} {tag.hex()}"], {out: data + tag}


COMMANDS = {"sched": sched, "run": run, "image": image, "challenge": challenge}


def differs(block):
    """What is wrong with what the transcript says of a command, and with the files that it wrote."""
    words, printed = block[0].split(), block[1:]
    lines, files = COMMANDS[words[0]](*words[1:])
    if lines != printed:
        yield f"the model prints {lines}"
    for name, data in files.items():
        if (read(name) if os.path.exists(name) else None) != data:
            yield f"{name} isn't the model's"


def main():
    os.chdir(sys.argv[1])
    blocks = [block.splitlines() for block in read("transcript").decode().split("$ ")[1:]]
    compared = wrong = 0
    for block in blocks:
        if block[0].split()[0] not in COMMANDS or {"status 2", "status 3", "status 4"} & set(block):
            continue
        compared += 1
        for line in differs(block):
            print(f"model: {block[0]}: {line}", file=sys.stderr)
            wrong += 1
    if wrong or not compared:
        sys.exit("model: what came differs from the model's")
    print(f"model: {compared} commands and their files as computed")


main()

#!/usr/bin/env python3
"""Compares `attest asm` and `attest show` with an assembler, a linker and a disassembler of others.

Usage: stock.py PROGRAM FOLDER TEXT..   (FOLDER is for the files that are made)
`examples/stock` sets AS, LD, OBJCOPY, OBJDUMP and READELF, each a command with its first words, and HERE, how the
assembler spells an instruction's own place.

For each text: the segments, the entry and the kind of the file that `asm` writes, as READELF and OBJDUMP find them, are
what AS and LD make of the text; `show` lists that file and LD's file as OBJDUMP disassembles. To the texts it adds one
of random words, and one of the statements that `show` lists these by.
"""
import os
import random
import re
import shlex
import subprocess
import sys

PROGRAM, FOLDER = sys.argv[1:3]
SEED, INSTRUCTIONS, OTHERS = 7, 2000, 1000
BRANCHES = {"beq": 0, "bne": 1, "blt": 4, "bge": 5, "bltu": 6, "bgeu": 7}
LOADS = {"lb": 0, "lh": 1, "lw": 2, "lbu": 4, "lhu": 5}
STORES = {"sb": 0, "sh": 1, "sw": 2}
NUMBERS = {"addi": 0, "slti": 2, "sltiu": 3, "xori": 4, "ori": 6, "andi": 7}
SHIFTS = {"slli": 0x1000, "srli": 0x5000, "srai": 0x40005000}
REGISTERS = {"add": 0, "sub": 0x40000000, "sll": 0x1000, "slt": 0x2000, "sltu": 0x3000, "xor": 0x4000, "srl": 0x5000,
             "sra": 0x40005000, "or": 0x6000, "and": 0x7000, "mul": 0x02000000, "mulh": 0x02001000,
             "mulhsu": 0x02002000, "mulhu": 0x02003000, "div": 0x02004000, "divu": 0x02005000, "rem": 0x02006000,
             "remu": 0x02007000}
# the fixed bits of each instruction, and those that may be anything
WORDS = {"lui": (0x37, 0xFFFFFF80), "auipc": (0x17, 0xFFFFFF80), "jal": (0x6F, 0xFFFFFF80), "jalr": (0x67, 0xFFFF8F80),
         "fence": (0x0FF0000F, 0), "ecall": (0x73, 0), "ebreak": (0x100073, 0)}
for names, opcode in ((BRANCHES, 0x63), (LOADS, 0x03), (STORES, 0x23), (NUMBERS, 0x13)):
    WORDS.update((name, (funct << 12 | opcode, 0xFFFF8F80)) for name, funct in names.items())
for names, opcode in ((SHIFTS, 0x13), (REGISTERS, 0x33)):
    WORDS.update((name, (fixed | opcode, 0x01FF8F80)) for name, fixed in names.items())


def ran(*words):
    done = subprocess.run(words, capture_output=True, text=True)
    if done.returncode or done.stderr and words[0] == PROGRAM:
        sys.exit(f"stock tools: {' '.join(words)} ended with {done.returncode}\n{done.stderr[-500:]}")
    return done.stdout


def tool(name, *words):
    return ran(*shlex.split(os.environ[name]), *words)


def same(what, ours, others):
    """Stops at the first place at which two lists differ."""
    for k in range(max(len(ours), len(others))):
        one, other = (it[k] if k < len(it) else None for it in (ours, others))
        if one != other:
            sys.exit(f"stock tools: {what}: ours {one!r}, theirs {other!r}")


def translated(text):
    """The text in the others' spelling, the address of each segment, and the entry's label."""
    lines, segments, entry = [".option norvc"], [], None
    for line in text.splitlines():
        label, name, rest = re.match(r"\s*([A-Za-z_.][\w.]*:)?\s*(\S*)\s*(.*)", line.split("#")[0].rstrip()).groups()
        operands = re.split(r"\s*,\s*", rest) if rest else []
        last = operands[-1] if operands else ""
        number = int(last, 0) if re.fullmatch(r"-?\d+|0x[0-9A-Fa-f]+", last) else None
        if label:
            lines.append(label)
        if name == ".segment":
            lines.append(f'.section .s{len(segments)}, "ax", @progbits')
            segments.append(number)
        elif name == ".entry":
            lines.append(f".globl {last}")
            entry = last
        elif name == "la" or name == "li" and not -2048 <= number <= 2047:
            # theirs may be relative to pc, or shorter: they are given the pair that it is here, and make its halves
            lines += [f"lui {operands[0]}, %hi({last})", f"addi {operands[0]}, {operands[0]}, %lo({last})"]
        elif name in ("jal", "j", "beqz", "bnez", *BRANCHES) and number is not None:
            # a number is counted from the instruction: for GNU's assembler, from the place `.`
            lines.append(f"{name} {', '.join((*operands[:-1], os.environ['HERE'] + format(number, '+d')))}")
        else:
            lines.append(f"{name} {', '.join(operands)}")
    return "\n".join(lines) + "\n", segments, entry


def placed(segments, entry, script):
    """The linker's words: it lays out one segment in its own way, and of more each as a loaded segment of its own."""
    if len(segments) == 1:
        return f"--section-start=.s0=0x{segments[0]:x}", "-e", entry
    headers = " ".join(f"p{k} PT_LOAD;" for k in range(len(segments)))
    sections = [f".s{k} 0x{at:x} : {{ *(.s{k}) }} :p{k}" for k, at in enumerate(segments)]
    with open(script, "w") as file:
        file.write(f"ENTRY({entry}) PHDRS {{ {headers} }} SECTIONS {{ {' '.join(sections)} }}\n")
    return "-T", script


def random_words():
    """Each instruction with random fields, and then words of which many are none: near an instruction, or random.
    The lowest bits of all say that an instruction has 32 bits, which the disassembler goes by."""
    pick = random.Random(SEED)
    table = list(WORDS.values())
    for k in range(INSTRUCTIONS):
        fixed, free = table[k % len(table)]
        yield fixed | pick.getrandbits(32) & free
    for k in range(OTHERS):
        fixed, _ = table[k % len(table)]
        near = fixed | pick.getrandbits(32) & ~0x7F if k % 2 else fixed ^ 1 << pick.randrange(7, 32)
        yield near if k % 5 else pick.getrandbits(32) & ~0x1F | pick.choice((0x03, 0x07, 0x0B, 0x13, 0x17, 0x1B))


def shown(at, word, name, operands):
    """A disassembled instruction as `show` spells it, or `.word` where the name is none of RV32IM's."""
    if name not in WORDS or name == "fence" and word != WORDS["fence"][0]:
        return f".word 0x{word:08x}"
    if name in ("fence", "ecall", "ebreak"):
        return name
    *first, last = re.split(r"\s*,\s*", re.sub(r"\s*[#<].*", "", operands.strip()))
    if name in ("lui", "auipc"):
        last = f"0x{int(last, 0):05x}"
    elif name == "jal" or name in BRANCHES:
        last = (int(last, 16) - at + 2**31) % 2**32 - 2**31
    elif name in SHIFTS:
        last = int(last, 0)
        if last >= 32:  # GNU's shows those of 64-bit cores too
            return f".word 0x{word:08x}"
    return f"{name} {', '.join((*first, str(last)))}"


def disassembled(elf, start, end):
    """The instructions at the addresses of a segment that 4 divides."""
    found, start = {}, start + 3 & ~3
    if start + 4 > end:
        return found
    bounds = f"--start-address=0x{start:x}", f"--stop-address=0x{end:x}"
    for line in tool("OBJDUMP", "-d", "-z", "-M", "no-aliases", "-M", "numeric", *bounds, elf).splitlines():
        # a word, or (from some versions of LLVM's) its bytes
        parts = re.match(r"\s*([0-9a-f]+):\s+([0-9a-f]{8}|[0-9a-f]{2}(?: [0-9a-f]{2}){3})\s+(\S+)\s*(.*)", line)
        if parts and int(parts[1], 16) % 4 == 0:
            digits = "".join(reversed(parts[2].split(" ")))
            found[int(parts[1], 16)] = shown(int(parts[1], 16), int(digits, 16), parts[3], parts[4])
    return found


def loaded(elf):
    """The address and the bytes of each loaded segment, by the headers that READELF prints."""
    with open(elf, "rb") as file:
        whole = file.read()
    rows = re.findall(r"^ *LOAD +(\w+) +(\w+) +\w+ +(\w+)", tool("READELF", "-lW", elf), re.M)
    return [(int(at, 16), whole[int(offset, 16):][:int(size, 16)]) for offset, at, size in rows]


def kind_and_entry(elf):
    return re.search(r"file format (\S+).*start address:? 0x(\w+)", tool("OBJDUMP", "-f", elf), re.S).groups()


def each_byte(segments):
    """The place of each segment, and then its bytes by their addresses."""
    found = []
    for start, data in segments:
        found.append(f"{len(data)} bytes at {start:08x}")
        found += [f"{at:08x} {byte:02x}" for at, byte in enumerate(data, start)]
    return found


def listed(elf, instructions):
    """The listing that `show` owes."""
    lines = []
    for start, data in loaded(elf):
        k = 0
        while k < len(data):
            at, size = start + k, 4 if (start + k) % 4 == 0 and k + 4 <= len(data) else 1
            digits = data[k:k + size][::-1].hex()
            text = instructions.get(at) if size == 4 else f".byte 0x{digits}"
            lines.append(f"{at:08x} {digits} {text or f'.word 0x{digits}'}")
            k += size
    return lines


def compare(path):
    """Compares one text both ways, and gives the listing of what it assembles to."""
    name, base = os.path.basename(path), os.path.join(FOLDER, os.path.basename(path))
    with open(path) as file:
        text, segments, entry = translated(file.read())
    with open(f"{base}.stock", "w") as file:
        file.write(text)
    printed = ran(PROGRAM, "asm", path, f"{base}.elf")
    tool("AS", "-o", f"{base}.o", f"{base}.stock")
    tool("LD", *placed(segments, entry, f"{base}.script"), "-o", f"{base}.linked", f"{base}.o")
    parts = []
    for k, at in enumerate(segments):
        tool("OBJCOPY", "-O", "binary", "-j", f".s{k}", f"{base}.linked", f"{base}.part")
        with open(f"{base}.part", "rb") as file:
            parts.append((at, file.read()))
    same(f"{name}: a segment's address and length, or a byte", each_byte(loaded(f"{base}.elf")), each_byte(parts))
    theirs = kind_and_entry(f"{base}.linked")
    same(f"{name}: the file's kind or entry", kind_and_entry(f"{base}.elf"), theirs)
    wanted = f"entry {theirs[1]} segments {len(segments)} bytes {sum(len(data) for _, data in parts)}"
    same(f"{name}: what asm prints", printed.splitlines(), [wanted])
    instructions = {}
    for at, data in parts:
        instructions.update(disassembled(f"{base}.linked", at, at + len(data)))
    linked, lines = (ran(PROGRAM, "show", f"{base}.{it}").splitlines() for it in ("linked", "elf"))
    same(f"{name}: the listing of the linker's file", linked, listed(f"{base}.linked", instructions))
    same(f"{name}: the listing", lines, listed(f"{base}.elf", instructions))
    return lines


def written(name, statements):
    path = os.path.join(FOLDER, name)
    with open(path, "w") as file:
        file.write("\n".join([".segment 0x80000000", ".entry main", "main:", *statements]) + "\n")
    return path


def main():
    texts = sys.argv[3:]
    for path in texts:
        compare(path)
    words = list(random_words())
    lines = compare(written("random_words.s", [f".word 0x{word:08x}" for word in words]))
    same("random_words.s: a word", [line.split()[1] for line in lines], [f"{word:08x}" for word in words])
    lines = compare(written("listed_words.s", [line.split(" ", 2)[2] for line in lines]))
    same("listed_words.s: a word", [line.split()[1] for line in lines], [f"{word:08x}" for word in words])
    print(f"stock tools: {len(texts) + 2} texts as they say")


main()

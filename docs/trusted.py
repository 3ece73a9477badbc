#!/usr/bin/env python3
"""Writes docs/TRUSTED.md: what a reader of each headline has to believe.

usage: trusted.py            compares docs/TRUSTED.md with what the specs say now; status 1 where they differ
       trusted.py --write    writes it anew

A headline is a clause of a public call. It is made of words of `specs/`, these of further words, and so on down to the
prover's library. This walks them by name: a word of a definition is looked up in its own file and among that file's
imports, and a constructor or a field leads to its type. Types of the code that definitions name are listed by
themselves.
"""
import pathlib
import re
import sys

ROOT = pathlib.Path(__file__).resolve().parent.parent
PAGE = ROOT / "docs" / "TRUSTED.md"

# name, the sentence, and the words that the clause is made of
HEADLINES = [
    (
        "A script's tags",
        "`script`'s laws `scripts_attest` and `releases_tell`: each printed tag is that of the attested memory at every "
        "instant of its pass.",
        [("script", "IsAttested"), ("script", "IsReleased"), ("script", "program_of")],
    ),
    (
        "A measurement over any port",
        "`measure`, clause `measured`: the report's tag is that of the attested memory at every instant of the pass.",
        [("measure", "HasMeasured")],
    ),
    (
        "The program's top call",
        "`attest_top`'s `attest`: what each status means, and what files and streams hold then.",
        [("attest_top", "Promise")],
    ),
]

HEADER = re.compile(r"^(?:(?:abbrev|unfoldable)\s+)?(?:pub\s+)?(?:(?:record|data)\s+)?([^\s:({=]+)\s*[:({]")
KEPT = re.compile(r"^(?:abbrev|unfoldable|record|data|pub\s+record|pub\s+data|pub\s+abbrev)\b")
IMPORT = re.compile(r"^use\s+Rattle\.(\w+)\.specs\.([\w.]+?)(?:\.\{(.*)\}|\s+as\s+(\w+))\s*$")
WORD = re.compile(r"[^\s(){}\[\];,.λ→×⊎≡≢≤<>+*/%&|∷=]+")
MEMBER = re.compile(r"^\s+(?:pub\s+)?([^\s:]+)\s*:")


class Definition:
    def __init__(self, name, kind):
        self.name, self.kind, self.comment, self.body = name, kind, [], []

    def lines(self):
        return len(self.comment) + len(self.body)

    def words(self):
        words = {word for line in self.body for word in WORD.findall(line.split(" -- ")[0])}
        # the steps of a `do` are joined by this operator
        return words | {"◌>>=◌"} if any("←" in line for line in self.body) else words

    def members(self):
        """The constructors of a type, or the fields of a record."""
        if self.kind not in ("data", "record"):
            return set()
        return {m.group(1) for line in self.body[1:] if (m := MEMBER.match(line))}


class File:
    """The definitions of a file of specs, and where its other words come from."""

    def __init__(self, text):
        self.definitions, self.imports, self.aliases = {}, {}, {}
        comment, current = [], None
        for line in text.splitlines():
            if m := IMPORT.match(line):
                crate, module, words, alias = m.groups()
                for word in (words or "").split(","):
                    if word.strip():
                        theirs, _, ours = word.strip().partition(" as ")
                        self.imports[(ours or theirs).strip()] = (crate, module, theirs.strip())
                if alias:
                    self.aliases[alias] = (crate, module)
            elif not line.strip():
                comment, current = [], None
            elif line.startswith("--"):
                comment.append(line)
            elif KEPT.match(line) and (m := HEADER.match(line)):
                kind = next((k for k in ("record", "data") if re.search(rf"\b{k}\b", line.split(":")[0])), "value")
                current = Definition(m.group(1), kind)
                current.comment, comment = comment, []
                current.body.append(line)
                self.definitions[current.name] = current
            elif current:
                current.body += comment + [line]
                comment = []
        self.members = {m: d.name for d in self.definitions.values() for m in d.members()}


def read_files():
    files = {}
    for path in sorted(ROOT.glob("crates/*/specs/**/*.antt")):
        crate = path.relative_to(ROOT / "crates").parts[0]
        module = ".".join(path.relative_to(ROOT / "crates" / crate / "specs").with_suffix("").parts)
        if module != "Lib":
            files[crate, module] = File(path.read_text(encoding="utf-8"))
    return files


def reached(files, start):
    """The definitions that the words lead to, and the types of the code that these name."""
    todo, found, types = list(start), {}, set()
    while todo:
        crate, module, word = todo.pop()
        if module.split(".")[0] == "declared":
            if crate in {c for c, _ in files}:
                types.add((crate, module.split(".")[-1] if not module.endswith("TheVariants") else module.split(".")[-2]))
            continue
        file = files.get((crate, module))
        if file is None:
            continue
        name = word if word in file.definitions else file.members.get(word)
        if name is None or (crate, module, name) in found:
            continue
        definition = found[crate, module, name] = file.definitions[name]
        for other in definition.words():
            if other in file.definitions:
                todo.append((crate, module, other))
            elif other in file.imports:
                todo.append(file.imports[other])
            elif other in file.aliases:
                todo.append((*file.aliases[other], ""))
    return found, types


def page(files):
    out = [
        "# What has to be believed",
        "",
        "The prover has checked that the code meets its contracts. What is left to a reader is that the contracts say what",
        "they should. This page lists, for each headline, the definitions that its statement reaches, with the lines of",
        "each file's share, comments included. `docs/trusted.py` wrote it, and the gate compares it. DEFINITIONS.md goes",
        "through them in words.",
    ]
    for title, sentence, start in HEADLINES:
        keys = []
        for crate, word in start:
            homes = [(c, m) for (c, m), file in files.items() if c == crate and word in file.definitions]
            if len(homes) != 1:
                sys.exit(f"trusted.py: {crate} defines {word} in {len(homes)} files")
            keys.append((*homes[0], word))
        found, types = reached(files, keys)
        lines = sum(d.lines() for d in found.values())
        homes = sorted({(c, m) for c, m, _ in found})
        crates = sorted({c for c, _ in homes})
        out += ["", f"## {title}", "", sentence, ""]
        out += [f"{len(found)} definitions in {lines} lines of {len(homes)} files in {len(crates)} crates.", ""]
        out += ["| Crate | File | Lines | Definitions |", "|---|---|---|---|"]
        for crate, module in homes:
            share = [d for (c, m, _), d in found.items() if (c, m) == (crate, module)]
            names = ", ".join(f"`{d.name}`" for d in sorted(share, key=lambda d: d.name))
            out.append(f"| {crate} | {module} | {sum(d.lines() for d in share)} | {names} |")
        named = ", ".join(f"`{name}` of {crate}" for crate, name in sorted(types))
        if named:
            out += ["", f"Types of the code that they name: {named}."]
    return "\n".join(out) + "\n"


def main():
    text = page(read_files())
    if sys.argv[1:] == ["--write"]:
        PAGE.write_text(text, encoding="utf-8")
    elif not PAGE.exists() or PAGE.read_text(encoding="utf-8") != text:
        print("docs/TRUSTED.md isn't what the specs say: run docs/trusted.py --write, and read what changed", file=sys.stderr)
        sys.exit(1)
    else:
        print("trusted: as written")


main()

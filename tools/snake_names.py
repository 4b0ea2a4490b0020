#!/usr/bin/env python3
"""Spells this repository's own definitions and lemmas as the language does: functions and lemmas in snake case, facts
and types in camel case. Run once at the top, after the spelling of the library's words was turned.

Names that the toolchain makes (goals, loops, branches) and names that come from a library stay. It prints what it
turned, and refuses names that would fall together.
"""
import collections
import os
import re
import sys

ROOT = os.getcwd()
CRATES = sorted(os.listdir(os.path.join(ROOT, "crates")))
WORD = r"[^\s(){}\[\].,;:λ→×∷∙\"`«»|←≡≢≤<>+*/=&!?@#∥]+"
HEAD = re.compile(r"^\s*(?:(?:abbrev|unfoldable|pub|data|record|instance)\s+)*(%s)(?:\s+[({].*)?\s*:(?:\s|$)" % WORD)
TYPE = re.compile(r"^\s*(?:pub\s+)?(?:record|data)\s+(%s)" % WORD)
IMPORT = re.compile(r"use\s+Rattle\.(\w+)\.[^\s;{]*?\{([^}]*)\}")
# laws of bits, which would fall together with the library's words for the operations
OTHERWISE = {"bit-and": "bit_of_and", "bit-or": "bit_of_or", "bit-xor": "bit_of_xor"}


def files(suffixes):
    for top, dirs, names in os.walk(os.path.join(ROOT, "crates")):
        dirs[:] = sorted(d for d in dirs if d != "out")
        for name in sorted(names):
            if name.endswith(suffixes):
                yield os.path.join(top, name)


def read(path):
    with open(path, encoding="utf-8") as f:
        return f.read()


def turned(name):
    """The new spelling of one name."""
    if name in OTHERWISE:
        return OTHERWISE[name]
    name = name.replace("′", "'")
    parts = name.split("-")
    if name[0].isupper():
        return "".join(p[:1].upper() + p[1:] for p in parts)
    flat = "_".join(parts)
    return re.sub(r"(?<=[a-z0-9])([A-Z])", lambda m: "_" + m.group(1).lower(), flat)


def own_names():
    """Names that specs/ and the lemma files of proofs/ define, with the files."""
    found = collections.defaultdict(set)
    for path in files(".antt"):
        inside = os.path.relpath(path, os.path.join(ROOT, "crates")).split(os.sep)
        if inside[1] not in ("specs", "proofs") or (inside[1] == "proofs" and len(inside) != 3):
            continue
        for line in read(path).splitlines():
            if re.match(r"\s*(--|let |use )", line):
                continue
            for form in (HEAD, TYPE):
                m = form.match(line)
                if m:
                    found[m.group(1)].add(path)
    return found


def library_names():
    names = set()
    for path in files((".antt", ".rt")):
        for m in IMPORT.finditer(read(path)):
            if m.group(1) not in CRATES:
                for part in m.group(2).split(","):
                    names.update(part.split(" as "))
    return {n.strip() for n in names}


def plan():
    own, library = own_names(), library_names()
    names = {}
    for name in sorted(own):
        new = turned(name)
        if new == name or name in library:
            continue
        if new in own or new in library:
            sys.exit(f"{name} would fall together with {new}")
        names[name] = new
    back = collections.defaultdict(list)
    for name, new in names.items():
        back[new].append(name)
    for new, olds in back.items():
        if len(olds) > 1:
            sys.exit(f"{', '.join(olds)} would fall together as {new}")
    return names


def main():
    names = plan()
    token = re.compile(WORD)
    for path in list(files((".antt", ".rt", ".edit"))) + pages():
        old = read(path)
        new = token.sub(lambda m: names.get(m.group(0), m.group(0)), old)
        if new != old:
            with open(path, "w", encoding="utf-8") as f:
                f.write(new)
    for name, new in names.items():
        print(name, new)


def pages():
    found = [os.path.join(ROOT, "README.md")]
    docs = os.path.join(ROOT, "docs")
    found += [os.path.join(docs, n) for n in sorted(os.listdir(docs)) if n.endswith(".md")]
    return found


main()

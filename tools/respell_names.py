#!/usr/bin/env python3
"""Brings the repository's own definitions, lemmas and record fields to snake case.

usage: tools/respell_names.py [--dry]      at the top of the repository

It was run once, right after the respelling of an older Rattle's text, and stays here so that the old and
the new names can be compared. Types, facts and modules keep their upper camel case, the goals that
Rattle names keep their names, and so does everything in src/ but the names that clauses cite.
Where two names fall together, the lemma gets the ending _lem.
"""

import os
import re
import sys

SIGNATURE = re.compile(r"^(\s*)((?:abbrev |unfoldable |pub )*)([^\s:(){}.;,]+)\s*:\s+(.*)")
RECORD = re.compile(r"^(\s*)(?:abbrev |pub )*record\s")
TOKEN = re.compile(r"[^\s(){}\[\].;,:@`\"|⌜⌝]+")
BY_HAND = {"getD-means": "get_or-means"}
KEPT = {"Alike-before", "Left-alone"}


def antt_files(root):
    for folder, dirs, files in os.walk(os.path.join(root, "crates")):
        dirs[:] = sorted(d for d in dirs if d != "out")
        yield from (os.path.join(folder, f) for f in sorted(files) if f.endswith((".antt", ".rt")))


def snake(name):
    if name in BY_HAND:
        return BY_HAND[name]
    dotted = re.sub(r"(?<=[a-z0-9])([A-Z])", lambda m: "_" + m.group(1).lower(), name)
    return dotted.replace("-", "_")


def own_names(root):
    """The names that are defined, and those of them that are fields of a record."""
    names, fields, lemmas = set(), set(), set()
    for path in antt_files(root):
        if not path.endswith(".antt"):
            continue
        inside = None
        with open(path, encoding="utf-8") as f:
            lines = f.read().split("\n")
        for line in lines:
            if line.lstrip().startswith("--") or not line.strip():
                continue
            indent = len(line) - len(line.lstrip())
            if inside is not None and indent <= inside:
                inside = None
            m = RECORD.match(line)
            if m:
                inside = len(m.group(1))
                continue
            m = SIGNATURE.match(line)
            if not m or m.group(4).startswith("goal."):
                continue
            name = m.group(3)
            if name[0].isupper() or not re.match(r"[a-z]", name):
                continue
            names.add(name)
            if inside is not None:
                fields.add(name)
            elif "abbrev" not in m.group(2) and "unfoldable" not in m.group(2):
                lemmas.add(name)
    return names, fields, lemmas


def renaming(names, lemmas):
    new = {n: snake(n) for n in names - KEPT if snake(n) != n}
    taken = {}
    for n in names:
        taken.setdefault(new.get(n, n), []).append(n)
    for spelt, olds in sorted(taken.items()):
        if len(olds) < 2:
            continue
        moved = [n for n in olds if n in lemmas]
        if len(moved) != len(olds) - 1:
            sys.exit(f"fall together: {olds}")
        for n in moved:
            new[n] = spelt + "_lem"
    return new


def respelt(text, new, fields, strings):
    """The text with each of the names respelt; a name behind a dot only where it is a field or ends a module's path."""
    out, at = [], 0
    quoted = [m.span() for m in strings.finditer(text)] if strings else []
    for m in TOKEN.finditer(text):
        word = m.group()
        if word not in new or any(a <= m.start() < b for a, b in quoted):
            continue
        if m.start() and text[m.start() - 1] == "." and word not in fields:
            path = re.search(r"[\w.'-]*$", text[: m.start()]).group()
            if not path.startswith("Rattle."):
                continue
        out.append(text[at : m.start()] + new[word])
        at = m.end()
    return "".join(out) + text[at:]


def main(dry):
    root = os.getcwd()
    names, fields, lemmas = own_names(root)
    new = renaming(names, lemmas)
    if dry:
        print("\n".join(f"{a} {b}" for a, b in sorted(new.items())))
        return
    in_code = re.compile(r'"(?:[^"\\\n]|\\.)*"')
    for path in antt_files(root):
        with open(path, encoding="utf-8") as f:
            text = f.read()
        strings = in_code
        turned = respelt(text, new, fields, strings)
        if turned != text:
            with open(path, "w", encoding="utf-8") as f:
                f.write(turned)


main("--dry" in sys.argv[1:])

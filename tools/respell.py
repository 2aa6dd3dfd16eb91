#!/usr/bin/env python3
"""Respells this repository's own definitions and lemmas as today's Rattle does: words in snake case, a prime as an apostrophe.

    python3 tools/respell.py [--list] [PATH..]

Run once, after the kit's port.py, over crates/ (or over PATHs); it also lets the types of src/ be copied and asks for tactics. A name in camel case that begins with a small letter and that
a file of specs/ or proofs/ defines, as a definition, a lemma, a field or a parameter, becomes words joined by `_`; a dash goes
on joining two names. Types, modules and what src/ defines keep their spelling. --list prints each name with its new spelling,
and says where two names of one file would fall together.
"""

import os
import re
import sys

ROOT = os.path.dirname(os.path.dirname(os.path.abspath(__file__)))
TOKEN = re.compile(r"[^\s(){}\[\].,;:«»\"`◌&*=|]+")
CAMEL = re.compile(r"[a-z][a-z0-9_]*[A-Z][A-Za-z0-9_']*$")
# names that would fall together with another of their file
APART = {
    "Mechanic.antt": {"lets-go": "lets_go_lem"},
    "Tells.antt": {"frame_row": "frame_bars"},
    "Face.antt": {"told_in": "told_in_lem"},
}
# names of the kit that read like ours
FOREIGN = set("tablesOf givenOf monoR fullShare tyInt rvOpd memorySlot".split())


def files(paths):
    """Every source and proof below the paths."""
    for top in paths:
        if os.path.isfile(top):
            yield top
        for folder, dirs, names in os.walk(top):
            dirs[:] = sorted(d for d in dirs if d not in ("out", ".git"))
            for name in sorted(names):
                if name.endswith((".rt", ".antt", ".edit")):
                    yield os.path.join(folder, name)


def snake(part):
    """One word joined by capitals, joined by underscores."""
    part = re.sub(r"([a-z0-9'])([A-Z])", r"\1_\2", part)
    part = re.sub(r"([A-Z])([A-Z][a-z])", r"\1_\2", part)
    return part.lower()


def respelt(token, ours, apart=None):
    """A token with each part that is ours respelt; the subscript ′ is an apostrophe."""
    token = (apart or {}).get(token, token.replace("′", "'"))
    parts = token.split("-")
    return "-".join(snake(p) if CAMEL.match(p) and (p in ours or token in ours) and p not in FOREIGN else p for p in parts)


def defined(paths):
    """Camel-case names that stand before a colon, or are bound, in some .antt file."""
    ours = set()
    for path in files(paths):
        if not path.endswith(".antt"):
            continue
        with open(path, encoding="utf-8") as file:
            for line in file:
                line = line.split("-- ")[0]
                for head in re.findall(r"(?:^|[({\s])((?:[^\s(){}]+ )+):(?= |$)", line):
                    ours.update(t for w in head.split() for t in TOKEN.findall(w) if CAMEL.match(t) or any(CAMEL.match(p) for p in t.split("-")))
                for head in re.findall(r"(?:λ|let|as|;|\{|record \{)\s*([A-Za-z0-9_'-]+)", line):
                    if CAMEL.match(head):
                        ours.add(head)
    return ours


def turned(text, ours, name=""):
    """The text of a file of this name with every token respelt."""
    return TOKEN.sub(lambda m: respelt(m[0], ours, APART.get(name)), text)


def plain(text, root):
    """Every type of this repository is plain data: it is copied as before. A root file asks for tactics on its goals."""
    text = text.replace("#[derive(Drop)]", "#[derive(Clone, Copy)]")
    if root and "#![tactic(auto)]" not in text:
        lines = text.split("\n")
        at = next(i for i, line in enumerate(lines) if not line.startswith("//"))
        lines[at:at] = ["#![tactic(auto)]", ""]
        text = "\n".join(lines)
    return text


def main():
    """Respell, or list."""
    words = [w for w in sys.argv[1:] if w != "--list"]
    paths = words or [os.path.join(ROOT, "crates")]
    ours = defined([os.path.join(ROOT, "crates")])
    if "--list" in sys.argv[1:]:
        for name in sorted(ours):
            print(name, respelt(name, ours))
        for path in files(paths):
            with open(path, encoding="utf-8") as file:
                tokens = set(TOKEN.findall(file.read()))
            for token in sorted(tokens):
                new = respelt(token, ours)
                if new != token and new in tokens:
                    print(f"{os.path.relpath(path, ROOT)}: {token} falls together with {new}")
        return 0
    for path in files(paths):
        with open(path, encoding="utf-8") as file:
            old = file.read()
        new = turned(old, ours, os.path.basename(path))
        if path.endswith(".rt"):
            new = plain(new, os.path.basename(path) in ("lib.rt", "main.rt"))
        if new != old:
            with open(path, "w", encoding="utf-8") as file:
                file.write(new)
    return 0


if __name__ == "__main__":
    sys.exit(main())

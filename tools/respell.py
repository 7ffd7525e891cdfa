#!/usr/bin/env python3
"""Respells the repository's own definitions and lemmas as today's Rattle spells: words in snake case.

usage: python3 tools/respell.py        at the top, once, after /opt/rattle/port/port.py

A name in camel case that a file of specs/ or proofs/ declares becomes snake case (`bankOf`, `bank_of`), in definitions, proofs,
contracts, must-fail edits and pages. Names of types, modules and constructors, and every name of the source, keep their spelling.
Where the new name would fall together with another one, APART or LEMMAS says what becomes of either. The crate `hex` gets another
name, since the library has one of that name.
"""
import glob
import os
import re
import subprocess

# Definitions whose snake case is taken by a field, a theorem or a function of the source.
APART = {
    "inOrder": "entries_in_order",
    "inUse": "slots_in_use",
    "cellFree": "is_cell_free",
    "cellsFree": "are_cells_free",
}
# Lemmas that give way to a definition, in the files below these folders: a dash joins their words.
LEMMAS = {
    "node_in": ("arena", "edit", "index_given_back"),
    "is_free": ("growth", "lent_nodes"),
    "all_hold": ("card_said",),
    "node_at": ("views", "places", "growth", "puts", "index_given_back", "as_map"),
    "keys_with": ("internode_inserts", "growth"),
    "taken_back": ("bank",),
}
LOCALS = {"otherClass": "other_class", "otherIkey": "other_ikey"}
WORD = re.compile(r"[^\s(){}\[\],;.:\"`]+")
DECLARED = re.compile(
    r"^\s*(?:(?:unfoldable|abbrev|pub|data|record|ruleset)\s+)*([^\s:(){}\[\],;.]+)\s+(?:\{[^}]*\}\s*|\([^)]*\)\s*)*:(?=\s|$)",
    re.M)
HUMP = re.compile(r"(?<=[a-z0-9'])([A-Z])")


def snake(word):
    """The word with each of its parts that begins small in snake case."""
    parts = [HUMP.sub(lambda m: "_" + m.group(1).lower(), p) if p[:1].islower() else p for p in word.split("-")]
    return "-".join(parts)


def stem(word):
    """The word without the subscripts and primes behind it."""
    return word.rstrip("'₀₁₂₃₄₅₆₇₈₉")


def read(path):
    with open(path, encoding="utf-8") as f:
        return f.read()


def declared():
    """What each name in camel case becomes."""
    new = dict(LOCALS)
    for path in glob.glob("crates/*/specs/**/*.antt", recursive=True) + glob.glob("crates/*/proofs/**/*.antt", recursive=True):
        for name in DECLARED.findall(read(path)):
            to = snake(name)
            for old, apart in APART.items():
                if name == old or name.startswith(old + "-"):
                    to = apart + name[len(old):]
            if to != name:
                new[name] = to
    return new


def turned(path, text, new):
    """The text with every name turned, each word by itself."""
    crate = path.split("/")[1] if path.startswith("crates/") else ""

    def word(m):
        w = m.group(0)
        if path.endswith(".antt") and crate in LEMMAS.get(w, ()):
            return w.replace("_", "-")
        return new.get(w, w)

    def prose(m):
        w = m.group(0)
        return new.get(w, w)

    if path.endswith((".antt", ".rt")):
        lines = []
        for line in text.split("\n"):
            mark = "--" if path.endswith(".antt") else "//"
            head, sep, tail = line.partition(mark) if line.lstrip().startswith(mark) else (line, "", "")
            lines.append(WORD.sub(word, head) + sep + re.sub(r"[a-z][A-Za-z0-9_'-]*[A-Za-z0-9_']", prose, tail))
        return "\n".join(lines)
    return re.sub(r"[a-z][A-Za-z0-9_'-]*[A-Za-z0-9_']", prose, text)


def crate_named(old, to):
    """The crate `old` under its new name."""
    if not os.path.isdir("crates/" + old):
        return
    subprocess.run(["git", "mv", "crates/" + old, "crates/" + to], check=True)
    for path in glob.glob("crates/**/*.antt", recursive=True) + glob.glob("crates/**/*.rt", recursive=True):
        text = read(path)
        now = re.sub(rf"\bRattle\.{old}\.", f"Rattle.{to}.", text)
        now = re.sub(rf"(?<![\w:.]){old}::", f"{to}::", now)
        if now != text:
            write(path, now)
    text = read("crates.txt")
    write("crates.txt", re.sub(rf"(?<![\w]){old}(?![\w])", to, text))


def write(path, text):
    with open(path, "w", encoding="utf-8") as f:
        f.write(text)


def main():
    new = declared()
    paths = [p for kind in ("antt", "rt", "edit") for p in glob.glob("crates/**/*." + kind, recursive=True)]
    paths += ["README.md", "CONTRIBUTING.md"] + glob.glob("docs/*.md")
    changed = 0
    for path in sorted(paths):
        text = read(path)
        now = turned(path, text, new)
        if now != text:
            write(path, now)
            changed += 1
    crate_named("hex", "hex_digits")
    print(f"respell: {len(new)} names, {changed} files")


if __name__ == "__main__":
    main()

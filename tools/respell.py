#!/usr/bin/env python3
"""Brings the names of this repository's own definitions and laws to the spelling of today's Rattle.

usage: python3 tools/respell.py [--list]      at the top of the repository, once, right after port.py

Words are in snake case: `passOf` becomes `pass_of`. A dash stays where it joins two names (`length-sets`); a plain word is
added with `_` (`closed_exactly`). Types, modules and facts keep their capitals. Only names that a file of some specs/ declares
are turned, in .antt and .rt files and in must-fail edits; the names of functions, of generated goals and of the library stay.
With --list it prints each name with its new spelling and writes nothing.
"""
import collections
import glob
import os
import re
import sys

WORD = r"[^\s(){}\[\];,.:«»\"`∷≡×→λ◌⌜⌝?…]+"
TOKEN = re.compile(r"(?<![^\s(){}\[\];,.:\"`←¬@])" + WORD)
NAME = r"[^\W\d][\w'′-]*"
MARKS = r"^\s*(?:(?:unfoldable|abbrev|pub|private)\s+)*"
# The library's words that the name of a law may join.
LIBRARY = set(
    "take drop length append zero suc nil cons set replicate map some none true false eqb leb ltb get_or concat sum all any ap sym "
    "trans head tail last div mod add mul pow min max cond not and or slice".split()
)
# Two names that would fall together, and a name of the library that is no longer spelled so.
APART = {"block-text": "block_text_lem", "copy-byte": "copy_byte_lem", "copy_step": "copy_step_lem", "entry-fields": "entry_fields_lem"}
PLAIN = {"getD-sets-below": "get_or-sets-below", "getD-there": "get_or-there", "at-most-448": "at_most_448"}


def read(path):
    with open(path, encoding="utf-8") as f:
        return f.read()


def declared(text):
    """The names that a file of specs/ declares: each one in a row before a colon, and those of its types."""
    names = set()
    for line in text.split("\n"):
        line = line.split(" -- ")[0] + " "
        m = re.match(MARKS + rf"(?:data\s+|record\s+|ruleset\s+)?((?:{NAME}\s+)+):\s", line)
        if m and not line.lstrip().startswith("--"):
            names |= set(m[1].split())
        m = re.match(MARKS + rf"(?:data|record|ruleset)\s+({NAME})", line)
        if m:
            names.add(m[1])
    return names


def snake(part):
    if not part or part[0].isupper():
        return part
    part = re.sub(r"(?<=[a-z0-9])([A-Z])", lambda m: "_" + m[1].lower(), part)
    return part[0] + part[1:].lower()


def respelled(name, words):
    if name in APART or name in PLAIN:
        return APART.get(name) or PLAIN[name]
    parts = [snake(p) for p in name.replace("′", "'").split("-")]
    out = parts[0]
    for before, after in zip(parts, parts[1:]):
        joins = before.lower() in words and after.lower() in words
        out += ("-" if joins else "_") + after
    return out


def table():
    names = set()
    for path in glob.glob("crates/*/specs/**/*.antt", recursive=True):
        names |= declared(read(path))
    words = {snake(n).lower() for n in names if "-" not in n} | LIBRARY
    return names, {n: s for n in names for s in [respelled(n, words)] if n != s}


def imported(text):
    """The names that a file takes from some specs/, within braces."""
    found = re.findall(r"^use Rattle[.·][\w.·]*\bspecs\.[^{;\n]*\{([^}]*)\}", text, re.M)
    return {n.strip() for row in found for n in row.split(",")}


def turn(path, text, to):
    """A file of specs/ says each name as it is; elsewhere a name with a dash may be a generated one, so it must be imported."""
    here = set(to) if "/specs/" in path else imported(text) | {n for n in to if "-" not in n}
    turned = {n: s for n, s in to.items() if n in here and not (path.endswith(".rt") and "-" in n)}
    return TOKEN.sub(lambda m: turned.get(m[0], m[0]), text)


def turn_edit(path, text, to):
    """Each pair of an edit is turned as the file that it names."""
    of = os.path.dirname(os.path.dirname(path))
    out, file = [], ""
    for line in text.split("\n"):
        m = re.match(r"file:\s*(\S+)", line)
        file = os.path.join(of, m[1]) if m else file
        # The imports of the file tell which names with a dash are ours.
        uses = "\n".join(l for l in read(file).split("\n") if l.startswith("use ")) if os.path.exists(file) else ""
        if re.match(r"(old|new):", line):
            line = turn(file, uses + "\n" + line, to).split("\n")[-1]
        out.append(line)
    return "\n".join(out)


def main():
    names, to = table()
    back = collections.defaultdict(list)
    for n in names:
        back[to.get(n, n)].append(n)
    together = {s: sorted(ns) for s, ns in back.items() if len(ns) > 1}
    if together:
        sys.exit(f"respell: names fall together: {together}")
    if "--list" in sys.argv:
        print("\n".join(f"{a} {b}" for a, b in sorted(to.items())))
        return
    edits = glob.glob("crates/*/must-fail/*.edit")
    turned = {p: turn_edit(p, read(p), to) for p in edits}
    files = [p for k in ("specs/**/*.antt", "proofs/**/*.antt", "src/**/*.rt") for p in glob.glob("crates/*/" + k, recursive=True)]
    turned |= {p: turn(p, read(p), to) for p in files}
    for path, text in turned.items():
        with open(path, "w", encoding="utf-8") as f:
            f.write(text)
    print(f"respell: {len(to)} of {len(names)} names, {len(turned)} files")


if __name__ == "__main__":
    main()

#!/usr/bin/env python3
"""Brings the repository's own definitions and lemmas to Rattle's spelling: words in snake case, types in camel case.

usage: python3 tools/respell.py            once, at the top of the repository, after port.py

It goes by the definitions of specs/ and proofs/: `given-up` becomes `given_up`, `Keeps-promise` becomes `KeepsPromise`, and a variable of TS 36.321 that is
written in capitals keeps them, as `CURRENT_TX_NB`. Comments, strings, goals of functions and names of src/ stay as they are.
The crate `hex` becomes `hexadecimal`, since Rattle has a library of that name.
"""

import os
import re
import subprocess
import sys

CRATES = {"hex": "hexadecimal"}
# Two names that would fall together.
APART = {"with-Msg3": "mac_with_msg3"}
KIND = re.compile(r"^\s*(?:(?:abbrev|pub|unfoldable)\s+)*(?:record|data)\s+(\S+)")
NAME = re.compile(r"^\s*(?:(?:abbrev|pub|unfoldable)\s+)*([^\s(){}]+)\s*:(?:\s+(\S+)|$)")
TOKEN = re.compile(r"[^\s(){}\[\].,;«»\"`:]+")


def files(endings):
    for folder, dirs, names in os.walk("crates"):
        dirs[:] = sorted(d for d in dirs if d != "out")
        for n in sorted(names):
            if n.endswith(endings):
                yield os.path.join(folder, n)


def defined():
    """The names that the files of definitions and lemmas declare, at the top, in a record or within a module; and the lemmas beside a function's answers."""
    found = set()
    for path in files(".antt"):
        for line in open(path, encoding="utf-8"):
            kind, name = KIND.match(line), NAME.match(line)
            if kind:
                found.add(kind.group(1))
            elif name and not (name.group(2) or "").startswith("goal."):
                found.add(name.group(1))
    return {n for n in found if "-" in n and not n.startswith("-")}


def camel(name):
    return "".join(w[:1].upper() + (w[1:].lower() if w.isupper() else w[1:]) for w in name.split("-"))


def respelled(name):
    if name in APART:
        return APART[name]
    words = name.split("-")
    if name.isupper() and all(len(w) > 1 for w in words):
        return name.replace("-", "_")
    if name[0].isupper():
        return camel(name)
    return name.replace("getD", "get_or").replace("-", "_").lower()


def turned(text, table, comment):
    """The text with each whole name of the table replaced, but in comments and strings."""
    out = []
    for line in text.split("\n"):
        at = re.search(r"(?:^|\s)" + re.escape(comment), line)
        code, rest = (line[: at.start()], line[at.start() :]) if at else (line, "")
        pieces = re.split(r'("(?:[^"\\]|\\.)*")', code)
        out.append("".join(p if i % 2 else TOKEN.sub(lambda m: table.get(m.group(0), m.group(0)), p) for i, p in enumerate(pieces)) + rest)
    return "\n".join(out)


def crates_turned(text, rust):
    for old, new in CRATES.items():
        text = re.sub(r"\bRattle\." + old + r"\.", "Rattle." + new + ".", text)
        if rust:
            text = re.sub(r"(?<![\w.])" + old + r"::", new + "::", text)
    return text


def write(path, text):
    with open(path, "w", encoding="utf-8") as f:
        f.write(text)


def main():
    if not os.path.isdir("crates"):
        sys.exit("respell: run it at the top of the repository")
    table = {n: respelled(n) for n in defined()}
    for path in files((".antt", ".rt")):
        rust = path.endswith(".rt")
        text = open(path, encoding="utf-8").read()
        write(path, crates_turned(turned(text, table, "//" if rust else "--"), rust))
    listed = open("crates.txt", encoding="utf-8").read()
    for old, new in CRATES.items():
        listed = re.sub(r"\b" + old + r"\b", new, listed)
        if os.path.isdir(os.path.join("crates", old)):
            subprocess.run(["git", "mv", os.path.join("crates", old), os.path.join("crates", new)], check=True)
    write("crates.txt", listed)
    for folder in sorted(os.listdir("crates")):
        subprocess.run(["rt", "fmt"], cwd=os.path.join("crates", folder), check=True, stdout=subprocess.DEVNULL)
    print(f"respell: {len(table)} names")


if __name__ == "__main__":
    main()

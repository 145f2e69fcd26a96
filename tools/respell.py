#!/usr/bin/env python3
"""Spells the repository's own definitions and lemmas as today's library does: words in snake case, types and facts in camel case.

usage: python3 tools/respell.py        at the top of the repository, once, after the toolchain's own script

tools/respell.txt has a line for each name: the old one and the new one. A name is turned where it stands whole, in src/, specs/, proofs/
and must-fail/ of every crate; names of functions of src/ are not in the list, nor are strings, inputs and outputs touched.
crates/hex is named crates/digits, since today's library has a crate hex.
"""

import os
import re
import subprocess

HERE = os.path.dirname(os.path.abspath(__file__))
TOP = os.path.dirname(HERE)


def table():
    with open(os.path.join(HERE, "respell.txt"), encoding="utf-8") as f:
        return dict(line.split() for line in f if line.strip())


def files():
    for folder, dirs, names in os.walk(os.path.join(TOP, "crates")):
        dirs[:] = sorted(d for d in dirs if d != "out")
        for name in sorted(names):
            if name.endswith((".rt", ".antt", ".edit")):
                yield os.path.join(folder, name)


def rename_hex():
    """The crate hex becomes digits: its folder, its line, its paths, its uses."""
    if not os.path.isdir(os.path.join(TOP, "crates", "hex")):
        return
    subprocess.run(["git", "mv", "crates/hex", "crates/digits"], cwd=TOP, check=True)
    for path in [os.path.join(TOP, "crates.txt"), *files()]:
        with open(path, encoding="utf-8") as f:
            text = f.read()
        new = re.sub(r"\bRattle([.\u00b7])hex\b", r"Rattle\1digits", text)
        new = re.sub(r"\bhex::", "digits::", new)
        new = re.sub(r"^use hex;", "use digits;", new, flags=re.M)
        if path.endswith("crates.txt"):
            new = re.sub(r"\bhex\b", "digits", new)
        if new != text:
            with open(path, "w", encoding="utf-8") as f:
                f.write(new)


def main():
    rename_hex()
    names = table()
    whole = re.compile(r"(?<![\w'-])(" + "|".join(sorted(map(re.escape, names), key=len, reverse=True)) + r")(?![\w'-])")
    for path in files():
        with open(path, encoding="utf-8") as f:
            text = f.read()
        new = whole.sub(lambda m: names[m.group(1)], text)
        if new != text:
            with open(path, "w", encoding="utf-8") as f:
                f.write(new)


if __name__ == "__main__":
    main()

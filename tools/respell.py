#!/usr/bin/env python3
"""Brings the names of this repository's definitions and lemmas to today's spelling: words in snake case, types in camel case.

usage: python3 tools/respell.py [ROOT]      (ROOT: a checkout that has crates/; this one if it is left out)

The names stand in respell.txt beside this file, a line each: the old name, then the new one. A name is replaced where it stands
whole, in the .rt and .antt files of crates/ and between backquotes in README.md and docs/*.md. Afterwards each crate is laid out.
Run once, after the toolchain's own port script and before any edit by hand.
"""
import os
import re
import subprocess
import sys

HERE = os.path.dirname(os.path.realpath(__file__))
TOKEN = re.compile(r"[^\s(){}\[\]|,;.λ:⟨⟩⌜⌝`]+")
QUOTED = re.compile(r"`[^`\n]+`")


def read_names():
    with open(os.path.join(HERE, "respell.txt"), encoding="utf-8") as f:
        return dict(line.split() for line in f)


def respelled(text, names):
    return TOKEN.sub(lambda m: names.get(m[0], m[0]), text)


def rewrite(path, change):
    with open(path, encoding="utf-8") as f:
        old = f.read()
    new = change(old)
    if new != old:
        with open(path, "w", encoding="utf-8") as f:
            f.write(new)
    return new != old


def sources(root):
    for folder, dirs, files in os.walk(os.path.join(root, "crates")):
        dirs[:] = sorted(d for d in dirs if d != "out")
        yield from (os.path.join(folder, f) for f in sorted(files) if f.endswith((".rt", ".antt")))


def pages(root):
    yield os.path.join(root, "README.md")
    docs = os.path.join(root, "docs")
    yield from (os.path.join(docs, f) for f in sorted(os.listdir(docs)) if f.endswith(".md"))


def main(argv):
    root = argv[0] if argv else os.path.dirname(HERE)
    names = read_names()
    changed = sum(rewrite(p, lambda t: respelled(t, names)) for p in sources(root))
    changed += sum(rewrite(p, lambda t: QUOTED.sub(lambda m: respelled(m[0], names), t)) for p in pages(root))
    for crate in sorted(os.listdir(os.path.join(root, "crates"))):
        subprocess.run(["rt", "fmt"], cwd=os.path.join(root, "crates", crate), stdout=subprocess.DEVNULL, stderr=subprocess.DEVNULL)
    print(f"{changed} files changed, {len(names)} names")


if __name__ == "__main__":
    main(sys.argv[1:])

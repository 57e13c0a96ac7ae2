#!/usr/bin/env python3
"""Brings the names of this repository's own definitions and lemmas to snake case.

usage: python3 tools/respell.py [ROOT]

Goes over crates/*/{specs,proofs}/**/*.antt, the clauses of crates/*/src/**/*.rt, README.md and docs/*.md. A name is
respelled if it stands in one of the .antt files or in a clause and is in lower camel case, in whole or in a part between
dashes: `countFrom` becomes `count_from`, `upTo-at` becomes `up_to-at`. Types, facts and modules keep their capital; code
has no name in lower camel case, and texts between quotes stay. A lemma that would get the name of a definition beside it
ends in `_lem`. It says which new names stood in the tree before.
"""

import os
import re
import sys

DECLARED = re.compile(
    r"^[ ]*(?:(?:pub|abbrev|unfoldable) )*([^\s:=(){}|,;.]+)\s+:(?:\s|$)", re.M
)
IMPORT = re.compile(r"^use ([\w.+'-]+)\.\{([^}]*)\}", re.M)
WORD = re.compile(r"[A-Za-z_][\w'-]*")
TEXT = re.compile(r"""b?"(?:[^"\\]|\\.)*"|b?'(?:[^'\\]|\\.)'""")


def snake(name):
    name = re.sub(r"([a-z0-9])([A-Z])", r"\1_\2", name)
    name = re.sub(r"([A-Z])([A-Z][a-z])", r"\1_\2", name)
    return name.lower()


def respelled(name):
    parts = name.split("-")
    return "-".join(
        snake(p) if re.match(r"[a-z]", p) and re.search(r"[A-Z]", p) else p for p in parts
    )


def files(root, folders, ending):
    for crate in sorted(os.listdir(os.path.join(root, "crates"))):
        for folder in folders:
            for at, dirs, names in os.walk(os.path.join(root, "crates", crate, folder)):
                dirs.sort()
                for name in sorted(names):
                    if name.endswith(ending):
                        yield os.path.join(at, name)


def read(path):
    with open(path, encoding="utf-8") as f:
        return f.read()


def turned(text, names):
    return WORD.sub(lambda m: names.get(m.group(0), m.group(0)), text)


def turned_source(text, names):
    """Source, whose texts between quotes stay."""
    out, at = [], 0
    for m in TEXT.finditer(text):
        out += [turned(text[at : m.start()], names), m.group(0)]
        at = m.end()
    return "".join(out) + turned(text[at:], names)


def lemmas_beside(paths, root, names):
    """For each file, the lemmas in it that would get the name of a definition that stands there too."""
    module = lambda p: "Rattle." + os.path.relpath(p, os.path.join(root, "crates"))[:-5].replace("/", ".")
    olds, clash = {n: o for o, n in names.items()}, set()
    texts = {p: read(p) for p in paths}
    for path, text in texts.items():
        declares = {(module(path), n) for n in DECLARED.findall(text) if n in olds}
        brings = {(m, n.strip()) for m, ns in IMPORT.findall(text) for n in ns.split(",") if ".proofs." in m and n.strip() in olds}
        stands = set(WORD.findall(text))
        clash.update(x for x in declares | brings if olds[x[1]] in stands)
    for path, text in texts.items():
        here = {n for m, n in clash if m == module(path)}
        here.update(n.strip() for m, ns in IMPORT.findall(text) for n in ns.split(",") if (m, n.strip()) in clash)
        if here:
            yield path, here


def main(root):
    proofs = list(files(root, ("specs", "proofs"), ".antt"))
    sources = list(files(root, ("src",), ".rt"))
    pages = [os.path.join(root, "README.md")]
    docs = os.path.join(root, "docs")
    if os.path.isdir(docs):
        pages += [os.path.join(docs, n) for n in sorted(os.listdir(docs)) if n.endswith(".md") and n != "PORT.md"]
    before = set()
    for path in proofs:
        before.update(WORD.findall(read(path)))
    for path in sources:
        before.update(WORD.findall(TEXT.sub("", read(path))))
    names = {word: respelled(word) for word in before if respelled(word) != word}
    for old, new in sorted(names.items()):
        if new in before:
            print(f"look: {old} becomes {new}, which stands in the tree already")
    for path, lemmas in lemmas_beside(proofs, root, names):
        text = read(path)
        for n in sorted(lemmas):
            text = re.sub(r"(?<![\w.'-])" + n + r"(?![\w'-])", n + "_lem", text)
            print(f"look: {n} of {os.path.relpath(path, root)} becomes {n}_lem")
        with open(path, "w", encoding="utf-8") as f:
            f.write(text)
    changed = 0
    for path in proofs + sources + pages:
        text = read(path)
        turn = turned_source if path.endswith(".rt") else turned
        new = turn(text, names)
        if new != text:
            with open(path, "w", encoding="utf-8") as f:
                f.write(new)
            changed += 1
    print(f"respell: {len(names)} names, {changed} files")


main(sys.argv[1] if len(sys.argv) > 1 else ".")

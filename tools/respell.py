#!/usr/bin/env python3
"""Brings this repository's own definitions and lemmas to today's spelling, once, right after the kit's port.py: words in snake case, types in camel case.

usage: tools/respell.py [FOLDER]

Every name with a dash that an .antt file of the repository declares loses the dash, wherever it stands in .antt files, in .rt files and in must-fail edits.
Names that Rattle makes of the code (goals, and the steps that an answer cites) and names of the kit's library stay as they are.
It stops, and writes nothing, where two names would fall together."""

import collections
import glob
import os
import re
import sys

WORD = re.compile(r"(?<![\w'\-.«])([A-Za-z][\w']*(?:-[\w']+)+)(?![\w'\-])|(?<=\.)([A-Za-z][\w']*(?:-[\w']+)+)(?![\w'\-])")
DECLARED = re.compile(r"(?m)^\s*(?:(?:abbrev|unfoldable|record|data|pub|pattern)\s+)*([A-Za-z][\w'-]*)\s*(?:\{[^}]*\}\s*|\([^)]*\)\s*)*:(?!:)(.*)$")
GOAL = re.compile(r"(returns|loop|invariant|decreases)-|in-(Some|Heard|Ignored|Turned|Finished|default)|[\w-]+-requires$")
# bound, and declared nowhere
BOUND = ["free-lines", "messages-fit", "ms-None", "ms-c", "ms-o", "ms-k", "zero-heard"]
# types that were written small, each with the files that it stands in
TYPES = {
    "with-m": ("WithM", ["atomicity/proofs/Operations.antt"]),
    "also": ("Also", ["atomicity/proofs/Protocol.antt"]),
    "makes": ("Makes", ["cluster/proofs/Hearing.antt"]),
}


def texts(root):
    for pattern in ("**/*.antt", "**/*.rt", "*/must-fail/*.edit"):
        for path in sorted(glob.glob(os.path.join(root, "crates", pattern), recursive=True)):
            if "/out/" not in path:
                yield path


def read(path):
    with open(path, encoding="utf-8") as f:
        return f.read()


def declared(root):
    names = set(BOUND)
    for path in texts(root):
        if path.endswith(".antt"):
            for m in DECLARED.finditer(read(path)):
                if "-" in m[1] and "goal." not in m[2] and not GOAL.match(m[1]):
                    names.add(m[1])
    return names


def respelled(name):
    parts = name.replace("getD", "get_or").split("-")
    if name[0].isupper():
        return "".join(p[:1].upper() + p[1:] for p in parts)
    return "_".join(parts)


def main(root):
    new = {n: respelled(n) for n in declared(root)}
    taken = collections.Counter(new.values())
    for path in texts(root):
        if path.endswith(".antt"):
            taken.update({m[1] for m in DECLARED.finditer(read(path)) if "-" not in m[1] and m[1] in taken})
    fallen = sorted(n for n, count in taken.items() if count > 1)
    if fallen:
        sys.exit("respell: names would fall together: " + " ".join(fallen))
    for path in texts(root):
        text = read(path)
        inside = os.path.relpath(path, os.path.join(root, "crates"))
        out = text
        for name, (word, files) in TYPES.items():
            if inside in files:
                out = re.sub(r"(?<![\w'\-])" + name + r"(?![\w'\-])", word, out)
        out = WORD.sub(lambda m: new.get(m[0], m[0]), out)
        if out != text:
            with open(path, "w", encoding="utf-8") as f:
                f.write(out)


if __name__ == "__main__":
    main(sys.argv[1] if len(sys.argv) > 1 else ".")

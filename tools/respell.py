#!/usr/bin/env python3
"""Spells this repository's own names in specs/, proofs/, contracts and must-fail edits as today's Rattle does.

usage: python3 tools/respell.py [--names]      at the top of the repository, once, after port.py

port.py spells only some of them. A function, lemma, field, constructor or parameter goes to snake case: a capital inside a name
becomes `_` and the small letter, a dash becomes `_`. Types and modules keep their names. A lemma whose new name is that of a
function or of another lemma gets `_lem`. A name that a file imports from a library stays in that file, and so do labels of Rattle
in the proofs of functions (Proof.antt), which are written anew afterwards.
--names prints the old and new names and writes nothing.
"""

import collections
import os
import re
import sys

NAME = r"[^\s(){}.;,@\"«»`:]+"
DECLARATION = re.compile(
    r"(?m)^ *(?:(?:abbrev|unfoldable|pub|record|data|ruleset|syntax)\s+)*([^\s(){}.;,@\"«»:]+)(?: [({][^\n]*?[)}])* :(?= |$)"
)
USE = re.compile(r"(?m)^(?:pub )?(?:ghost )?(?:pub )?use ([^\s;{]+?)\.?(?:\{([^}]*)\})?;?$")
CAMEL = re.compile(r"[a-z][\w']*[A-Z][\w']*(?:-.*)?$")


def texts(root):
    for folder, folders, files in os.walk(os.path.join(root, "crates")):
        folders[:] = sorted(it for it in folders if it != "out")
        for name in sorted(files):
            if name.endswith((".antt", ".rt", ".edit")):
                yield os.path.join(folder, name)


def read(path):
    with open(path, encoding="utf-8") as file:
        return file.read()


def without_comments(text):
    return re.sub(r"(?m)--( [^\n]*)?$", "", text)


def snake(name):
    name = re.sub(r"(?<=[a-z0-9'])([A-Z])(?=[a-z])", lambda it: "_" + it[1].lower(), name)
    name = re.sub(r"(?<=[a-zA-Z0-9'])([A-Z])(?![a-z])", lambda it: "_" + it[1].lower(), name)
    name = re.sub(r"(?<=[a-z0-9'])([A-Z])", lambda it: "_" + it[1].lower(), name)
    return name.replace("-", "_")


def declared(root):
    """The names that specs/ and proofs/ declare, each with its files; a function's own Proof.antt is left out."""
    found = collections.defaultdict(set)
    for path in texts(root):
        if path.endswith(".antt") and os.path.basename(path) != "Proof.antt":
            for it in DECLARATION.finditer(without_comments(read(path))):
                found[it[1]].add(path)
    return found


def parameters(root):
    """Names in camel case that are no declaration: parameters and the like."""
    found = set()
    for path in texts(root):
        if path.endswith(".antt") and os.path.basename(path) != "Proof.antt":
            found |= {it for it in re.findall(NAME, without_comments(read(path))) if CAMEL.match(it)}
    return found


def table(root):
    """The old and the new names."""
    of = declared(root)
    every = set(of) | parameters(root)
    turned = {it for it in every if (CAMEL.match(it) or "-" in it) and re.match(r"[a-zA-Z]", it) and not re.match(r"[A-Z][\w']*$", it)}
    new = {}
    # it is the lemma that gives way, also one that port.py has spelled
    for name in sorted(turned):
        to = snake(name)
        if "-" not in name and to in of and all("/proofs/" in it for it in of[to]):
            new[to] = to + "_lem"
    taken = {new.get(it, it) for it in every if it not in turned}
    # so does a name whose new spelling one of its files imports from a library
    own = set(os.listdir(os.path.join(root, "crates")))
    lent = collections.defaultdict(set)
    for name, files in of.items():
        for path in files:
            lent[name] |= imported(read(path), own)
    for name in sorted(turned, key=lambda it: ("-" in it, it)):
        to = snake(name) if re.match(r"[a-z]", name) else name.replace("-", "_")
        while to in taken or to in lent[name]:
            to += "_lem"
        taken.add(to)
        new[name] = to
    return new


def imported(text, own):
    """The names that a file imports from libraries."""
    kept = set()
    for it in USE.finditer(text):
        steps = it[1].split(".")
        if steps[0] == "Rattle" and len(steps) > 1 and steps[1] in own:
            continue
        kept |= {word.strip().split(" as ")[0] for word in (it[2] or "").split(",")}
    return kept


def respelled(text, new, kept, comment):
    def turn(it):
        return it[0] if it[0] in kept else new.get(it[0], it[0])

    lines = []
    for line in text.split("\n"):
        code, mark, rest = line.partition(comment) if comment else (line, "", "")
        code = re.sub(NAME, turn, code)
        rest = re.sub(r"`[^`]*`", lambda it: re.sub(NAME, turn, it[0]), rest)
        lines.append(code + mark + rest)
    return "\n".join(lines)


def main(arguments):
    root = "."
    new = table(root)
    if arguments == ["--names"]:
        for old in sorted(new):
            print(f"{old}\t{new[old]}")
        return 0
    own = set(os.listdir(os.path.join(root, "crates")))
    for path in texts(root):
        text = read(path)
        comment = "//" if path.endswith(".rt") else "--" if path.endswith(".antt") else None
        to = respelled(text, new, imported(text, own), comment)
        if to != text:
            with open(path, "w", encoding="utf-8") as file:
                file.write(to)
    return 0


if __name__ == "__main__":
    raise SystemExit(main(sys.argv[1:]))

#!/usr/bin/env python3
"""Spells this repository's own definitions and lemmas as the kit spells its own: words in snake case.

usage: python3 tools/respell.py        at the top of the repository, once, after the kit's port.py

respell.tsv, beside this file, has a line for each name: the old spelling, a tab, the new one. A third column is the end
of the only file that the line is for. Names of Rust, strings and what stands in generated modules stay as they are.
"""

import os
import re
import sys

HERE = os.path.dirname(os.path.realpath(__file__))
# A name as antt cuts words, with the dot before it, if any.
NAME = re.compile(r"(\.?)([^\s(){}.,;@\"«»\[\]]+)")
USE = re.compile(r"^\s*(?:ghost )?(?:pub )?use ([^\s{;]+?)\.?\{([^}]*)\}", re.M)


def rows():
    everywhere, here = {}, {}
    with open(os.path.join(HERE, "respell.tsv"), encoding="utf-8") as f:
        for line in f:
            old, new, *where = line.rstrip("\n").split("\t")
            if where:
                here.setdefault(where[0], {})[old] = new
            else:
                everywhere[old] = new
    return everywhere, here


def brought(text, crates):
    """The names that a file imports from the kit."""
    found = set()
    for path, names in USE.findall(text):
        steps = path.split(".")
        if not (steps[0] == "Rattle" and len(steps) > 1 and steps[1] in crates):
            found.update(it.strip() for it in names.split(","))
    return found


def turned(text, table, dotted, crates):
    keep = brought(text, crates)

    def one(m):
        dot, name = m.groups()
        if name in keep or dot and not dotted:
            return m[0]
        return dot + table.get(name, name)

    lines = text.split("\n")
    for k, line in enumerate(lines):
        code, mark, said = line.partition("--")
        if code.strip() or not mark:
            lines[k] = NAME.sub(one, code) + mark + said
        if mark:
            head, tail = lines[k].split("--", 1)
            lines[k] = head + "--" + re.sub(r"`([^`\s]+)`", lambda m: "`" + table.get(m[1], m[1]) + "`", tail)
    return "\n".join(lines)


def main():
    table, here = rows()
    crates = set(os.listdir("crates"))
    for folder, dirs, files in os.walk("crates"):
        dirs[:] = sorted(d for d in dirs if d != "out")
        for f in sorted(files):
            path = os.path.join(folder, f)
            if not f.endswith((".antt", ".rt", ".edit")):
                continue
            with open(path, encoding="utf-8") as g:
                text = g.read()
            own = dict(table)
            for end, more in here.items():
                if path.endswith(end):
                    own.update(more)
            if f.endswith(".antt"):
                # What stands behind a dot in the proof of a function is mostly a generated name.
                of_function = "/proofs/" in path and "/" in path.split("/proofs/")[1]
                new = turned(text, own, not of_function, crates)
            elif f.endswith(".rt"):
                # Contracts alone have names in camel case that begin low.
                camel = {a: b for a, b in own.items() if "-" not in a}
                new = re.sub(r"\b[a-z]\w*\b", lambda m: camel.get(m[0], m[0]), text)
            else:
                new = re.sub(r"(?m)^((?:old|new): )(.*)$", lambda m: m[1] + turned(m[2], own, True, crates), text)
            if new != text:
                with open(path, "w", encoding="utf-8") as g:
                    g.write(new)
                print(path)
    # The pages name definitions and lemmas between backticks.
    for path in ["README.md", *sorted(os.path.join("docs", f) for f in os.listdir("docs"))]:
        with open(path, encoding="utf-8") as g:
            text = g.read()
        new = re.sub(r"`([^`\n]+)`", lambda m: "`" + turned(m[1], table, True, crates) + "`", text)
        if new != text:
            with open(path, "w", encoding="utf-8") as g:
                g.write(new)
            print(path)
    return 0


if __name__ == "__main__":
    sys.exit(main())

#!/usr/bin/env python3
"""Spells the repository's own definitions and lemmas as today's Rattle does: words in snake case (a_name for aName), a prime as
an apostrophe. Types, modules and names of the sources keep their spelling.

usage: tools/respell.py [--check]        at the top of the repository, once, after port.py

It turns whole words in .antt files, in clauses, ghost items and comments of .rt files, in must-fail edits and in the pages.
--check writes nothing and lists the names that would fall together with another. Run a second time it finds nothing.
"""
import glob
import re
import sys

DECLARED = re.compile(r'^ *(?:abbrev pub |abbrev |unfoldable pub |unfoldable |pub )?([^\s(){}.;,@"«»:]+)(?: \{[^{}\n]*\})* :(?=\s|$)')
LISTED = re.compile(r"^ +((?:[a-z]\w* )+[a-z]\w*) :(?=\s|$)")
NAME = re.compile(r"""(?<![\w'₀-₉-])[A-Za-zµ]\w*(?:[-→]?\w+)*'*""")
PARTS = re.compile(r"[^-→]+|[-→]")


def read(path):
    with open(path, encoding="utf-8") as it:
        return it.read()


def respelled(name):
    """The name with each of its parts in snake case; a part that begins with a capital is a type's and stays."""
    return "".join(
        part if not re.match(r"[a-z]", part) else re.sub(r"(?<=[a-z0-9])[A-Z]", lambda m: "_" + m[0].lower(), part) for part in PARTS.findall(name)
    )


def main(argv):
    theirs = [p for kind in ("specs", "proofs") for p in glob.glob(f"crates/*/{kind}/**/*.antt", recursive=True)]
    declared = {m[1] for p in theirs for line in read(p).split("\n") if (m := DECLARED.match(line))}
    table = {n: respelled(n) for n in declared if respelled(n) != n}
    # A constructor may stand in a list of them.
    table |= {n: respelled(n) for p in theirs for line in read(p).split("\n") if (m := LISTED.match(line)) for n in m[1].split() if respelled(n) != n}
    # A lemma that would have its function's name gets _lem.
    table |= {n: n + "_lem" for n in table.values() if n in declared}
    sources = glob.glob("crates/*/src/**/*.rt", recursive=True)
    edits = glob.glob("crates/*/must-fail/*.edit")
    pages = [p for p in glob.glob("*.md") + glob.glob("docs/*.md") if not p.endswith("PORT.md")]
    tests = glob.glob("tests/tools/*.py")
    met = 0
    for path in theirs + sources + edits + pages + tests:
        text = read(path)
        words = set(NAME.findall(text))
        for old in sorted(words & table.keys()):
            if table[old] in words:
                print(f"{path}: {old} and {table[old]}")
                met += 1
        new = NAME.sub(lambda m: table.get(m[0], m[0]), text)
        if new != text and "--check" not in argv:
            with open(path, "w", encoding="utf-8") as it:
                it.write(new)
    print(f"respell: {len(table)} names, {met} that may fall together")


if __name__ == "__main__":
    main(sys.argv[1:])

#!/usr/bin/env python3
"""Brings this repository's own names to snake case, once, after the kit's port.py: usage: python3 tools/snake_names.py, at the top.

The names are those of NAMES, beside this file: each definition, lemma, field, constructor and binder of specs/ and proofs/ that still
had a dash after port.py. A dash becomes an underscore, in .antt files, in the clauses and ghost items of .rt files, and in must-fail
edits. Comments, strings, code and file names stay as they are. It refuses to run where two names of the list would fall together.
"""

import os
import re
import sys

HERE = os.path.dirname(os.path.realpath(__file__))
NAMES = os.path.join(HERE, "snake_names.txt")
# What may stand in a name; a path and a projection end one, as every bracket and operator does.
PART = r"[\w'⊎≡≢◌+*/%<≤-]"


def renamed(name):
    # All small: port.py writes the binder moves-both with the capital of a type.
    return name.lower().replace("-", "_")


def pieces(text, comment):
    """The pieces of text, each with whether it is code: not a comment, and not a string."""
    for piece in re.split(rf'({comment}[^\n]*|"(?:\\.|[^"\\\n])*")', text):
        yield piece, not (re.match(comment, piece) or piece.startswith('"'))


def main():
    with open(NAMES, encoding="utf-8") as f:
        names = f.read().split()
    new = [renamed(n) for n in names]
    if len(set(new)) < len(new):
        print("two names would fall together")
        return 1
    whole = re.compile(rf"(?<!{PART})({'|'.join(re.escape(n) for n in names)})(?!{PART})")
    changed = 0
    for folder, folders, files in os.walk("crates"):
        folders[:] = sorted(d for d in folders if d != "out")
        for file in sorted(files):
            if not file.endswith((".antt", ".rt", ".edit")):
                continue
            path = os.path.join(folder, file)
            with open(path, encoding="utf-8") as f:
                before = f.read()
            comment = r"//" if file.endswith(".rt") else r"--(?=\s)"
            after = "".join(whole.sub(lambda m: renamed(m[1]), piece) if code else piece for piece, code in pieces(before, comment))
            if after != before:
                with open(path, "w", encoding="utf-8") as f:
                    f.write(after)
                changed += 1
    print(f"{len(names)} names, {changed} files changed")
    return 0


if __name__ == "__main__":
    sys.exit(main())

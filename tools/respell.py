#!/usr/bin/env python3
"""Respells this repository's own definitions and lemmas as the kit spells its own: snake case, no dash but between two words.

    python3 tools/respell.py [FOLDER]     in a repository that the kit's port.py has turned; FOLDER is its top, by default here

Each line of words.txt beside this script has a name and its new spelling. A name is replaced wherever it stands as a whole
word in the .antt and .rt files of crates/; one with a dash not behind a dot, where it would be a name of Rattle's. Then
the legends at the head of the files in specs/ are set in columns again. Functions of src/, strings and inputs stay as they are.

It was run once and is kept as a record. Some names that it turned are the library's too and were put back by hand (docs/PORT.md),
so it is not for the tree as it stands since then.
"""

import os
import re
import sys

HERE = os.path.dirname(os.path.realpath(__file__))
LETTER = r"[\w'\-\u00b7]"


def words():
    with open(os.path.join(HERE, "words.txt"), encoding="utf-8") as file:
        return dict(line.split() for line in file if line.strip())


def pattern(table):
    names = sorted(table, key=len, reverse=True)
    plain = [re.escape(n) for n in names if "-" not in n]
    dashed = [re.escape(n) for n in names if "-" in n]
    return re.compile(rf"(?<!{LETTER})(?:{'|'.join(plain)})(?!{LETTER})|(?<!{LETTER})(?<!\.)(?:{'|'.join(dashed)})(?!{LETTER})")


def legend(text):
    """The head comment with its second column below one another."""
    lines = text.split("\n")
    end = next((i for i, line in enumerate(lines) if not line.startswith("--")), len(lines))
    rows = [(i, re.match(r"-- (\S.*?) {2,}(\S.*)$", lines[i])) for i in range(end)]
    rows = [(i, m) for i, m in rows if m]
    if rows:
        wide = max(len(m[1]) for _, m in rows) + 2
        for i, m in rows:
            lines[i] = "-- " + m[1].ljust(wide) + m[2]
    return "\n".join(lines)


def files(top):
    for folder, dirs, names in os.walk(os.path.join(top, "crates")):
        dirs[:] = sorted(d for d in dirs if d != "out")
        for name in sorted(names):
            if name.endswith((".antt", ".rt")):
                yield os.path.join(folder, name)


def main(top):
    table = words()
    find = pattern(table)
    changed = 0
    for path in files(top):
        with open(path, encoding="utf-8") as file:
            text = file.read()
        new = find.sub(lambda m: table[m[0]], text)
        if path.endswith(".antt") and f"{os.sep}specs{os.sep}" in path:
            new = legend(new)
        if new != text:
            changed += 1
            with open(path, "w", encoding="utf-8") as file:
                file.write(new)
    print(f"respell: {len(table)} names, {changed} files changed")


main(sys.argv[1] if len(sys.argv) > 1 else ".")

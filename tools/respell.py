#!/usr/bin/env python3
"""Spells the names that this repository's specs/ and proofs/ declare as today's Rattle does: camel case becomes snake case.

usage: respell.py [--lemmas]   at the top of a repository whose files port.py has turned, once; --lemmas on the first run alone
       respell.py --list       the table, and nothing is written

A name is turned where it begins with a small letter, or is an operator, and a capital follows a small letter or a digit: hoursOf becomes hours_of and
all-listOf all-list_of. Types, records and modules keep their capitals. Where the new spelling would meet another name it is one of APART below.
It goes by whole words over .rt, .antt and .edit files and the pages.
"""

import collections
import glob
import os
import re
import sys

DECLARED = re.compile(r"^ *(?:(?:abbrev|unfoldable|pub|data|record|infixl|infixr) +)*([^\s(){}.;,@\"«»]+)(?:(?: \{[^{}]*\})|(?: \([^()]*\)))* :(?= |$)", re.M)
WORD = re.compile(r"(?<![\w'-])[A-Za-z0-9_◌→≡][\w'◌→≡-]*")

# What the words of a name become where plain snake case would not do, with the reason.
APART = {
    # `first_of` is a tactic of antt's; port.py had turned firstOf into it
    "first_of": "first_there",
    # port.py turned the operator's uses and not its declaration
    "◌orElse◌": "◌or_else◌",
}


# Lemmas that port.py spelled with an underscore, as the kit spells lemmas of its own, beside definitions that are now spelled so: they are as they were.
LEMMAS = "kept_by kept_from kept_in kept_of in_use row_has rows_in place_at row_out".split()
LEMMA = re.compile(r"(?<![\w'.:-])(" + "|".join(LEMMAS) + r")(?![\w'-])")


def snake(name):
    parts = []
    for part in name.split("-"):
        if re.match(r"[a-z]", part):
            # a capital that ends a word stands for itself, as S and P, and as E and T: no letter is made small there
            part = re.sub(r"(?<=[a-z0-9])([A-Z])", lambda m: "_" + m[1].lower(), part)
        parts.append(part)
    return "-".join(parts)


def texts():
    for pattern in ("crates/*/src/**/*.rt", "crates/*/specs/**/*.antt", "crates/*/proofs/**/*.antt", "crates/*/must-fail/*.edit", "docs/**/*.md", "README.md"):
        yield from sorted(glob.glob(pattern, recursive=True))


def main():
    names = set()
    for pattern in ("crates/*/specs/**/*.antt", "crates/*/proofs/**/*.antt"):
        for file in glob.glob(pattern, recursive=True):
            with open(file, encoding="utf-8") as it:
                names |= {m[1] for m in DECLARED.finditer(it.read())}
    table = {name: snake(name) for name in names if re.match(r"[a-z]", name) and snake(name) != name}
    table |= {old: new for old, new in APART.items() if old in names or old == "first_of"}
    if "--list" in sys.argv:
        for old, new in sorted(table.items()):
            print(old, new, "  MEETS" if new in names else "")
        return
    for file in texts():
        with open(file, encoding="utf-8") as it:
            text = it.read()
        turned = text
        if "/proofs/" in file and file.endswith(".antt") and "--lemmas" in sys.argv:
            turned = LEMMA.sub(lambda m: m[1].replace("_", "-"), text)
        new = WORD.sub(lambda m: table.get(m[0], m[0]), turned)
        if new != text:
            with open(file, "w", encoding="utf-8") as it:
                it.write(new)


if __name__ == "__main__":
    main()

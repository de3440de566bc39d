#!/usr/bin/env python3
"""Lists the places in crates/*/src that docs/DESIGN-PASS.md counts, a line each: point, file, name. With a point's number, only those; with a folder
after it, of the checkout there."""
import collections
import glob
import re
import sys

want = sys.argv[1] if len(sys.argv) > 1 else ""
top = sys.argv[2] if len(sys.argv) > 2 else "."

# What a fact of a contract's clause begins with, where three functions or more have it.
FACTS = ["Located", "Opened", "Lends", "Parted", "Numbered", "Room", "Indexed", "Prepared", "Tabled", "RowInside", "KindFine", "RowsFine", "Permitted",
         "RecordReady", "FirstRows", "Noted", "RowsKnown", "rota_judged s.now ≡ 0", "in_turn (record_judged", "BeginsAt", "SetsAre", "Kept ", "CountedTo"]


def functions(text):
    """Each function: its name, its parameters, its result, its clauses and its body."""
    for m in re.finditer(r"^( *)(?:pub )?(?:extern \"C\" )?fn (\w+)(?:<[^>]*>)?\(([^)]*)\)(?: -> ([^\n{]+))?\n?(.*?)^\1\{\n(.*?)^\1\}", text, re.S | re.M):
        yield m[2], [p for p in re.split(r",\s*(?![^\[]*\])", m[3].strip()) if p.strip()], (m[4] or "").strip(), m[5], m[6]


found = []
facts = collections.defaultdict(list)
for path in sorted(glob.glob(f"{top}/crates/*/src/*.rt")):
    with open(path, encoding="utf-8") as it:
        text = it.read()
    name = path[len(top) + 1:]
    for m in re.finditer(r"^(?:pub )?enum (\w+) \{(.*?)^\}", text, re.S | re.M):
        if re.search(r"^\s+(Refused|Never|No)\b", m[2], re.M):
            found.append(("1", name, f"enum {m[1]}"))
    for m in re.finditer(r"^(?:pub )?struct (\w+)[^{\n]*\{(.*?)^\}", text, re.S | re.M):
        if re.search(r"^\s+(?:pub )?(?:(?:refusal|code|found|yes): (?:u8|u32|bool)|on: bool)\b", m[2], re.M):
            found.append(("1", name, f"struct {m[1]}"))
    for function, parameters, result, clauses, body in functions(text):
        if re.search(r"judged|StageIs", clauses) and re.fullmatch(r"u8|u32", result):
            found.append(("1", name, f"fn {function}: a number for a refusal or a kind"))
        if re.search(r"row_for|BeginsAt|first_use|first_of_rows|Sought|Entered|KeyEntered|FirstEnding|Decides", clauses) and result in ("usize", "u32", "Found"):
            found.append(("1", name, f"fn {function}: a value that stands for none"))
        for m in re.finditer(r"^\s*(while .*|loop) \{", body, re.M):
            if re.search(r"while (?:\w+ < |0 < |\d+ <= )", m[0]) and re.search(r"^\s*\w+ (?:\+=|-=) \w+;|^\s*(\w+) = (?:\1 [+-] 1|next|\w+ \+ 1);", body, re.M):
                found.append(("3", name, f"fn {function}: {m[1]}"))
        if len(parameters) >= 7:
            found.append(("5", name, f"fn {function}: {len(parameters)} parameters"))
        for fact in FACTS:
            if any(fact in clause for clause in re.findall(r"requires.*?(?=^\s*(?:requires|ensures)|\Z)", clauses, re.S | re.M)):
                facts[fact].append((name, function))
for fact, at in facts.items():
    if len(at) >= 3:
        found += [("5", name, f"fn {function}: requires {fact.strip()}") for name, function in at]
for point, name, what in found:
    if want in ("", point):
        print(point, name, what)

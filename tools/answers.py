#!/usr/bin/env python3
"""Turns the proofs that name the parts of a walk (Proof.antt over Tie) into Invariants.antt and Answers.antt.

usage: answers.py NAMES CRATE..   at the top of the repository; NAMES/CRATE/names.json is what rattle writes under --generated DIR --old-names

A goal keeps its answer under its new name; an answer that only searches goes, since the check searches by itself. What is left by hand is printed.
"""

import glob
import json
import os
import re
import sys

PREFIX = re.compile(r"^(overflow|nonzero|bounds|offset-bounds)-")


def norm(name):
    return name.replace("_", "-").replace("·", "")


def blocks(text):
    """Top-level blocks: a comment or a declaration with what is indented below it."""
    out, cur = [], []
    for line in text.split("\n"):
        if line and not line[0].isspace() and not line.startswith(")") and not line.startswith("]"):
            if cur and starts_new(cur, line):
                out.append("\n".join(cur).rstrip())
                cur = []
        cur.append(line)
    if cur:
        out.append("\n".join(cur).rstrip())
    return [b for b in out if b]


def head(line):
    m = re.match(r"(?:(?:abbrev|unfoldable|pub|data|record) )*(\S+)", line)
    return m[1] if m else ""


def starts_new(cur, line):
    first = cur[0]
    if line.startswith("--"):
        return True
    if first.startswith("--"):
        # comments stand with what follows
        decl = next((l for l in cur if not l.startswith("--")), None)
        if decl is None:
            return False
        first = decl
    if line.startswith("use "):
        return True
    if line.startswith("unfolding"):
        return False
    return head(line) != head(first)


def turn(path, names):
    where = os.path.dirname(path)
    text = open(path, encoding="utf-8").read()
    crate = path.split("/")[1]
    fun = where.split("/proofs/")[1]
    key = f"Rattle-{crate}-proofs.{fun.replace('/', '.')}.Lts"
    if key not in names:
        return [f"{path}: no names for {key}"]
    n = names[key]
    left = []
    place = {p[0]: p for p in n["places"]}
    steps = {}
    for p in n["places"]:
        if p[2][0]:
            steps.setdefault(norm(p[2][0]), p[2][1])
    needs = [(norm(a), b) for a, b in n["needs"]]
    uses, decls = [], []
    for b in blocks(text):
        (uses if b.lstrip().startswith("use ") or "\nuse " in b and b.startswith("--") else decls).append(b)
    # comments at the head of the file come with the first use
    by_name = {}
    for b in decls:
        d = next((l for l in b.split("\n") if not l.startswith("--")), "")
        by_name[head(d)] = b
    spec = next((b for b in decls if "tie.spec" in b), None)
    if spec is None:
        return [f"{path}: no tie.spec"]
    order = re.findall(r"[^\s()]+", spec.split("tie.spec", 1)[1])
    order = [o for o in order if o in by_name]
    invs = [o for o in order if "tie.invariant" in by_name[o] or "tie.decreases" in by_name[o]]
    goals = [o for o in order if o not in invs]

    arms = []
    for p, a in zip(n["places"], n["arms"]):
        if a:
            for new, old, way in a[2]:
                if way:
                    arms.append((norm(old), way, f"{a[0]}.{new}"))
    pre = (n["pre"] or {}).get("fields")
    asked = {norm(k): v for k, v in n["asked"].items()}

    def path_sub(s):
        def one(m):
            f = m[2]
            rest = m[3] or ""
            nf = norm(f)
            parts = rest.split(".")[1:]
            best = None
            for old, way, new in arms:
                if old == nf and parts[: len(way)] == way and (best is None or len(way) > best[0]):
                    best = (len(way), new)
            if best:
                return m[1] + "." + best[1] + "".join("." + x for x in parts[best[0]:])
            if nf == "requires" and pre:
                if parts and parts[0].isdigit():
                    return m[1] + ".requires." + pre[int(parts[0])] + "".join("." + x for x in parts[1:])
                left.append(f"{path}: requires whole, which is {pre}")
            if nf in ("args", "requires", "ranges", "initial", "well-formed", "auto", "type-inv"):
                return m[1] + "." + f + rest
            if nf in steps:
                return m[1] + "." + steps[nf] + rest
            left.append(f"{path}: no step {f}")
            return m[1] + "." + f + rest

        return re.sub(r"(?<![\w.'-])(c)(?:\.before)*\.(?!before\b)([^\s(){}.,;]+)((?:\.[^\s(){}.,;]+)*)", one, s)

    def alias(s):
        # let b = c.before.before in .. b.step
        while True:
            m = re.search(r"let (\w+) = (c(?:\.before)+) in\s*", s)
            if not m:
                m = re.search(r"let (\w+) = (c) in\s*", s)
            if not m:
                return s
            s = s[: m.start()] + re.sub(rf"(?<![\w.'-]){m[1]}(?=\.)", m[2], s[m.end():])

    answers, invariants = [], []
    seen = set()
    by_old = {}
    for a, b in needs:
        by_old.setdefault(a, b)
    used = set()
    target = {}
    for i, o in enumerate(goals):
        m = re.search(r"tie\.Need-([^\s)]+)", by_name[o])
        if not m:
            left.append(f"{path}: {o} is no need")
            continue
        old = norm(m[1])
        short = PREFIX.sub("", old)
        new = by_old.get(old) or by_old.get(short)
        if new is None and len(goals) == len(needs):
            new = needs[i][1]
            left.append(f"{path}: by position: {old} -> {new}")
        if new is None:
            left.append(f"{path}: no goal for {old}")
            continue
        if len(goals) == len(needs) and needs[i][1] != new:
            left.append(f"{path}: {old} -> {new}, by position {needs[i][1]}")
        target[o] = new
    # the loops, in the order of the invariants
    def loop_of(o, b):
        m = re.search(r"tie\.(?:invariant|decreases)-(\S+)", b)
        for (pair, vars_), changed in zip(n["loops"], n["changed"]):
            if norm(pair[0]) == norm(m[1]):
                return pair, vars_, changed
        return None

    for o in invs:
        b = by_name[o]
        kind = "invariant" if "tie.invariant" in b else "decreases"
        found = loop_of(o, b)
        if not found:
            left.append(f"{path}: no loop for {o}")
            continue
        pair, vars_, changed = found
        lines = b.split("\n")
        comment = [l for l in lines if l.startswith("--")]
        lines = [l for l in lines if not l.startswith("--")]
        unfolding = [l for l in lines if l.strip().startswith("unfolding")]
        body = "\n".join(l for l in lines[1:] if not l.strip().startswith("unfolding"))
        m = re.match(rf"{re.escape(o)}((?: [^\s=]+)*) =", body)
        if not m:
            left.append(f"{path}: the shape of {o}")
            continue
        params = m[1].split()
        body = body[m.end():]
        want = len(vars_) + sum(changed)
        if len(params) != want:
            left.append(f"{path}: {o} has {len(params)} parameters and {want} are known: {vars_} {changed}")
        sub = {}
        for p, v, ch in zip(params, vars_, changed):
            sub[p] = f"l.initial.{v}" if ch else f"l.{v}"
        rest = params[len(vars_):]
        for p, v in zip(rest, [v for v, ch in zip(vars_, changed) if ch]):
            sub[p] = f"l.{v}"
        body = re.sub(r"(?<![\w.'-])[A-Za-z_][\w'₀₁₂-]*", lambda m: sub.get(m[0], m[0]), body)
        new = f"{kind}-{pair[1]}"
        invariants.append("\n".join(comment + [f"abbrev pub {new} : goal.{new}"] + unfolding + [f"{new} l ={body}"]))
    for b in decls:
        if b is spec:
            continue
        d = next((l for l in b.split("\n") if not l.startswith("--")), "")
        o = head(d)
        if o in invs:
            continue
        if o in target:
            lines = b.split("\n")
            comment = [l for l in lines if l.startswith("--")]
            lines = [l for l in lines if not l.startswith("--")]
            new = target[o]
            k = next((i for i, l in enumerate(lines) if i and re.match(rf"{re.escape(o)}(\s|$)", l)), None)
            if k is None:
                left.append(f"{path}: no body of {o}")
                continue
            between = lines[1:k]
            body = "\n".join(lines[k:])
            body = alias(body[len(o):])
            body = path_sub(body)
            body = re.sub(r"^ c κs\b", " c", body)
            if pre:
                for a in re.findall(r"let (\w+) = c\.requires in", body):
                    body = re.sub(rf"(?<![\w.'-]){a}\.(\d+)", lambda m: f"{a}.{pre[int(m[1])]}", body)
            fields = asked.get(PREFIX.sub("", norm(re.search(r"tie\.Need-([^\s)]+)", lines[0])[1])))
            if fields:
                made = whole_record(body, fields)
                if made:
                    body = made
                else:
                    left.append(f"{path}: {new} is a record of {fields}")
            if not between and re.fullmatch(r" c = search rules", body.strip("\n")):
                continue
            if new in seen:
                left.append(f"{path}: {new} twice")
                continue
            seen.add(new)
            answers.append("\n".join(comment + [f"pub {new} : goal.{new}"] + between + [f"{new}{body}"]))
        else:
            answers.append(path_sub(b))
            if "tie." in b:
                left.append(f"{path}: tie in {o}")
    joined = "\n".join(answers)
    for w in ("branch", "⊎_elim c", ".before", "κs"):
        if w in joined:
            left.append(f"{path}: {w} in an answer")
    for b in answers:
        for m in re.finditer(r"tie\.\S+", b):
            left.append(f"{path}: {m[0]}")
    file_head = [l for u in uses for l in u.split("\n") if l.startswith("--")]
    use_lines = [l for u in uses for l in u.split("\n") if l.startswith("use ") and not l.endswith("Tie as tie") and ".Statement." not in l]
    mod = f"Rattle.{crate}.proofs.{fun.replace('/', '.')}"

    def write(name, module, parts):
        if not parts:
            return
        body = "\n\n".join(parts)
        keep = []
        for u in use_lines:
            m = re.match(r"use (\S+?)\.\{(.*)\}$", u)
            if m:
                items = [x.strip() for x in m[2].split(",")]
                items = [x for x in items if uses_name(x, body)]
                if items:
                    keep.append(f"use {m[1]}.{{{', '.join(items)}}}")
            else:
                keep.append(u)
        with open(os.path.join(where, name), "w", encoding="utf-8") as out:
            out.write("\n".join(file_head + keep + [f"use {mod}.{module} as goal"]) + "\n\n" + body + "\n")

    write("Invariants.antt", "Given", invariants)
    write("Answers.antt", "Goals", answers)
    os.remove(path)
    return left


def whole_record(body, fields):
    """` c = .. (a, b)` as ` c = .. record { f = a; g = b }`: the tuple that ends the body, taken apart at its top."""
    text = body.rstrip()
    if not text.endswith(")"):
        return None
    depth, k = 0, len(text) - 1
    while k >= 0:
        depth += (text[k] in ")]}") - (text[k] in "([{")
        if depth == 0:
            break
        k -= 1
    before, inner = text[:k], text[k + 1: -1]
    if not re.search(r"(=|\bin)\s*$", before):
        return None
    parts, depth, cur = [], 0, ""
    for ch in inner:
        depth += (ch in "([{") - (ch in ")]}")
        if ch == "," and depth == 0:
            parts.append(cur.strip())
            cur = ""
        else:
            cur += ch
    if cur.strip():
        parts.append(cur.strip())
    if len(parts) != len(fields):
        return None
    return before + "record { " + "; ".join(f"{f} = {p}" for f, p in zip(fields, parts)) + " }"


def uses_name(item, body):
    name = item.split(" as ")[-1]
    if "◌" in name:
        word = name.replace("◌", "")
        return word in body
    return re.search(rf"(?<![\w.'-]){re.escape(name)}(?![\w'-])", body) is not None


def main():
    where = sys.argv[1]
    for crate in sys.argv[2:]:
        with open(f"{where}/{crate}/names.json", encoding="utf-8") as it:
            names = json.load(it)
        for path in sorted(glob.glob(f"crates/{crate}/proofs/**/Proof.antt", recursive=True)):
            with open(path, encoding="utf-8") as it:
                if "Tie as tie" not in it.read():
                    print(f"{path}: by hand")
                    continue
            for line in turn(path, names):
                print(line)


if __name__ == "__main__":
    main()

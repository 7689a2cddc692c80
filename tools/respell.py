#!/usr/bin/env python3
"""Spells this repository's own definitions and lemmas as today's Rattle spells names.

usage: respell.py [--list] FOLDER     FOLDER has crates/; --list writes nothing and prints each old and new name

A definition of specs/, a field and a constructor are in snake case, and a type or a fact in upper camel case. A lemma is in
snake case too, with a dash only between the names of two definitions, as in `total-bit`. Names that Rattle makes of the
source, functions of src/, and names that come from a library stay. Run it once, straight after the kit's own scripts.
"""

import collections
import re
import sys
from pathlib import Path

WORD = re.compile(r"[^\s(){}.;,@\"«»:]+")
NAME = r"[A-Za-z][A-Za-z0-9_']*(?:-[A-Za-z0-9_']+)*"
DECLARED = re.compile(rf"^(?P<indent> *)(?:(?:pub|abbrev|unfoldable|data|record|ruleset) +)*(?P<name>{NAME})(?= *(?:\([^:]*:|\{{[^:]*:| *:))")
LET = re.compile(rf"\blet +(?P<name>{NAME}) *(?::|=)")
IMPORT = re.compile(r"\buse +([^\s{;]+?)\.?(?:\{([^}]*)\})?(?:;|$| as)", re.M)


def files(root):
    for crate in sorted(p for p in (root / "crates").iterdir() if p.is_dir()):
        for kind in ("specs", "proofs", "src", "must-fail"):
            if (crate / kind).is_dir():
                yield from sorted(q for q in (crate / kind).rglob("*") if q.suffix in (".antt", ".rt", ".edit"))


def is_made(path):
    """Whether Rattle names the declarations of this file: answers and invariants."""
    return path.name in ("Answers.antt", "Invariants.antt", "Proof.antt", "Choices.antt")


def camel(name):
    return "".join(w[:1].upper() + w[1:] for w in name.split("-"))


def snake(name):
    return name.replace("-", "_")


def collect(root):
    specs, lemmas, foreign, own_modules, words = {}, {}, collections.defaultdict(set), set(), set()
    for p in files(root):
        text = p.read_text()
        crate = p.relative_to(root / "crates").parts
        words.update(WORD.findall(re.sub(r"--[^\n]*", "", text)))
        for m in IMPORT.finditer(text):
            top = m[1].split(".")
            if not (top[0] == "Rattle" and len(top) > 1 and (root / "crates" / top[1]).is_dir()):
                for item in (m[2] or "").split(","):
                    foreign[item.split(" as ")[-1].strip()].add(str(p))
        if p.suffix != ".antt":
            continue
        bare = re.sub(r"--[^\n]*", "", text)
        for line in bare.split("\n"):
            m = DECLARED.match(line)
            if m and "-" in m["name"]:
                if is_made(p) and re.search(rf"{re.escape(m['name'])} *: *goal\.", line):
                    continue
                (specs if crate[1] == "specs" else lemmas).setdefault(m["name"], set()).add(str(p))
            for n in LET.finditer(line):
                if "-" in n["name"]:
                    lemmas.setdefault(n["name"], set()).add(str(p))
    return specs, lemmas, foreign, words


def definitions(root):
    """The names of definitions, as the parts of a lemma's name may have them."""
    found = set()
    for p in files(root):
        if p.suffix == ".antt" and "specs" in p.parts:
            for line in re.sub(r"--[^\n]*", "", p.read_text()).split("\n"):
                m = DECLARED.match(line)
                if m:
                    found.add(m["name"].replace("_", "-"))
    return found


def lemma(name, known):
    if name[0].isupper():
        return camel(name)
    words, parts, i = name.split("-"), [], 0
    while i < len(words):
        for j in range(len(words), i, -1):
            part = "-".join(words[i:j])
            if part in known or j == i + 1:
                parts.append((snake(part), part in known))
                i = j
                break
    text, was_name = parts[0]
    for part, is_name in parts[1:]:
        text += ("-" if was_name and is_name else "_") + part
        was_name = is_name
    return text


def table(root):
    specs, lemmas, foreign, words = collect(root)
    known = definitions(root)
    rows = {}
    for n in specs:
        rows[n] = camel(n) if n[0].isupper() else snake(n)
    for n in lemmas:
        rows.setdefault(n, lemma(n, known))
    rows.update({a: b for a, b in CHOSEN.items() if a in rows})
    return {a: b for a, b in rows.items() if a != b}, specs, lemmas, foreign, words


# Names that would meet another one.
CHOSEN = {"Open-leg": "ModelLeg", "bit-and": "and_bit"}

FIELD_HEADS = {"c", "l", "w", "goal", "given", "a"}


def turn(text, rows, made, fields, keep):
    """Turns whole words. Behind a dot in an answer only what is a field of the repository's own."""
    def one(m):
        word = m[0]
        before = text[: m.start()]
        if word not in rows or (word in keep and not (before.endswith(".") and word in fields)):
            return word
        if made and before.endswith(".") and word not in fields:
            head = re.search(r"[^\s(){};,]*$", before)[0].split(".")[0]
            if head in FIELD_HEADS:
                return word
        return rows[word]

    return WORD.sub(one, text)


def main(argv):
    listing = "--list" in argv
    root = Path([a for a in argv if a != "--list"][0])
    rows, specs, lemmas, foreign, words = table(root)
    meets = collections.defaultdict(list)
    for a, b in rows.items():
        meets[b].append(a)
    for b, olds in sorted(meets.items()):
        if len(olds) > 1:
            print("together:", olds, "->", b)
        if b in words:
            print("taken:", olds, "->", b)
    for a in sorted(rows):
        if a in foreign:
            print("foreign:", a, "->", rows[a], len(foreign[a]))
    if listing:
        for a in sorted(rows):
            print(f"{a}\t{rows[a]}")
        return 0
    fields = set(specs)
    for p in files(root):
        old = p.read_text()
        keep = {a for a in foreign if str(p) in foreign[a]}
        new = turn(old, rows, is_made(p), fields, keep)
        if new != old:
            p.write_text(new)
    for p in [root / "README.md", *sorted((root / "docs").glob("*.md"))]:
        old = p.read_text()
        new = re.sub(r"`([^`\n]+)`", lambda m: "`" + WORD.sub(lambda w: rows.get(w[0], w[0]), m[1]) + "`", old)
        if new != old:
            p.write_text(new)
    return 0


if __name__ == "__main__":
    raise SystemExit(main(sys.argv[1:]))

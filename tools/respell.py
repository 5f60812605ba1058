#!/usr/bin/env python3
"""Spells this repository's own definitions, lemmas and record fields as Rattle's naming rules ask.

Run once, at the top of the repository, after port.py: words in snake case, facts and types in upper camel case. Names that
Rattle makes (goals, invariants, steps), names of std and names of src/ stay. Strings and Rust comments stay, pages change
between back quotes only.
"""
import glob
import re
import sys

DECLARED = re.compile(
    r"^\s*(?:unfoldable )?(?:abbrev )?(?:pub )?(?:unfoldable )?(?:abbrev )?(record |data )?([^\s(){}:;,.|]+)"
    r"((?: *\([^)]*\)| *\{[^}]*\})*)\s*:\s")
RECORD = re.compile(r"^\s*(?:pub )?(?:record|data) ([^\s(){}:;,.|]+)")
TOKEN = re.compile(r"[^\s(){}\[\];,.:\"@|`]+")
# Facts that had a lower-case name.
FACTS = {"at-least-as-good": "AtLeastAsGood"}


def antt_files():
    return sorted(f for part in ("specs", "proofs") for f in glob.glob(f"crates/*/{part}/**/*.antt", recursive=True))


def declared_names():
    names, made = set(), set()
    for f in antt_files():
        for line in open(f):
            if line.lstrip().startswith(("--", "use ", "ghost use ")):
                continue
            m = RECORD.match(line)
            if m and "-" in m.group(1):
                names.add(m.group(1))
            m = DECLARED.match(line)
            if not m:
                continue
            name, rest = m.group(2), line[m.end():]
            if re.match(r"\s*goal\.", rest):
                made.add(name)
            elif "-" in name:
                names.add(name)
    return names - made


def imported_from_std(text):
    """Names that a file imports from outside the repository."""
    own = {p.split("/")[1] for p in glob.glob("crates/*/")}
    found = set()
    for m in re.finditer(r"use ([\w.]+)(?: as \w+)?\.\{([^}]*)\}", text):
        path = m.group(1).split(".")
        if path[0] == "Rattle" and len(path) > 1 and path[1] in own:
            continue
        for item in m.group(2).split(","):
            found.add(item.strip().split(" as ")[-1])
    return found


def respelt(name):
    if name in FACTS:
        return FACTS[name]
    parts = name.split("-")
    if name[0].isupper():
        return "".join(p[:1].upper() + p[1:] for p in parts)
    return "_".join(parts)


def turn(text, table):
    return TOKEN.sub(lambda m: table.get(m.group(0), m.group(0)), text)


def turn_rust(text, table):
    """Outside comments and strings."""
    out, last = [], 0
    for m in re.finditer(r"//[^\n]*|\"(?:\\.|[^\"\\])*\"", text):
        out += [turn(text[last:m.start()], table), m.group(0)]
        last = m.end()
    return "".join(out + [turn(text[last:], table)])


def turn_page(text, table):
    return re.sub(r"`[^`\n]+`", lambda m: turn(m.group(0), table), text)


def main():
    table = {n: respelt(n) for n in declared_names()}
    back = {}
    for old, new in table.items():
        back.setdefault(new, []).append(old)
    for new, olds in back.items():
        if len(olds) > 1:
            print("falls together:", new, olds)
    changed = 0
    files = antt_files() + sorted(glob.glob("crates/*/src/**/*.rt", recursive=True))
    files += sorted(glob.glob("crates/*/must-fail/*.edit")) + sorted(glob.glob("docs/*.md")) + ["README.md"]
    for f in files:
        text = open(f).read()
        std = imported_from_std(text)
        here = {o: n for o, n in table.items() if o not in std}
        tokens = set(TOKEN.findall(text))
        for old, new in here.items():
            if old in tokens and new in tokens and "--check" in sys.argv:
                print("meets:", f, old, new)
        if f.endswith(".md"):
            new_text = turn_page(text, here)
        elif f.endswith((".rt", ".edit")):
            new_text = turn_rust(text, here)
        else:
            new_text = turn(text, here)
        if new_text != text and "--check" not in sys.argv:
            open(f, "w").write(new_text)
            changed += 1
    print(f"respell: {len(table)} names, {changed} files")


main()

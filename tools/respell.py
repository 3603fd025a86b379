#!/usr/bin/env python3
"""Brings the repository's own definitions and lemmas to one spelling: words in snake case, types in camel case.

usage: python3 tools/respell.py          at the top of the repository: rewrites specs/, proofs/, clauses and the pages

Names that come from src/, from the library, or that the check makes for goals keep their spelling. It was run once, after the kit's own
script; a second run changes nothing.
"""

import os
import re
import sys

NAME = r"[A-Za-z_][\w']*(?:-[\w']+)*"
MARKS = r"(?:(?:pub|abbrev|unfoldable|pattern)\s+)*"
ANSWERS = ("Answers.antt", "Invariants.antt", "Choices.antt", "Proof.antt")


def files(root, ends):
    for folder, dirs, names in os.walk(os.path.join(root, "crates")):
        dirs[:] = sorted(d for d in dirs if d not in ("out", "must-fail"))
        for name in sorted(names):
            if name.endswith(ends):
                yield os.path.join(folder, name)


def read(path):
    with open(path, encoding="utf-8") as f:
        return f.read()


def declared(root):
    """The names that our own definitions, lemmas, records, fields and constructors have; goals' names in answer files are not ours."""
    names = set()
    for path in files(root, (".antt",)):
        answers = os.path.basename(path) in ANSWERS
        for line in read(path).splitlines():
            line = line.split("--")[0]
            m = re.match(rf"\s*{MARKS}(?:record|data)\s+({NAME})", line)
            m = m or re.match(rf"\s*{MARKS}({NAME}(?:\s+{NAME})*)\s*:", line)
            if m and not (answers and ("goal." in line or line.startswith("abbrev pub "))):
                names |= {w for w in m.group(1).split() if "-" in w}
        names |= {w for w in re.findall(rf"\bas\s+({NAME})", read(path)) if "-" in w}
    for path in files(root, (".rt",)):
        names |= {w for w in re.findall(rf"\bas\s+({NAME})", read(path)) if "-" in w}
    return names


def respelled(name):
    if name[0].isupper():
        return "".join(w[:1].upper() + w[1:] for w in name.split("-"))
    return name.replace("-", "_")


def borrowed(text):
    """What a file takes from the library keeps its name there."""
    names = set()
    for m in re.finditer(r"\buse\s+(?:Rattle\.(?:std|core)|mathlib|lib)\b[^{;\n]*\{([^}]*)\}", text):
        names |= {w.split(" as ")[0].strip() for w in m.group(1).split(",") if " as " not in w}
    return names


def turn(text, names, comment):
    found = re.compile(rf"(?<![\w'-])({NAME})(?![\w'-])")
    keep = borrowed(text)

    def word(m):
        w = m.group(1)
        return respelled(w) if w in names and w not in keep else w

    # A string's text is no name.
    spoken = re.compile(rf'"(?:[^"\\]|\\.)*"|{found.pattern}')

    def name_or_text(m):
        return m.group(0) if m.group(0).startswith('"') else word(m)

    lines = []
    for line in text.split("\n"):
        code, mark, rest = line.partition(comment)
        rest = re.sub(r"`[^`]*`", lambda m: found.sub(word, m.group(0)), rest)
        lines.append(spoken.sub(name_or_text, code) + mark + rest)
    return "\n".join(lines)


def main():
    root = "."
    names = declared(root)
    clash = {}
    for name in names:
        clash.setdefault(respelled(name), set()).add(name)
    for new, olds in sorted(clash.items()):
        if len(olds) > 1:
            print(f"fall together: {', '.join(sorted(olds))} -> {new}")
    have = {}
    for path in files(root, (".antt", ".rt")):
        for w in re.findall(NAME, read(path)):
            have.setdefault(w, set()).add(os.path.relpath(path, root))
    for name in sorted(names):
        there = have.get(respelled(name), set()) & have.get(name, set())
        if there:
            print(f"look: {name} -> {respelled(name)}, which stands already in {', '.join(sorted(there))}")
    changed = 0
    for path in files(root, (".antt", ".rt")):
        old = read(path)
        new = turn(old, names, "--" if path.endswith(".antt") else "//")
        if new != old:
            changed += 1
            with open(path, "w", encoding="utf-8") as f:
                f.write(new)
    ours = {w for path in files(root, (".antt",)) for w in re.findall(NAME, read(path))}
    pages = ["README.md"] + [os.path.join("docs", p) for p in sorted(os.listdir("docs")) if p.endswith(".md") and p != "PORT.md"]
    for path in pages:
        old = read(path)
        paged = {w for w in re.findall(NAME, old) if "-" in w and (w in names or respelled(w) in ours)}
        new = re.sub(r"`[^`\n]*`", lambda m: turn(m.group(0), paged, "\0"), old)
        if new != old:
            changed += 1
            with open(path, "w", encoding="utf-8") as f:
                f.write(new)
    print(f"respell: {len(names)} names, {changed} files changed")
    return 0


if __name__ == "__main__":
    sys.exit(main())

#!/usr/bin/env python3
"""Spells the repository's own definitions and lemmas as today's library spells its own: words in snake case, types in camel case.

tools/respell.py [TOP], once, behind port.py of the kit. A name is one that a file of specs/ or proofs/ declares with a dash in it. Names
that the check makes (goals, invariants, measures) are left, and so are those that a file brings in from the library. In proofs/ the
names of the code, of which an older check made dashed ones, get the code's own spelling. Comments and strings are left.
It prints the names that fall together.
"""
import collections
import pathlib
import re
import sys

TOP = pathlib.Path(sys.argv[1] if len(sys.argv) > 1 else pathlib.Path(__file__).resolve().parent.parent)
NAME = r"[A-Za-z][A-Za-z0-9_']*(?:-[A-Za-z0-9_']+)+"
TOKEN = re.compile(rf"(?<![A-Za-z0-9_'-])({NAME})(?![A-Za-z0-9_'-])")
DECLARED = re.compile(r"^\s*(?:(?:abbrev|unfoldable|pub|data|record)\s+)*([A-Za-z][A-Za-z0-9_'-]*)(?=[\s(:{])(?:[^:]*?\s)?:\s(.*)$")
MADE = re.compile(r"^(goal|need|given)\.")


def files(kind, *folders):
    return sorted(p for folder in folders for p in TOP.glob(f"crates/*/{folder}/**/*.{kind}"))


def respelled(name):
    parts = name.split("-")
    if name[0].isupper():
        return "".join(part[0].upper() + part[1:] for part in parts)
    return "_".join(parts).lower()


def code(line, comment):
    at = re.search(rf"(^|\s){comment}", line)
    return (line[: at.start()], line[at.start():]) if at else (line, "")


def own_names():
    found = set()
    for path in files("antt", "specs", "proofs"):
        for line in path.read_text().splitlines():
            declared = DECLARED.match(code(line, "--")[0])
            if declared and "-" in declared.group(1) and not MADE.match(declared.group(2)):
                found.add(declared.group(1))
    return found


def names_of_code():
    found = set()
    for path in files("rt", "src"):
        for line in path.read_text().splitlines():
            found.update(re.findall(r"\b[a-z][a-z0-9]*(?:_[a-z0-9]+)+\b", code(line, "//")[0]))
    return {name.replace("_", "-"): name for name in found}


def from_library(text):
    found = set()
    for names in re.findall(r"use (?:Rattle\.std|mathlib|Prim|native|lib|borrow|logic)[^\n{]*\{([^}]*)\}", text):
        found.update(re.split(r"[,\s]+", names))
    return found


def turned(path, names, comment):
    text = path.read_text()
    kept = from_library(text)
    lines = []
    for line in text.split("\n"):
        body, rest = code(line, comment)
        pieces = re.split(r'("(?:[^"\\]|\\.)*")', body)
        for i in range(0, len(pieces), 2):
            pieces[i] = TOKEN.sub(lambda m: names.get(m.group(1), m.group(1)) if m.group(1) not in kept else m.group(1), pieces[i])
        lines.append("".join(pieces) + rest)
    return text, "\n".join(lines)


def main():
    own = {name: respelled(name) for name in own_names()}
    olds = collections.defaultdict(set)
    for old, new in own.items():
        olds[new].add(old)
    for new, those in sorted(olds.items()):
        if len(those) > 1:
            print(f"fall together everywhere: {' '.join(sorted(those))} are {new}")
    proofs = {**names_of_code(), **own}
    count = 0
    for path in files("antt", "specs", "proofs") + files("rt", "src"):
        comment = "--" if path.suffix == ".antt" else "//"
        names = proofs if "proofs" in path.parts else own
        text, new = turned(path, names, comment)
        before = set(re.findall(r"[A-Za-z][A-Za-z0-9_'-]*", text))
        for old in sorted(before & own.keys()):
            if own[old] in before:
                print(f"falls together: {path.relative_to(TOP)}: {old} and {own[old]}")
        if new != text:
            path.write_text(new)
            count += 1
    print(f"respelled: {len(own)} names, {count} files")


if __name__ == "__main__":
    main()

#!/usr/bin/env python3
"""Respells the repository's own definitions and lemmas once, from names with dashes to the spelling of today's Rattle.

A type or a fact (a record, a data type, a definition of a Type 0) goes to upper camel case; every other name of ours goes to snake
case. Names of the library and names that the check makes keep their dashes. Run it once, at the top, on files that port.py has
turned; it prints names that would fall together and then writes nothing.
"""
import collections
import os
import re
import sys

LETTER = r"A-Za-z0-9_'\u2032\u2115\u2124\u207b\u00b7\u0370-\u03ff\-"
TOKEN = re.compile(rf"(?<![{LETTER}])[A-Za-z][{LETTER}]*")
HEAD = re.compile(r"^(\s*)(?:abbrev pub |unfoldable pub |abbrev |unfoldable |pub )?(record|data)\s+(\S+)")
SIGNED = re.compile(r"^(\s*)(?:abbrev pub |unfoldable pub |abbrev |unfoldable |pub )?([^\s(){}:.]+(?: [^\s(){}:.]+)*) :(?: |$)(.*)")


# names whose plain respelling would be a word of the library
CHOSEN = {"Is-true": "IsTrueFormula", "Is-false": "IsFalseFormula"}


def files(*ends):
    for folder, dirs, names in os.walk("crates"):
        dirs[:] = sorted(d for d in dirs if d != "out")
        for name in sorted(names):
            if name.endswith(ends):
                yield os.path.join(folder, name)


def text(path):
    with open(path, encoding="utf-8") as f:
        return f.read()


def code(line):
    """A line without its comment."""
    return re.sub(r"(^|\s)--(\s.*)?$", "", line)


def own_names():
    """Every name that a file of specs/ or proofs/ declares, and whether it is a type or a fact."""
    found = collections.defaultdict(list)
    for path in files(".antt"):
        lines = [code(l) for l in text(path).split("\n")]
        for k, line in enumerate(lines):
            if line.startswith("use "):
                continue
            if m := HEAD.match(line):
                found[m[3]].append((path, True))
                continue
            if m := SIGNED.match(line):
                signature = [m[3]]
                for more in lines[k + 1:]:
                    if len(more) - len(more.lstrip()) <= len(m[1]):
                        break
                    signature.append(more.strip())
                whole = " ".join(signature).strip()
                if whole.startswith("goal."):
                    continue
                for name in m[2].split():
                    found[name].append((path, whole.endswith("Type 0")))
    return found


def turned(line, mark, table):
    """A line with our names respelled, but for its comment and its strings."""
    at = re.search(r"(^|\s)" + mark + r"(\s|$)", line)
    head, tail = (line[:at.start()], line[at.start():]) if at else (line, "")
    parts = re.split(r'("(?:[^"\\\\]|\\\\.)*")', head)
    return "".join(p if k % 2 else TOKEN.sub(lambda m: table.get(m[0], m[0]), p) for k, p in enumerate(parts)) + tail


def respelled(name, is_type):
    if name in CHOSEN:
        return CHOSEN[name]
    if is_type and name[0].isupper():
        parts = name.replace("\u2032", "'").split("-")
        return "".join(p[:1].upper() + p[1:] for p in parts)
    return name.replace("-", "_").replace("\u2032", "'")


def main():
    found = own_names()
    table = {}
    for name, places in found.items():
        if "-" in name or "\u2032" in name:
            kinds = {t for _, t in places}
            if len(kinds) > 1:
                print(f"both a type and none: {name} {places}")
            table[name] = respelled(name, True in kinds)
    taken = collections.Counter(table.values())
    bad = [f"two names fall together: {n}" for n, k in taken.items() if k > 1]
    bad += [f"taken already, by a name of ours: {old} -> {new} {sorted({p for p, _ in found[new]})[:2]}" for old, new in table.items() if new in found]
    imported = set()
    for path in files(".antt", ".rt"):
        for m in re.finditer(r"use Rattle\.std\.[\w.]*\.\{([^}]*)\}", text(path)):
            imported |= {w.strip() for w in m[1].split(",")}
    bad += [f"taken already, by the library: {old} -> {new}" for old, new in table.items() if new in imported]
    code_words = collections.defaultdict(set)
    for path in files(".rt"):
        t = re.sub(r"(?m)//.*$", "", text(path))
        t = re.sub(r"(?m)^\s*(?:ghost use|ghost|requires|ensures).*$", "", t)
        for m in re.finditer(r"[A-Za-z_][A-Za-z0-9_]*", t):
            code_words[m[0]].add(path)
    for old, new in sorted(table.items()):
        if new in code_words:
            print(f"also a word of the code: {new} {sorted(code_words[new])[:3]}")
    for line in bad:
        print(line)
    if bad and "--force" not in sys.argv:
        return 1
    if "--write" in sys.argv:
        for path in files(".antt", ".rt", ".edit"):
            old = text(path)
            mark = "--" if path.endswith(".antt") else "//"
            new = "\n".join(turned(line, mark, table) for line in old.split("\n"))
            if new != old:
                with open(path, "w", encoding="utf-8") as f:
                    f.write(new)
    for old, new in sorted(table.items()):
        print(f"{old} -> {new}")
    return 0


if __name__ == "__main__":
    raise SystemExit(main())

#!/usr/bin/env python3
"""Brings this repository's own definitions, lemmas and record fields to snake case.

usage: python3 tools/respell.py [--dry]     at the top of the repository, once, after port.py

A name that is defined in specs/ or in a lemma file of proofs/ (not in a function's folder) and has a capital letter inside, or a
hyphen, is written with underscores, wherever it stands as a whole word: in .antt files, in the clauses of .rt files, and in
must-fail edits. A name that a file imports from the toolchain's library keeps its spelling there. Names of functions in src/,
types and modules stay. Of names that would fall together, the lemma or field gets "_law" behind it; they are printed.
"""
import os
import re
import sys

OWN = re.compile(r"Rattle\.(\w+)\.(specs|proofs)")
WORD = re.compile(r"[^\s(){}\[\].;,@«»\"`:·]+")
# lemmas and fields that stood in snake case already, where a definition of the same file gets that spelling now
LAWS = ("at_front", "left_over", "move_row", "no_move")
# of names that would fall together, the definition gets the plain spelling, and the lemma or field "_law" behind it
APART = {}


def files(top, ends):
    for d, ds, fs in os.walk(os.path.join(top, "crates")):
        ds[:] = sorted(x for x in ds if x not in ("out", ".git"))
        for f in sorted(fs):
            if f.endswith(ends):
                yield os.path.join(d, f)


def is_lemma_file(p):
    return "/specs/" in p or re.search(r"/proofs/[A-Za-z0-9_]+\.antt$", p)


def snake(name):
    if name in APART:
        return APART[name]
    out = name.replace("-", "_")
    out = re.sub(r"(?<=[a-z0-9'])([A-Z])", lambda m: "_" + m.group(1).lower(), out)
    out = re.sub(r"([A-Z])", lambda m: m.group(1).lower(), out)
    return re.sub(r"__+", "_", out)


def code(line):
    i = line.find("--")
    return line if i < 0 else line[:i]


def defined(p):
    """Names that a file of definitions or lemmas declares: at the left margin, as a field of a record, or in a module."""
    names = set()
    with open(p, encoding="utf-8") as f:
        for line in f:
            c = code(line.rstrip("\n"))
            m = re.match(r"(?:abbrev |unfoldable )?(?:pub )?([^\s(){}\[\].;,@«»\"]+)\s*:", c)
            if m:
                names.add(m.group(1))
            m = re.match(r"\s+(?:pub )?([^\s(){}\[\].;,@«»\"]+)\s*:", c)
            if m:
                names.add(m.group(1))
    return names


def main(argv):
    dry = "--dry" in argv
    top = os.getcwd()
    crates = set(os.listdir(os.path.join(top, "crates")))
    own = set()
    for p in files(top, ".antt"):
        if is_lemma_file(p):
            own |= defined(p)
    turn = {}
    for n in own:
        if re.match(r"^[a-z]", n) and re.search(r"[A-Z]|[A-Za-z0-9']-[A-Za-z0-9]", n):
            turn[n] = snake(n)
        elif re.match(r"^(get|set)D-", n):
            turn[n] = snake(n)
    by = {}
    for n in sorted(turn):
        by.setdefault(turn[n], []).append(n)
    for new, olds in sorted(by.items()):
        if len(olds) > 1 or new in own:
            for n in olds:
                if "-" in n:
                    turn[n] = new + "_law"
            print("falls together:", new, "<-", ", ".join(olds), "and itself" if new in own else "", "now", ", ".join(turn[n] for n in olds))
    changed = 0
    for p in files(top, (".antt", ".rt", ".edit")):
        with open(p, encoding="utf-8") as f:
            text = f.read()
        theirs = set()
        for m in re.finditer(r"use ([\w.'+-]+)\.\{([^}]*)\}", text):
            mod = m.group(1).split(".")
            if not (mod[0] == "Rattle" and len(mod) > 1 and mod[1] in crates):
                theirs |= {w.split(" as ")[0].strip() for w in m.group(2).split(",")}
        is_rt = p.endswith(".rt")
        lines = text.split("\n")
        out = []
        for line in lines:
            def one(m):
                w = m.group(0)
                if w in LAWS and (is_lemma_file(p) or p.endswith(".edit")) and w not in theirs:
                    return w + "_law"
                if w in turn and w not in theirs:
                    if comment and "-" in w and not told(line, m):
                        return w
                    return turn[w]
                return w
            mark = "//" if is_rt else "--"
            i = line.find(mark)
            if p.endswith(".edit") and line.startswith("#"):
                i = 0
            if i < 0:
                comment = False
                out.append(WORD.sub(one, line))
            else:
                comment = False
                head = WORD.sub(one, line[:i])
                comment = True
                out.append(head + WORD.sub(lambda m: one(m), line[i:]))
        new = "\n".join(out)
        if new != text:
            changed += 1
            if not dry:
                with open(p, "w", encoding="utf-8") as f:
                    f.write(new)
    print(f"{len(turn)} names, {changed} files")


def told(line, m):
    """In a comment a word with a hyphen is a name only where it is cited: in backquotes, or behind a file's name and a dot."""
    a = m.string[max(0, m.start() - 1):m.start()]
    b = m.string[m.end():m.end() + 1]
    return (a == "`" and b == "`") or a == "."


if __name__ == "__main__":
    main(sys.argv[1:])

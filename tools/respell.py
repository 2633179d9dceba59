#!/usr/bin/env python3
"""Gives the definitions, record fields, statements and lemmas of this repository the library's spelling.

usage: tools/respell.py [ROOT]        rewrites the .rt and .antt files below ROOT/crates in place

A word is in snake case, a fact or a statement in upper camel case: `max-events` becomes `max_events`, `Times-exactly` becomes
`TimesExactly`. A dash stays where it joins two words, as in a lemma on `length (stops ..)`. Names of the library, names that the
checker makes, and names of src/ are left. Says which names fall together, and then writes nothing.
"""

import os
import re
import sys

DASH_JOINS = {"length-stops", "length-waiting", "yes-++"}
RESPELLED = {"getD-in": "get_or_in"}
MADE = ("Answers.antt", "Invariants.antt", "Choices.antt")
HEAD = re.compile(r"^\s*(?:(?:abbrev|unfoldable|opaque|pub|record|data|let)\s+)*([^\s:(){}⟨;=,.]+)((?:\s+[^\s:(){}⟨;=,.]+)*)\s*:(?!:)")
BINDER = re.compile(r"[({λ]\s*((?:[^\s:(){};=,.]+\s+)*[^\s:(){};=,.]+)\s*:")
LET = re.compile(r"(?:let\s+|^\s+)([^\s:(){}⟨;=,.]+)(?:\s*:.*)?\s=\s")
LAMBDA = re.compile(r"λ\s+([^.(){}]+)\.")
MODULE = re.compile(r"^module _ (.*) where")
STD = re.compile(r"^\s*(?:ghost )?use Rattle\.std\.[^{]*\{([^}]*)\}")
TOKEN = re.compile(r"[^\s(){};,.`\"]+")


def files(root):
    for folder, dirs, names in os.walk(os.path.join(root, "crates")):
        dirs[:] = sorted(d for d in dirs if d != "out")
        for name in sorted(names):
            if name.endswith((".rt", ".antt")):
                yield os.path.join(folder, name)


def code_of(line, comment):
    """The line without its comment, and the comment."""
    at = -1
    for m in re.finditer(re.escape(comment) + r"(?=\s|$)", line):
        if m.start() == 0 or line[m.start() - 1].isspace():
            at = m.start()
            break
    return (line, "") if at < 0 else (line[:at], line[at:])


def read(root):
    return {p: open(p, encoding="utf-8").read().split("\n") for p in files(root)}


def declared(texts):
    """Names with a dash that files of definitions and lemmas declare or bind, and the library's that files import."""
    own, library, plain = set(), set(), set()
    for path, lines in texts.items():
        comment = "--" if path.endswith(".antt") else "//"
        for line in lines:
            m = STD.match(line)
            if m:
                library |= {w.strip().split(" as ")[0] for w in m.group(1).split(",")}
                continue
            if line.lstrip().startswith(("use ", "ghost use ", comment)) or path.endswith(".rt"):
                continue
            code = code_of(line, comment)[0]
            found = []
            m = HEAD.match(code)
            if m and not (os.path.basename(path) in MADE and ": goal." in code):
                found += [m.group(1), *m.group(2).split()]
            for m in BINDER.finditer(code):
                found += m.group(1).split()
            for m in LET.finditer(code):
                if os.path.basename(path) not in MADE or "let " in m.group(0):
                    found.append(m.group(1))
            for m in LAMBDA.finditer(code):
                found += m.group(1).split()
            for name in found:
                (own if "-" in name.strip("-") else plain).add(name)
    own = {n for n in own if re.fullmatch(r"[A-Za-z][\w+']*(?:-[\w+']+)+", n)}
    return own, library, plain


def respelled(name):
    if name in RESPELLED:
        return RESPELLED[name]
    if name in DASH_JOINS:
        return name
    if name[0].isupper():
        return "".join(w[0].upper() + w[1:] for w in name.split("-"))
    return name.replace("-", "_")


def turned(line, path, table):
    comment = "--" if path.endswith(".antt") else "//"
    code, rest = code_of(line, comment)
    if path.endswith(".rt"):
        pieces = re.split(r'("(?:[^"\\]|\\.)*")', code)
    else:
        pieces = [code]
    for i in range(0, len(pieces), 2):
        pieces[i] = TOKEN.sub(lambda m: table.get(m.group(0), m.group(0)), pieces[i])
    return "".join(pieces) + rest


def main(root):
    texts = read(root)
    own, library, plain = declared(texts)
    both = sorted(own & library)
    table = {n: respelled(n) for n in sorted(own - library) if respelled(n) != n}
    fall = sorted(n for n, to in table.items() if to in plain)
    fall += sorted(n for n in table if sum(1 for m in table.values() if m == table[n]) > 1)
    for n in both:
        print(f"left: {n} is also a name of the library's")
    for n in fall:
        print(f"falls together: {n} and {table[n]}")
    if fall:
        return 1
    changed = 0
    for path, lines in texts.items():
        new = [turned(l, path, table) for l in lines]
        if new != lines:
            open(path, "w", encoding="utf-8").write("\n".join(new))
            changed += 1
    print(f"respelled {len(table)} names in {changed} files")
    if "-v" in sys.argv:
        print(" ".join(f"{a}>{b}" for a, b in table.items()))
    return 0


if __name__ == "__main__":
    raise SystemExit(main(next((a for a in sys.argv[1:] if not a.startswith("-")), ".")))

#!/usr/bin/env python3
"""Lists the places in crates/*/src where an older form of the language may stand, point by point.

Usage: tools/places.py [FOLDER]    (the repository to read; this one if none is named)
       tools/places.py -c [FOLDER] (the counts alone)

It goes by text, so each line is a place to look at, not a verdict: docs/DESIGN-PASS.md says what became of each.
"""
import collections
import pathlib
import re
import sys

ARGS = [a for a in sys.argv[1:] if a != "-c"]
TOP = pathlib.Path(ARGS[0]) if ARGS else pathlib.Path(__file__).resolve().parent.parent
CRATES = [line.split(":")[0] for line in (TOP / "crates.txt").read_text().splitlines() if ":" in line]


class Function:
    """A function of src/: where it stands, its head up to the body, its clauses and its body."""

    def __init__(self, path, line, head, body):
        self.path, self.line, self.head, self.body = path, line, head, body
        self.name = re.search(r"\bfn (\w+)", head).group(1)
        inner = head[head.index("(", head.index("fn ")) + 1:]
        depth, parts, part = 1, [], ""
        for c in inner:
            depth += c in "([<{"
            depth -= c in ")]}" or (c == ">" and not part.endswith("-"))
            if depth == 0:
                break
            if c == "," and depth == 1:
                parts.append(part)
                part = ""
            else:
                part += c
        self.params = [p.strip() for p in parts + [part] if p.strip()]
        self.clauses = re.findall(r"^\s*(?:requires|ensures)(?: \w+)? (\{.*\})\s*$", head, re.M)


def functions(path):
    """The functions of a file that rt fmt laid out: a body ends at a line of its own indentation."""
    lines = path.read_text().splitlines()
    found, at = [], 0
    while at < len(lines):
        start = re.match(r"(\s*)(?:pub(?:\([a-z]+\))? )?(?:const |final |unsafe )*fn \w+", lines[at])
        if not start:
            at += 1
            continue
        indent, end, opens = start.group(1), at, None
        while end < len(lines):
            text = lines[end]
            if opens is None and (text == indent + "{" or (text.endswith(" {") and not text.lstrip().startswith(("requires", "ensures")))):
                opens = end
            if text == indent + "}" or text.endswith("{}") or (opens is None and text.endswith(";")):
                break
            end += 1
        opens = end if opens is None else opens
        found.append(Function(path.relative_to(TOP), at + 1, "\n".join(lines[at:opens + 1]), "\n".join(lines[opens + 1:end])))
        at = end + 1
    return found


FILES = [p for c in CRATES for p in sorted((TOP / "crates" / c / "src").rglob("*.rt"))]
FUNCTIONS = [f for p in FILES for f in functions(p)]


def lines(pattern, files=FILES):
    out = []
    for p in files:
        for n, text in enumerate(p.read_text().splitlines(), 1):
            if re.search(pattern, text) and not text.lstrip().startswith("//"):
                out.append(f"{p.relative_to(TOP)}:{n}: {text.strip()}")
    return out


def told(fs, what=lambda f: ""):
    return [f"{f.path}:{f.line}: fn {f.name}{what(f)}" for f in fs]


def shape(text):
    """The code with every name of a value or type replaced by one word, so that copies under other names fall together."""
    return re.sub(r"\s+", " ", re.sub(r"\b[A-Za-z_]\w*\b", lambda m: m.group(0) if m.group(0) in KEPT else "x", text)).strip()


KEPT = set("if else match for while let mut return Some None Ok Err in fn as self true false".split())


def alike():
    """Functions with the same body but for names, in groups; bodies of one short call are not told."""
    groups = collections.defaultdict(list)
    for f in FUNCTIONS:
        if len(f.body) > 25:
            groups[shape(f.body)].append(f)
    return [f"{f.path}:{f.line}: fn {f.name}, alike in {len(g)}" for g in groups.values() if len(g) > 1 for f in g]


def constants():
    found = collections.defaultdict(list)
    for p in FILES:
        for n, text in enumerate(p.read_text().splitlines(), 1):
            c = re.match(r"\s*(?:pub )?const (\w+): [ui]\d*\w* = ([\d_-]+);", text)
            if c:
                found[(c.group(1), c.group(2).replace("_", ""))].append(f"{p.relative_to(TOP)}:{n}: {text.strip()}")
    return [t for g in found.values() if len(g) > 1 for t in g]


def repeated_clauses():
    found = collections.defaultdict(set)
    for f in FUNCTIONS:
        for c in f.clauses:
            found[re.sub(r"\s+", " ", c)].add((str(f.path), f.name))
    return [f"{len(v)} functions: {c}" for c, v in sorted(found.items()) if len(v) > 2]


READER = re.compile(r"^\s*(?:\w+\()?&?\w+\[[^\]]+\](?:\.\w+)?\)?$")

POINTS = [
    ("1a enums of our own", lambda: lines(r"^\s*(pub )?enum ")),
    ("1b functions that answer a number, or nothing, for a refusal", lambda: told(f for f in FUNCTIONS if re.search(r"-> (Option<usize>|\(u8, usize\)|Result<\(u8, usize\))", f.head))),
    ("1c functions handed places held as one more, with 0 for none", lambda: told(f for f in FUNCTIONS if any(re.match(r"(heads|nexts|parents): &(mut )?\[u16\]", p) for p in f.params))),
    ("1d lists of such places made", lambda: lines(r"= \[0u16;")),
    ("2a functions alike but for names", alike),
    ("2b constants that stand more than once", constants),
    ("2c functions that only read or write an entry", lambda: told(f for f in FUNCTIONS if READER.match(f.body) or re.match(r"^\s*\w+\[[^\]]+\](\.\w+)? = [^;]*;$", f.body))),
    ("3a loops over a range", lambda: lines(r"^\s*for \w+ in .*\.\.")),
    ("3b while loops", lambda: lines(r"^\s*while ")),
    ("4a order, equality, conversion or printing by hand", lambda: lines(r"^\s*(pub )?fn (below|eq|ne|cmp|partial_cmp|from|try_from|fmt|clone|default)\b")),
    ("4b fields compared or told one by one", lambda: lines(r"\((\w+)\.\w+, \1\.\w+, \1\.\w+|Layer::\w+ => \"")),
    ("4c matches that only ask whether", lambda: [t for f in FUNCTIONS if re.search(r"(None|Some\(_\)) => (true|false),\s*\n\s*(None|Some\(_\)) => (true|false)", f.body) for t in told([f])]),
    ("5a functions with five parameters or more", lambda: told((f for f in FUNCTIONS if len(f.params) > 4), lambda f: f", {len(f.params)}")),
    ("5b clauses that stand in three functions or more", repeated_clauses),
    ("6a a list with the number of its entries beside it", lambda: told(f for f in FUNCTIONS if any(re.match(r"n: usize", p) for p in f.params) and any("[" in p for p in f.params))),
    ("6b types that hold a number beside a list, or two lists", lambda: structs()),
    ("6c functions handed parallel lists", lambda: told(f for f in FUNCTIONS if {"labels", "parents"} <= names(f) or {"rules", "weights"} <= names(f) or {"rules", "flags"} <= names(f))),
    ("7 matches on which step to run, tables of functions", lambda: lines(r"match counting|Counting::\w+,|fn\(\w+\) ->|dyn Fn")),
    ("8a lines of proofs/", lambda: [f"{c}: {n}" for c, n in proof_lines() for _ in range(n)]),
    ("8b lemmas of our own", lambda: lemma_names()),
]


def names(f):
    return {p.split(":")[0].replace("mut ", "").strip() for p in f.params}


def structs():
    out = []
    for p in FILES:
        for m in re.finditer(r"struct (\w+)[^;{]*\{(.*?)\n\}", p.read_text(), re.S):
            fields = [t for t in m.group(2).splitlines() if re.match(r"\s*(pub )?\w+:", t)]
            lists = [t for t in fields if "[" in t or "Lent" in t or "Vec<" in t]
            if len(lists) > 1 or (lists and any(re.search(r": (usize|u16|u32)", t) for t in fields)) or re.search(r"times: Times", m.group(2)):
                out.append(f"{p.relative_to(TOP)}: struct {m.group(1)}")
    return out


def proof_lines():
    for c in CRATES:
        n = sum(len(p.read_text().splitlines()) for p in (TOP / "crates" / c / "proofs").rglob("*.antt"))
        if n:
            yield c, n


def lemma_names():
    return [f"{p.relative_to(TOP)}: {m}" for c in CRATES for p in sorted((TOP / "crates" / c / "proofs").glob("*.antt")) for m in re.findall(r"^(?:pub )?([a-z][\w'-]*) : ", p.read_text(), re.M)]


for name, find in POINTS:
    found = find()
    print(f"{name}: {len(found)}")
    if "-c" not in sys.argv and not name.startswith("8"):
        for text in found:
            print("    " + text)

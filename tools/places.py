#!/usr/bin/env python3
"""Counts, in crates/*/src, the places of docs/DESIGN-PASS.md. Called at the top of a checkout; with a word it lists them.

    tools/places.py            the counts
    tools/places.py list       each place
"""
import glob
import itertools
import re
import sys
from collections import defaultdict


def sources():
    for path in sorted(glob.glob("crates/*/src/*.rt")):
        yield path, open(path).read()


def functions():
    """Each function with a body: path, line, name, parameters, clauses, body."""
    head = re.compile(r"^( *)(?:pub(?:\(crate\))? )?(?:final )?fn (\w+)")
    for path, text in sources():
        lines = text.split("\n")
        for i, line in enumerate(lines):
            m = head.match(line)
            if not m:
                continue
            k = i
            while k < len(lines) and not lines[k].endswith((";", "{", "{}")):
                k += 1
            if k == len(lines) or lines[k].endswith((";", "{}")):
                continue
            end = k + 1
            while lines[end] != m.group(1) + "}":
                end += 1
            signature = "\n".join(lines[i:k + 1])
            clauses = re.findall(r"(?:ensures|requires)\b[^\n{]*\{ (.*) \}", signature)
            params = re.split(r"\b(?:ensures|requires|where)\b", signature)[0]
            yield path, i + 1, m.group(2), params, clauses, "\n".join(lines[k + 1:end])


def bare(body, calls):
    """A body without what twins may differ in: types, sizes, constants, names of locals; with `calls`, of calls too."""
    body = re.sub(r"//[^\n]*", "", body)
    body = re.sub(r'b?"(?:[^"\\]|\\.)*"', "L", body)
    body = re.sub(r"b?'(?:[^'\\]|\\.)+'", "L", body)
    body = re.sub(r"\b\d[\w_]*\b", "N", body)
    body = re.sub(r"\b(?:[ui](?:8|16|32|64|size)|bool)\b", "T", body)
    body = re.sub(r"\b[A-Z]\w*\b", "C", body)
    names = {}
    keep = {"let", "mut", "if", "else", "match", "return", "for", "in", "while", "loop", "as", "self", "fn", "N", "L", "T", "C"}

    def name(m):
        w = m.group(0)
        if w in keep:
            return w
        called = body[m.end():m.end() + 1] in ("(", "!") or body[m.start() - 1:m.start()] == "."
        if called and not calls:
            return w
        return names.setdefault(w, "v%d" % len(names))

    body = re.sub(r"\b[a-z_]\w*\b", name, body)
    return re.sub(r"\s+", " ", body)


def twins(calls):
    groups = defaultdict(list)
    for path, line, name, _, _, body in functions():
        if "examples" in path or name == "main":
            continue
        text = bare(body, calls)
        if text.count(";") + text.count("=>") >= 2 or len(text) > 60:
            groups[text].append("%s:%d %s" % (path, line, name))
    return [g for g in groups.values() if len(g) > 1]


def grep(*patterns):
    out = []
    for path, text in sources():
        if "examples" in path:
            continue
        for i, line in enumerate(text.split("\n"), 1):
            if line.strip().startswith(("//", "ghost use")):
                continue
            if any(re.search(p, line) for p in patterns):
                out.append("%s:%d %s" % (path, i, line.strip()))
    return out


def repeated_clauses():
    """Facts that stand in the contracts of three or more functions, whatever they are said of."""
    seen = defaultdict(set)
    for path, line, name, _, clauses, _ in functions():
        for clause in clauses:
            if " ≡ " in clause and not re.search(r"ghost_name|length|Fits", clause):
                continue
            fact = re.sub(r"\b(?:\w+\.)+\w+\b|\b(?:result|start|key|value|text|fallback|request)\b", "x", clause)
            seen[fact].add("%s:%d %s" % (path, line, name))
    return ["%d × %s: %s" % (len(v), k, ", ".join(sorted(v))) for k, v in seen.items() if len(v) >= 3]


def together():
    """Parameters that three or more functions of a file take together."""
    seen = defaultdict(set)
    for path, line, name, params, _, _ in functions():
        if "examples" in path:
            continue
        names = re.findall(r"\b([a-z]\w*): [&\w\[]", params)
        for n in range(len(names), 2, -1):
            for group in itertools.combinations(names, n):
                seen[(path, group)].add(name)
    out = []
    for (path, group), fs in seen.items():
        if len(fs) >= 3 and not any(p == path and set(group) < set(g) and len(f) >= len(fs) for (p, g), f in seen.items()):
            out.append("%s %s: %s" % (path, ", ".join(group), ", ".join(sorted(fs))))
    return out


def unused_lemmas():
    text = {p: open(p).read() for p in glob.glob("crates/*/proofs/**/*.antt", recursive=True) + glob.glob("crates/*/specs/*.antt")}
    whole = "\n".join(text.values()) + "\n".join(t for _, t in sources())
    out = []
    for path, t in sorted(text.items()):
        if re.search(r"/(Answers|Invariants|Lib)\.antt$", path) or "/specs/" in path:
            continue
        for m in re.finditer(r"^ *(?:pub )?([\w'-]+) : ", t, re.M):
            w = m.group(1)
            uses = len(re.findall(r"(?<![\w'-])" + re.escape(w) + r"(?![\w'-])", whole))
            defs = len(re.findall(r"^ *(?:pub )?" + re.escape(w) + r"(?: [^:\n]*)?(?: :| =)", t, re.M))
            if uses <= defs:
                out.append("%s %s" % (path, w))
    return out


POINTS = [
    ("1 numbers for kinds and refusals", lambda: grep(r"fn (from_number\(n: u8|number\(self)", r"\b(list|kind|code|status|part): u8\b", r"-> u8 \{?$.*fault")),
    ("1 enums that name a value or none, a value or a fault", lambda: grep(r"^\s*(Wrong|First|Dropped|None|Nothing)\b\(?\w*\)?,$")),
    ("2 twins: bodies that differ in types, sizes and constants", lambda: ["; ".join(g) for g in twins(False)]),
    ("3 loops that count or index by hand", lambda: grep(r"while \w+ [<>]=? ?\w+", r"for \w+ in 0\.\.\w+\.len\(\)", r"^\s*\w+ [-+]= .*;$", r"for \w+ in 0\.\.key")),
    ("4 equality, conversion and printing by hand", lambda: grep(r"fn (same|from_number|kind_name|meaning|\w+_word|\w+_meaning)\(", r"fn number\(self", r"None => None,", r"Ok\((\w+)\) => Ok\(\1\),", r"Some\((\w+)\) => \1,", r"Err\(_\) => Err\(")),
    ("5 facts in three or more contracts", repeated_clauses),
    ("5 parameters that travel together", together),
    ("6 buffers with a length beside them", lambda: grep(r"out: &mut \[u8\], (n|at): usize", r"(text|out|memory): &'?\w* ?(mut )?\[u8; 4096\], n: usize")),
    ("7 functions that differ in what they call", lambda: ["; ".join(g) for g in twins(True) if g not in twins(False)]),
    ("8 lemmas that nothing uses", unused_lemmas),
]

for title, places in POINTS:
    found = places()
    print("%4d  %s" % (len(found), title))
    if len(sys.argv) > 1:
        for place in found:
            print("        " + place)

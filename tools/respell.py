#!/usr/bin/env python3
"""Brings the definitions and lemmas of specs/ and proofs/ to one spelling, once: functions, lemmas and fields in snake
case, types and facts in upper camel case. Goes by whole words over every .antt file and, in .rt files, over the
code outside comments and strings; names that the sources declare keep theirs. Run at the top of the repository.

usage: respell.py [--list]      --list prints the table and changes nothing
"""
import os
import re
import sys

NAME = r"[^\s(){}.;,@\"«»:=]+"
HEAD = re.compile(rf"^\s*(?:abbrev |unfoldable |pub |record |data |ruleset )*({NAME})\s+(?:[({{].*)?:\s")
HEADED = re.compile(rf"^\s*(?:pub )?(?:record|data|ruleset|module)\s+({NAME})\b")
WORD = re.compile(r"[^\s(){}.;,@\"«»\[\]|]+")
# where the rule's name is another one's already
CHOSEN = {
    "byNumber": "text_by_number",
    "oneMore": "one_added",
    "lastRow": "last_row_of",
    "rowIs": "row_is_in",
    "setRoom": "room_of_set",
    "is-text": "text_stands",
    "later-edition": "later_layer",
    "least-key": "long_enough",
    "nth-head": "nth_head_lem",
    "of-list": "of_list_lem",
    # a lemma that would have its function's name
    "checked-is-never-clipped": "checked_is_never_clipped_lem",
    "derive-alike": "derive_alike_lem",
    "holds-what-was-said": "holds_what_was_said_lem",
    "inserted-in-order": "inserted_in_order_lem",
    "last-exactly": "last_exactly_lem",
    "ok-is-final": "ok_is_final_lem",
    "owned-exactly": "owned_exactly_lem",
    "whole-exactly": "whole_exactly_lem",
    "worked-examples": "worked_examples_lem",
}
# crates that have the name of a library of the toolchain
CRATES = {"bytes": "lent_bytes"}


def files(ending):
    for folder, dirs, names in os.walk("crates"):
        dirs[:] = sorted(d for d in dirs if d not in ("out", "data"))
        for n in sorted(names):
            if n.endswith(ending):
                yield os.path.join(folder, n)


def text(path):
    with open(path, encoding="utf-8") as f:
        return f.read()


def snake(word):
    word = re.sub(r"([a-z0-9])([A-Z])", r"\1_\2", word)
    return word.lower()


def respelled(name):
    """The name by the rule, or itself. A part between dashes that is a type or a fact keeps its capitals."""
    if name in CHOSEN:
        return CHOSEN[name]
    if name[0].isupper():
        if "-" not in name and "_" not in name:
            return name
        return "".join(p[0].upper() + p[1:] for p in re.split(r"[-_]", name) if p)
    parts = name.split("-")
    return "-".join(snake(p) if p and p[0].islower() else p for p in parts)


def words_of_library():
    """The names that the files import, but for those of this repository's proofs."""
    found = set()
    for path in files(".antt"):
        for m in re.finditer(r"^use ([^\s{]+)\.\{([^}]*)\}", text(path), re.M):
            if re.match(r"Rattle\.\w+\.proofs\.", m[1]) and not m[1].startswith("Rattle.std."):
                continue
            found |= {w.strip().split(" as ")[0] for w in m[2].split(",")}
    return found


def dashed_names():
    """Names with dashes, each with whether it is a field or a constructor; a goal's name is Rattle's."""
    found = {}
    for path in files(".antt"):
        block = None
        for line in text(path).split("\n"):
            if re.match(r"^\s*(?:pub )?(record|data|module)\b.*\bwhere\b", line):
                block = re.match(r"^\s*(?:pub )?(\w+)", line)[1]
            elif line and not line[0].isspace():
                block = None
            m = HEAD.match(line)
            if not m or "-" not in m[1] or ": goal." in line or line.lstrip().startswith(("--", "use ")):
                continue
            if re.fullmatch(r"[A-Za-z][A-Za-z0-9_'-]*", m[1]):
                found[m[1]] = block in ("record", "data")
    return found


def undashed(name, inside, known):
    """Fields are in snake case; elsewhere a dash joins two names, and a plain word is added with _."""
    if name in CHOSEN:
        return CHOSEN[name]
    parts = name.split("-")
    out = parts[0]
    for before, part in zip(parts, parts[1:]):
        joins = not inside and before in known and part in known
        out += ("-" if joins else "_") + part
    return out


def dash_table():
    known = words_of_library() | {n for n in own_names() if "-" not in n}
    return {n: undashed(n, inside, known) for n, inside in sorted(dashed_names().items()) if undashed(n, inside, known) != n}


def own_names():
    found = {}
    for path in files(".antt"):
        if os.path.basename(path) in ("Lib.antt",):
            continue
        for line in text(path).split("\n"):
            if line.lstrip().startswith(("--", "use ", "open ")):
                continue
            m = HEAD.match(line) or HEADED.match(line)
            if m:
                found.setdefault(m[1], path)
    return found


def table():
    names = own_names()
    rows = {}
    for n in sorted(names):
        if not re.fullmatch(r"[A-Za-z][A-Za-z0-9_'-]*", n):
            continue
        new = respelled(n)
        if new != n:
            rows[n] = new
    return rows


def turn(t, rows):
    return WORD.sub(lambda m: rows.get(m[0], m[0]), t)


def turn_dashes(t, rows, fields):
    """A lemma's name never stands behind a dot: there it is a field, or a step of a goal."""
    return WORD.sub(lambda m: rows[m[0]] if m[0] in rows and (m[0] in fields or t[m.start() - 1 : m.start()] != ".") else m[0], t)


QUIET = re.compile(r'//[^\n]*|b?"(?:\\.|[^"\\])*"|b?\'(?:\\.|[^\'\\])\'', re.S)


def turn_rt(t, rows):
    out, at = [], 0
    for m in QUIET.finditer(t):
        out += [turn(t[at : m.start()], rows), m[0]]
        at = m.end()
    return "".join(out + [turn(t[at:], rows)])


def move_crates():
    with open("crates.txt", encoding="utf-8") as f:
        listed = f.read()
    for old, new in CRATES.items():
        if not os.path.isdir(os.path.join("crates", old)):
            continue
        os.rename(os.path.join("crates", old), os.path.join("crates", new))
        listed = "\n".join(l if l.startswith("#") else re.sub(rf"\b{old}\b", new, l) for l in listed.split("\n"))
        for path in [*files(".antt"), *files(".rt"), *files(".edit")]:
            was = text(path)
            now = re.sub(rf"\bRattle\.{old}\.", f"Rattle.{new}.", was)
            if not path.endswith(".antt"):
                now = re.sub(rf"\b{old}::", f"{new}::", now)
            if now != was:
                with open(path, "w", encoding="utf-8") as f:
                    f.write(now)
    with open("crates.txt", "w", encoding="utf-8") as f:
        f.write(listed)


def main():
    rows = table()
    if "--list" in sys.argv:
        for old, new in [*rows.items(), *dash_table().items()]:
            print(old, new)
        return
    for path in [*files(".antt"), *files(".rt")]:
        old = text(path)
        new = turn_rt(old, rows) if path.endswith(".rt") else turn(old, rows)
        if new != old:
            with open(path, "w", encoding="utf-8") as f:
                f.write(new)
    dashes, fields = dash_table(), {n for n, inside in dashed_names().items() if inside}
    for path in files(".antt"):
        old = text(path)
        new = turn_dashes(old, dashes, fields)
        if new != old:
            with open(path, "w", encoding="utf-8") as f:
                f.write(new)
    move_crates()


if __name__ == "__main__":
    main()

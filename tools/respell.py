#!/usr/bin/env python3
"""Brings the repository's own definitions and lemmas to snake case, in antt and in the clauses that cite them.

usage: tools/respell.py [--list]     at the top, once, after port.py; --list only prints what would be renamed and what falls together

A name is taken apart at its dashes, and each part that begins in lower case and has capitals is turned: `nothingAfter` becomes
`nothing_after`, `length-upFrom` becomes `length-up_from`. Types, modules and parts that begin with a capital stay. Names that a file
imports from outside the repository's crates stay as they are. Words of the library that lemmas are named after take today's spelling.
"""
import os
import re
import sys

ROOT = os.path.dirname(os.path.dirname(os.path.abspath(__file__)))
TOKEN = re.compile(r"[A-Za-z◌][\w'◌]*(?:-[\w'◌]+)*")
CAMEL = re.compile(r"^[a-z][a-z0-9_']*[A-Z]")
# what the library calls today what lemmas are named after
WORDS = {"getD": "get_or", "get_d_map": "get_or_map"}
# lemmas, and one local name, with which a definition's new name would fall together; lemmas get what the library adds to them there
OTHER = {n: n + "_lem" for n in ("at_front", "edge_test", "goes_back", "left_in", "mask_below", "not_root", "record_of", "same_kind")}
OTHER["below_by"] = "below_at"


def turned_part(p):
    if p in WORDS:
        return WORDS[p]
    if not CAMEL.match(p):
        return p
    return re.sub(r"(?<=[a-z0-9'])([A-Z])", r"_\1", p).lower()


def turned(t):
    return "-".join(turned_part(p) for p in t.split("-"))


def word(m, text, names, path):
    w = m.group(0)
    if w in names:
        return names[w]
    # not a part of a path, where code may have the name
    if w in OTHER and path.endswith(".antt") and text[m.start() - 1 : m.start()] != "." and text[m.end() : m.end() + 1] != ".":
        return OTHER[w]
    return w


def files():
    for folder, dirs, names in os.walk(os.path.join(ROOT, "crates")):
        dirs[:] = sorted(d for d in dirs if d != "out")
        for n in sorted(names):
            if n.endswith((".antt", ".rt")):
                yield os.path.join(folder, n)


def own_crates():
    return sorted(os.listdir(os.path.join(ROOT, "crates")))


def main():
    own = own_crates()
    outside, seen, ghosts = set(), {}, set()
    texts = {}
    for p in files():
        t = texts[p] = open(p, encoding="utf-8").read()
        for m in re.finditer(r"(?m)^(?:ghost )?use ([\w.'-]+)\.\{([^}]*)\}", t):
            path = m.group(1).split(".")
            if not (path[0] == "Rattle" and len(path) > 1 and path[1] in own):
                for w in m.group(2).split(","):
                    outside.add(w.split(" as ")[0].strip())
        for m in TOKEN.finditer(t):
            seen.setdefault(m.group(0), set()).add(p)
    names = {}
    for t in seen:
        if t in outside:
            continue
        # in code only words that some antt file has too
        if not any(p.endswith(".antt") for p in seen[t]):
            continue
        n = turned(t)
        if n != t:
            names[t] = n
    back = {}
    for a, b in names.items():
        back.setdefault(b, []).append(a)
    for b, olds in sorted(back.items()):
        if len(olds) > 1 or b in seen:
            where = sorted({os.path.relpath(p, ROOT) for p in seen.get(b, ())})
            print(f"falls together: {', '.join(olds)} -> {b}" + (f"   which stands in {len(where)}: {', '.join(where[:6])}" if where else ""))
    if "--list" in sys.argv:
        for a, b in sorted(names.items()):
            print(f"{a} -> {b}")
        return
    for p, t in texts.items():
        new = TOKEN.sub(lambda m: word(m, t, names, p), t)
        if new != t:
            open(p, "w", encoding="utf-8").write(new)
    print(f"{len(names)} names turned")


main()

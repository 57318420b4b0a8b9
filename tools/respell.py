#!/usr/bin/env python3
"""Brings the repository's own definitions and lemmas to today's spelling, once, behind the kit's port.py.

usage: python3 tools/respell.py          rewrites crates/*/{specs,proofs,src,must-fail}, and prints what it left
       python3 tools/respell.py --names  prints each old and new name and writes nothing

Words are in snake case; a dash stays only where it joins two names (a definition, a type or a word of the library on either side).
Only names that a file of specs/ declares are respelled. Of two that would fall together the law is called NAME_law; those that stand
beside a bound name of their new spelling are listed in OTHERS.
"""
import collections
import os
import re
import sys

WORD = re.compile(r"[^\s()\[\]{},;.«»:|`\"]+")
BARE = re.compile(r"(?<![^\s()\[\]{},;«»:|`\"])[^\s()\[\]{},;.«»:|`\"]+")
DECLARED = re.compile(r"^\s*(unfoldable |abbrev |postulate )?(pub )?(abbrev |data |record )?(?:\| )?([^\s(){}:.;]+)(?: \{[^}]*\}| \([^)]*\))* :(?: |$)")
# words of the library after which laws are named
LIBRARY = set("length append take drop get_or set map replicate reverse all any filter sum add sub mul div mod eqb ltb leb min max not and or if foldr head tail concat zip".split())


# those that stand beside a bound name of their new spelling
OTHERS = {
    "◌orElse◌": "◌or_else◌",
    "classVars": "class_vars_of",
    "firstStep": "first_step_of",
    "flexVars": "flex_vars_of",
    "hasRoom": "has_room_for",
    "isCut": "is_a_cut",
    "isRead": "is_read_whole",
    "leftIn": "left_in_lent",
    "lentBack": "lent_back_of",
    "listCopied": "list_copied_of",
    "noSymbol": "no_such_symbol",
    "oneMore": "one_more_of",
    "putRecord": "put_record_of",
    "sameKey": "same_key_of",
    "stepBy": "step_by_of",
    "stepLine": "step_line_of",
}
TEXT = re.compile(r'("(?:[^"\\\n]|\\.)*")')


# names of the library's too
KEPT = {"not-true", "not-false"}


def files(kinds):
    for folder, dirs, names in os.walk("crates"):
        dirs[:] = sorted(d for d in dirs if d != "out")
        for n in sorted(names):
            if n.endswith(kinds):
                yield os.path.join(folder, n)


def ghost(text):
    """The lines of Rattle source that speak of definitions: ghost imports and clauses."""
    return [l for l in text.split("\n") if re.match(r"\s*(ghost |requires|ensures|decreases)", l)]


def snake(part):
    """hashFrom is hash_from, nodeOfL is node_of_l; a type's name stays, and so does a single letter."""
    if not re.match(r"[a-z]", part):
        return part
    return re.sub(r"(?<=[a-z0-9'])[A-Z]+", lambda m: "_" + m[0].lower(), part)


def respelled(name, joined):
    parts = name.split("-")
    out = snake(parts[0])
    last = parts[0]
    for k in range(1, len(parts)):
        left, right = last, parts[k]
        symbol = not re.match(r"[A-Za-z0-9_']", left[-1:] or "x") or not re.match(r"[A-Za-z0-9_']", right[:1] or "x")
        kind = re.match(r"[A-Z]", left) and len(left) > 1
        # longest run of the words behind the dash that is a name, and the same of those before it
        before = any("-".join(parts[i:k]) in joined for i in range(k))
        after = any("-".join(parts[k:j]) in joined for j in range(k + 1, len(parts) + 1))
        out += ("-" if symbol or kind or (before and after) else "_") + snake(right)
        last = right
    return out


def main(argv):
    texts = {p: open(p, encoding="utf-8").read() for p in files((".antt", ".rt", ".edit"))}
    specs = [p for p in texts if "/specs/" in p]
    names, values = set(), set()
    for p in specs:
        for line in texts[p].split("\n"):
            m = DECLARED.match(line)
            if m:
                names.add(m[4])
                if m[1] or m[3]:
                    values.add(m[4])
    joined = {v for v in values if re.match(r"[a-zA-Z]", v) and "-" not in v and len(v) > 1} | LIBRARY
    turned = {n: respelled(n, joined) for n in names if re.search(r"-|[a-z0-9'][A-Z]", n) and "◌" not in n and n not in KEPT}
    turned = {o: n for o, n in turned.items() if o != n}
    # a law that would take the name of a definition, or of another law, in a file that has both says that it is one
    bare = {p: set(BARE.findall("\n".join(ghost(t) if p.endswith(".rt") else re.sub(r"--.*", "", t).split("\n")))) for p, t in texts.items() if p.endswith(".rt") or "/specs/" in p}
    by = collections.defaultdict(list)
    for o, n in sorted(turned.items()):
        by[n].append(o)
    for n, olds in by.items():
        olds = sorted(olds, key=lambda o: (o not in values, "-" in o, o))
        for k, o in enumerate(olds):
            rivals = olds[:k] + ([n] if n in names else [])
            if "-" in o and any(o in ws and r in ws for ws in bare.values() for r in rivals):
                turned[o] = n + "_law"
    # what stands beside it in a file, a bound name say: then it keeps its spelling
    left = set()
    for ws in bare.values():
        left |= {(o, n) for o, n in turned.items() if o in ws and n in ws}
    for o, n in left:
        turned[o] = OTHERS.get(o) or turned.pop(o)
    left = {(o, n) for o, n in left if o not in turned}
    turned |= {o: n for o, n in OTHERS.items() if o in names}
    if "--names" in argv:
        for o, n in sorted(turned.items()):
            print(o, n)
    for o, n in sorted(left):
        print("left:", o, "for", n)
    print(len(turned), "names respelled,", len(left), "left", file=sys.stderr)
    if "--names" in argv:
        return
    for p, t in texts.items():
        # in Rattle source a name stands only in ghost imports and clauses; there a dash is part of no other word
        if p.endswith(".rt"):
            u = "\n".join(l if l.lstrip().startswith("//") else re.sub(r"[A-Za-z_][\w'-]*", lambda m: turned.get(m[0], m[0]), l) if re.match(r"\s*(ghost |requires|ensures|decreases)", l) else l for l in t.split("\n"))
        else:
            u = "".join(x if k % 2 else WORD.sub(lambda m: turned.get(m[0], m[0]), x) for k, x in enumerate(TEXT.split(t)))
        if u != t:
            with open(p, "w", encoding="utf-8") as f:
                f.write(u)


main(sys.argv[1:])

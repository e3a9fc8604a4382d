#!/usr/bin/env python3
"""Spells the project's own definitions, lemmas, fields and local names in snake case, by tools/respelled.tsv.

usage: tools/respell.py          at the top: turns crates/**/*.antt, *.rt and must-fail/*.edit, and docs/*.md, README.md
       tools/respell.py --find   writes the table anew from the names that specs/ and proofs/ declare

A name of a library that a file imports stays in that file. A name behind `tie.`, `goal.` or `statement` is Rattle's own, and stays.
"""
import collections
import glob
import os
import re
import sys

HERE = os.path.dirname(os.path.abspath(__file__))
TABLE = os.path.join(HERE, "respelled.tsv")
# what the kit's own script turned in specs/ and proofs/, but not in the edits and the pages
BEFORE = os.path.join(HERE, "respelled-before.tsv")
# words of English that are names as well: in a comment they stay
ENGLISH = {"set-up", "one-to-one", "stand-in"}
COMMENT = re.compile(r"(?:--|//) .*|^# .*", re.M)
CUT = r"\s(){}.;,@\"«»"
TOKEN = re.compile(rf"[^{CUT}`]+")
DECLARED = re.compile(r"^(\s*)((?:(?:pub|abbrev|unfoldable|opaque|private|instance)\s+)*)([^\s(){}.;,@\"«»:=]+)((?: \{[^{}\n]*\}| \([^()\n]*\))*) :(?!:) ?(.*)$", re.M)
FIELD = re.compile(r"[({] ?((?:[^\s(){}.;,@\"«»:=]+ )+): ")
LIBRARY = re.compile(r"^use (?!Rattle\.(?!std\.|core\.|io\.|os\.|libc\.|check\.))[^\s{]+\.\{([^}]*)\}", re.M)
GHOST_LIBRARY = re.compile(r"^ghost use (?!Rattle\.(?!std\.|core\.|io\.|os\.|libc\.|check\.))[^\s{]+\.\{([^}]*)\};", re.M)


def files():
    return sorted(p for p in glob.glob("crates/**/*", recursive=True) if p.endswith((".antt", ".rt")) and "/out/" not in p)


def edits():
    return sorted(glob.glob("crates/*/must-fail/*.edit"))


def pages():
    return sorted(glob.glob("docs/*.md")) + ["README.md"]


def read(p):
    with open(p, encoding="utf-8") as f:
        return f.read()


EXTRA = {
    # a lemma that would have the name of the definition it is about
    "bytes_below": ("bytes_below_lem", ("crates/gateway_form/specs/Places.antt",)),
    "first_one": ("first_one_lem", ("crates/wcdma_shape/",)),
    "one_way": ("one_way_lem", ("crates/families/specs/", "crates/leaves/proofs/")),
    "sets_of": ("sets_of_lem", ("crates/sets/specs/", "crates/tender/specs/")),
}


# snake case that a definition has already, or a lemma of std in the same file
MET = {"all_below", "has_row", "in_table", "one_of", "same_list", "slot_at"}


def spelled(name):
    if name.startswith(("+", "μ")) or not re.search(r"[a-zA-Z]{2}|-", name):
        return name
    s = name.replace("getD", "get_or")
    s = re.sub(r"(?<=[a-z0-9'])([A-Z])", lambda m: "_" + m[1].lower(), s)
    s = s.replace("-", "_")
    if s[0].isupper() and "_" in s and len(s.split("_")[0]) == 1:
        s = s[0].lower() + s[1:]
    return s


def imported(text):
    found = set()
    for r in (LIBRARY, GHOST_LIBRARY):
        for m in r.finditer(text):
            found |= {w.strip().split(" as ")[-1] for w in m[1].split(",")}
    return found


def declared():
    found = collections.defaultdict(set)
    for p in files():
        if not p.endswith(".antt"):
            continue
        t = read(p)
        for m in DECLARED.finditer(t):
            name, kind = m[3], m[5]
            if re.match(r"(tie|goal)\.", kind) or name.startswith(("invariant-", "decreases-", "+", "μ", "Inv-")):
                continue
            if re.search(r"[a-z0-9]-[a-zA-Z0-9]|^[A-Z]-|getD", name) or re.search(r"^[a-z][a-z0-9']*[A-Z]", name):
                found[name].add(p)
    return found


def table(path=TABLE):
    with open(path, encoding="utf-8") as f:
        return dict(l.rstrip("\n").split("\t") for l in f if l.strip())


def turn(path, text, names, stay):
    names = dict(names)
    for name, (to, where) in EXTRA.items():
        if path.startswith(where):
            names[name] = to
    comments = [m.span() for m in COMMENT.finditer(text)]

    def new(m):
        if m[0] not in names or m[0] in stay:
            return m[0]
        if m[0] in ENGLISH and any(a <= m.start() < b for a, b in comments):
            return m[0]
        return names[m[0]]

    return TOKEN.sub(new, text)


def find():
    names = {n: spelled(n) for n in declared()}
    names = {a: b for a, b in names.items() if a != b}
    taken = {b for a, b in names.items() if "-" not in a} | MET
    names = {a: b + "_lem" if "-" in a and b in taken else b for a, b in names.items()}
    tokens = collections.defaultdict(set)
    for p in files():
        for t in set(TOKEN.findall(re.sub(r"--.*|//.*", "", read(p)))):
            tokens[t].add(p)
    meet = collections.defaultdict(set)
    for a, b in names.items():
        meet[b].add(a)
    for b, olds in sorted(meet.items()):
        others = [o for o in olds if o != b]
        for a in sorted(others):
            both = tokens[a] & tokens.get(b, set())
            if both:
                print(f"meets: {a} -> {b}: both in {len(both)}: {sorted(both)[:3]}")
        if len(others) > 1:
            print(f"fall together: {others} -> {b}: {sorted(set.intersection(*(tokens[o] for o in others)))[:3]}")
    with open(TABLE, "w", encoding="utf-8") as f:
        for a, b in sorted(names.items()):
            f.write(f"{a}\t{b}\n")
    print(len(names), "names")


def main():
    if sys.argv[1:] == ["--find"]:
        find()
        return
    names = table()
    for p in files():
        t = read(p)
        s = turn(p, t, names, imported(t))
        if s != t:
            with open(p, "w", encoding="utf-8") as f:
                f.write(s)
    names = table(BEFORE) | names
    for p in edits():
        t = read(p)
        s = turn(p, t, names, set())
        if s != t:
            with open(p, "w", encoding="utf-8") as f:
                f.write(s)
    for p in pages():
        t = read(p)
        s = re.sub(r"`[^`\n]+`", lambda m: turn(p, m[0], names, set()), t)
        if s != t:
            with open(p, "w", encoding="utf-8") as f:
                f.write(s)


main()

#!/usr/bin/env python3
"""Brings the names that this repository declares in specs/ and proofs/ to snake case, where port.py left them in another spelling.

usage: respell.py [--list]      at the top of a repository that port.py has turned; --list only prints what would change

A name is one of ours where a file of specs/ or proofs/ gives it a signature, and no answer to a goal. Turned are names with a capital
inside, and, of those that specs/ declares, names with a dash: a dash stays in a lemma's name, where it joins the parts. A name is
turned in every .antt file and in the clauses and ghost items of every .rt file. Types, and facts that are types, begin with a capital
and stay; so do names whose new spelling stands for something else in one of the files that have the name: they are printed as 'kept',
but for those of OTHERS, which get another name.
"""
import os
import re
import sys

LETTER = r"[\w'\u2032\u2080-\u2089-]"
SIGNATURE = re.compile(r"^\s*(?:mutual\s+)?(?:unfoldable\s+)?(?:abbrev\s+)?(?:unfoldable\s+)?(?:mutual\s+)?(?:pub\s+)?([a-z]" + LETTER + r"*) :\s(.*)$")
GOAL = re.compile(r"^(?:goal|need|Goals|Given)\.|\bgoal\.")
BARE = re.compile(r"(?<!\.)(?<!" + LETTER + r")([a-z]" + LETTER + r"*)(?!\()")
TOKEN = re.compile(r"(?<!" + LETTER + r")([a-z]" + LETTER + r"*)")


def files(root, endings):
    for folder, dirs, names in os.walk(os.path.join(root, "crates")):
        dirs[:] = sorted(d for d in dirs if d not in ("out", "target", ".git"))
        for n in sorted(names):
            if n.endswith(endings):
                yield os.path.join(folder, n)


def read(path):
    with open(path, encoding="utf-8") as f:
        return f.read()


def snake(name):
    name = name.replace("-", "_")
    name = re.sub(r"(?<=[a-z0-9])([A-Z])", lambda m: "_" + m.group(1).lower(), name)
    return name


def declared(root):
    found = {}
    for p in files(root, ".antt"):
        for line in read(p).split("\n"):
            m = SIGNATURE.match(line)
            if m and not GOAL.search(m.group(2)):
                found.setdefault(m.group(1), set()).add(p)
    return found


def clause_lines(text):
    """The lines of a .rt file that hold clauses, ghost items or attributes, by number."""
    return [i for i, l in enumerate(text.split("\n")) if re.search(r"\b(ghost|requires|ensures)\b", l)]


# Names whose snake spelling stands for something else in a file where they are used, and lemmas that stand in the way of one.
OTHERS = {
    "pair-bytes": "bytes_of_pair",
    "two-leaves": "two_leaves_pass",
    "after_open": "open-after",
    "all_have": "have-all",
    "same_bit": "bit-same",
}


def main():
    root = "."
    ours = declared(root)
    wanted = {}
    for name in sorted(ours):
        in_specs = any("/specs/" in p for p in ours[name])
        if name in OTHERS or re.search("[A-Z]", name) or ("-" in name and in_specs):
            wanted[name] = OTHERS.get(name, snake(name))
    clashes = {}
    for p in files(root, (".antt", ".rt")):
        text = read(p)
        tokens = set(BARE.findall(text)) - set(re.findall(r"\bfn (\w+)", text)) - set(re.findall(r"\w+", " ".join(re.findall(r"(?m)^\s*use [^;]*;", text)))) - set(wanted)
        used = [n for n in wanted if n in TOKEN.findall(text)]
        back = {}
        for n in used:
            new = wanted[n]
            if new in tokens or new in back:
                clashes.setdefault(n, set()).add(p)
            back[new] = n
    turn = {a: b for a, b in wanted.items() if a not in clashes}
    for name in sorted(clashes):
        print(f"kept: {name}: the new spelling is in use: {wanted[name]}: {' '.join(sorted(clashes[name]))}")
    print(f"{len(turn)} names turn, {len(clashes)} are kept")
    if "--list" in sys.argv:
        for a, b in turn.items():
            print(f"turn: {a} {b}")
        return

    def turned(text):
        return TOKEN.sub(lambda m: turn.get(m.group(1), m.group(1)), text)

    for p in files(root, (".antt", ".rt")):
        text = read(p)
        if p.endswith(".antt"):
            new = turned(text)
        else:
            lines = text.split("\n")
            for i in clause_lines(text):
                lines[i] = turned(lines[i])
            new = "\n".join(lines)
        if new != text:
            with open(p, "w", encoding="utf-8") as f:
                f.write(new)


main()

#!/usr/bin/env python3
"""Brings the names of definitions and lemmas to one spelling: words in snake case (types and modules keep theirs).

usage: tools/respell.py        at the top of the checkout, once, right after the port's own script

Renames each name that a file of specs/ or proofs/ declares, in every .antt and .rt file of crates/, in the must-fail
edits, and in the pages of docs/ where it stands between backticks. What a proof calls its own goals, and what the checker
makes, keeps its name here. Where a definition and a law would fall together the law ends in _law.
"""
import collections
import os
import re
import sys

ROOT = "crates"
WORD = re.compile(r"[A-Za-z][A-Za-z0-9_'\u2080-\u2089-]*")
SIGNATURE = re.compile(r"^\s*(?:(?:abbrev|unfoldable|pub|opaque)\s+)*([A-Za-z][^\s(){}\[\],;:\"`]*)\s*(?:\{[^}]*\}\s*|\([^)]*\)\s*)*:\s")
GOAL = re.compile(r"^(?:(?:abbrev|pub)\s+)*(\S+) : (?:tie|goal)\.")


def files(*endings):
    for folder, dirs, names in os.walk(ROOT):
        dirs[:] = sorted(d for d in dirs if d != "out")
        for name in sorted(names):
            if name.endswith(endings):
                yield os.path.join(folder, name)


def snake(name):
    name = name.replace("-", "_")
    return re.sub(r"(?<=[a-z0-9])([A-Z])", lambda m: "_" + m.group(1).lower(), name)


def gather():
    """Where each name is declared, which are fields of records, and which are a proof's names for its goals."""
    own, goals, fields = collections.defaultdict(set), set(), set()
    for path in files(".antt"):
        text = re.sub(r"--.*", "", open(path, encoding="utf-8").read())
        for line in text.split("\n"):
            m = SIGNATURE.match(line)
            if m and " let " not in line[: m.end()]:
                own[m.group(1)].add(path)
                if GOAL.match(line) or re.match(r"(invariant|decreases)-", m.group(1)):
                    goals.add((path, m.group(1)))
        for m in re.finditer(r"(?m)^(\s*)(?:pub )?record [^\n]*where\n((?:\1\s+[^\n]*\n|\s*\n)+)", text):
            fields.update(f.group(1) for f in re.finditer(r"(?m)^\s+(?:pub )?([A-Za-z][^\s:(){}]*) :", m.group(2)))
    return own, goals, fields


def renamings(own, goals):
    real = {n for n in own if any((p, n) not in goals for p in own[n])}
    old = {n for n in real if "-" in n or re.match(r"[a-z][A-Za-z0-9]*[A-Z]", n)}
    into = collections.defaultdict(list)
    for n in real:
        into[snake(n)].append(n)
    to = {n: snake(n) for n in old}
    for new, olds in into.items():
        if len(olds) == 1:
            continue
        # One of them is a definition: it keeps the plain name. It was in camel case, or stands in specs/.
        kept = [n for n in olds if re.search(r"[A-Z]", n)] or [n for n in olds if any("/specs/" in p for p in own[n])]
        if len(kept) != 1:
            kept = [n for n in olds if any("/specs/" in p for p in own[n])]
        if len(kept) != 1:
            sys.exit(f"respell: {olds} fall together, and none of them is plainly the definition")
        for n in olds:
            if n != kept[0]:
                to[n] = new + "_law"
    return to


def turn(path, text, to, fields):
    proof = path.endswith(("/Proof.antt", "/Answers.antt"))
    rust = path.endswith(".rt")
    aliases = set(re.findall(r"(?m)^\s*(?:ghost )?use \S+ as ([A-Za-z][\w'-]*)", text)) - {"tie", "goal"}

    def word(m):
        name, at = m.group(0), m.start()
        if name not in to:
            return name
        if rust and not ("-" in name or re.search(r"[A-Z]", name)):
            return name
        if at and text[at - 1] == "." and not text[max(0, at - 2) : at] == "..":
            before = re.search(r"([\w'-]*)\.$", text[:at][-60:]).group(1)
            if before in aliases:
                return to[name]
            if proof or name not in fields:
                # a name that the checker made, or a module of a path
                return name if proof or "-" not in name and not re.search(r"[A-Z]", name) else to[name]
        if at and (text[at - 1].isalnum() or text[at - 1] in "_'\u00b7-"):
            return name
        return to[name]

    return WORD.sub(word, text)


# The checker now makes a module of this name.
MOVED = [("demands/specs/Contracts.antt", "demands/specs/OnlyOne.antt", "Rattle.demands.specs.Contracts", "Rattle.demands.specs.OnlyOne")]


def move():
    for old, new, was, now in MOVED:
        old, new = os.path.join(ROOT, old), os.path.join(ROOT, new)
        if not os.path.exists(old):
            continue
        os.rename(old, new)
        lib = os.path.join(os.path.dirname(new), "Lib.antt")
        text = open(lib, encoding="utf-8").read()
        open(lib, "w", encoding="utf-8").write(text.replace("pub mod Contracts\n", "pub mod OnlyOne\n"))
        for path in files(".antt", ".rt"):
            text = open(path, encoding="utf-8").read()
            if was in text:
                open(path, "w", encoding="utf-8").write(text.replace(was + ".", now + "."))


def elsewhere(to, real):
    """In edits and pages: also the names that the port's own script had respelled in the crates before."""

    def word(m):
        name = m.group(0)
        if not ("-" in name or re.search(r"[A-Z]", name)):
            return name
        return to.get(name) or (snake(name) if snake(name) in real and name[0].islower() else name)

    return word


def main():
    move()
    own, goals, fields = gather()
    to = renamings(own, goals)
    real = {n for n in own if any((p, n) not in goals for p in own[n])}
    other = elsewhere(to, real)
    changed = 0
    for path in files(".antt", ".rt", ".edit"):
        text = open(path, encoding="utf-8").read()
        turned = WORD.sub(other, text) if path.endswith(".edit") else turn(path, text, to, fields)
        if turned != text:
            changed += 1
            open(path, "w", encoding="utf-8").write(turned)
    for folder, _, names in os.walk("docs"):
        for name in names:
            path = os.path.join(folder, name)
            if not name.endswith(".md"):
                continue
            text = open(path, encoding="utf-8").read()
            turned = re.sub(r"`[^`\n]+`", lambda m: WORD.sub(other, m.group(0)), text)
            if turned != text:
                changed += 1
                open(path, "w", encoding="utf-8").write(turned)
    for name in sorted(n for n in to if to[n].endswith("_law")):
        print(f"respell: {name} is {to[name]}")
    print(f"respell: {len(to)} names, {changed} files")


main()

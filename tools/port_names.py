#!/usr/bin/env python3
"""Brings this repository's own antt names to today's spelling, once, after port.py.

usage: python3 tools/port_names.py     at the top of the repository, with everything committed

Definitions, fields, constructors and types' members are spelled in snake case. In the name of a lemma a dash joins two names, and any
other word is added with an underscore. Facts and types keep their upper camel case. Names that Rattle makes (the goals in proofs/F/) and
names of Rust's code stay. It stops, and writes nothing, where two names would fall together. What it renamed is in tools/port_names.tsv.
"""

import glob
import os
import re
import sys

KIT = "/opt/rattle/rattle"
TOKEN = re.compile(r"[^\s(){}.;,@\"\[\]\\`]+")
TOP = re.compile(r"^((?:abbrev |unfoldable |pub |axiom )*)([^\s:(){}]+) :")
MADE = re.compile(r"^((?:abbrev |pub )*)(data|record) ([^\s:(){}]+)")
INNER = re.compile(r"^\s+(?:pub )?([^\s:(){}.,;=]+) :")


# Of two definitions that would have one name in snake case, the other name of one.
APART = {"state-of": "colour_of", "nodeAt": "atom_node", "set-of": "set_command"}


def read(path):
    with open(path, encoding="utf-8") as f:
        return f.read()


def own(path):
    """A file of definitions and lemmas, and not a function's proof."""
    parts = path.split("/")
    return parts[2] == "specs" or (parts[2] == "proofs" and len(parts) == 4)


def plain(text):
    """The lines of a file, those of a section `module _`, also of one inside another, as if they stood at its left."""
    sections = [0]
    for line in text.splitlines():
        indent = len(line) - len(line.lstrip(" "))
        if line.strip():
            while indent < sections[-1]:
                sections.pop()
            if indent == sections[-1] and line.lstrip(" ").startswith("module "):
                sections.append(indent + 2)
        yield line[sections[-1] :] if line.startswith(" " * sections[-1]) else line


def snake(word):
    return re.sub(r"(?<=[a-z0-9])([A-Z])", lambda m: "_" + m.group(1).lower(), word)


def declared(files):
    """The names of definitions and types, of lemmas, and of fields and constructors."""
    names, lemmas, inner = set(), set(), set()
    for path in files:
        inside = False
        for line in plain(read(path)):
            made, top = MADE.match(line), TOP.match(line)
            if made:
                names.add(made.group(3))
                inside = True
            elif top and not line.startswith(" "):
                inside = False
                words = top.group(1)
                (names if "abbrev" in words or "unfoldable" in words else lemmas).add(top.group(2))
            elif line and not line.startswith(" "):
                inside = False
            elif inside and INNER.match(line):
                inner.add(INNER.match(line).group(1))
    return names, lemmas, inner


def kit_names():
    found = set()
    for path in glob.glob(KIT + "/**/*.antt", recursive=True):
        for line in read(path).splitlines():
            m = TOP.match(line) or MADE.match(line)
            if m:
                found.add(m.group(m.lastindex))
    return found


def spelled(name, known):
    """A lemma's name: the longest parts that are names, joined by dashes, and plain words by underscores."""
    parts = name.split("-")
    out, k, was = "", 0, False
    while k < len(parts):
        for to in range(len(parts), k, -1):
            part = "-".join(parts[k:to])
            is_name = part in known or part.replace("-", "_") in known
            if is_name or to == k + 1:
                break
        word = part.replace("-", "_")
        word = word if word[0].isupper() else snake(word)
        out += ("" if k == 0 else "-" if is_name and was else "_") + word
        was = is_name
        k = to
    return out


def table(files):
    names, lemmas, inner = declared(files)
    kit = kit_names()
    turned = {}
    for name in names | inner:
        if not name[0].isupper():
            turned[name] = snake(name).replace("-", "_")
    known = names | {"length", "take", "drop", "replicate", "cond", "map", "suc", "set"} | {turned[n] for n in names & set(turned)}
    for name in lemmas - set(turned):
        turned[name] = spelled(name, known)
    turned |= APART
    turned = {a: b for a, b in turned.items() if a != b and re.match(r"^[\w?'-]+$", a)}
    return turned, names | lemmas | inner, kit


def scope(text, crate_names):
    """The names that a file declares or takes from this repository."""
    found = set()
    for line in plain(text):
        m = TOP.match(line) or MADE.match(line)
        if m:
            found.add(m.group(m.lastindex))
    for m in re.finditer(r"use Rattle\.(\w+)\.[^\s{;]*\{([^}]*)\}", text):
        if m.group(1) in crate_names:
            found |= {w for it in m.group(2).split(",") for w in it.split()}
    return found


def apart(turned, every, antt, crates):
    """Takes out the names that would fall together with another of the repository's, or with one of the kit's where both are used: lemmas first."""
    left = []

    def leave(name):
        left.append(name)
        del turned[name]

    back = {}
    for a, b in sorted(turned.items()):
        back.setdefault(b, []).append(a)
    for b, from_ in back.items():
        if b in every and b not in turned:
            for a in from_:
                leave(a)
        elif len(from_) > 1:
            for a in from_:
                if "-" in a:
                    leave(a)
    for path in antt + sorted(glob.glob("crates/*/src/**/*.rt", recursive=True)):
        text = read(path)
        here = scope(text, crates)
        others = {w for m in re.finditer((r"ghost " if path.endswith(".rt") else "") + r"use [^\n{;]*\{([^}]*)\}", text) for it in m.group(1).split(",") for w in it.split()} - here
        # A part of a path is no name of its own. In code a parameter or a field hides a word of its name, and a function doesn't.
        if path.endswith(".rt"):
            tokens = set(re.findall(r"\b(\w+)\s*:(?!:)", text)) | (set(TOKEN.findall(text)) & set(turned))
        else:
            bare = re.sub(r"--[^\n]*", "", text)
            tokens = {m.group(0) for m in TOKEN.finditer(bare) if bare[m.start() - 1 : m.start()] != "." and bare[m.end() : m.end() + 1] != "."}
        for a in sorted(tokens & set(turned)):
            if a in here and (turned[a] in others or turned[a] in tokens):
                print(f"{path}: {a} would be {turned[a]}, which stands there", file=sys.stderr)
                leave(a)
    return left


def main():
    crates = {c for c in os.listdir("crates") if os.path.isdir("crates/" + c)}
    antt = sorted(glob.glob("crates/*/specs/**/*.antt", recursive=True) + glob.glob("crates/*/proofs/**/*.antt", recursive=True))
    files = [p for p in antt if own(p)]
    turned, every, kit = table(files)
    _, _, inner = declared(files)
    left = apart(turned, every, antt, crates)
    changed = 0
    for path in antt + sorted(glob.glob("crates/*/src/**/*.rt", recursive=True)) + sorted(glob.glob("README.md") + glob.glob("docs/*.md")):
        text = read(path)
        here = scope(text, crates)
        page = path.endswith(".md")

        def turn(m):
            word = m.group(0)
            if word not in turned:
                return word
            before = text[max(0, m.start() - 1) : m.start()]
            if page:
                return turned[word] if before == "`" or text[m.end() : m.end() + 1] == "`" else word
            dotted = before == "."
            whole = re.search(r"Rattle\.(\w+)\.[\w.]*$", text[max(0, m.start() - 200) : m.start()])
            if word in inner or word in here or (dotted and whole and whole.group(1) in crates):
                return turned[word]
            alias = re.search(r"([\w-]+)\.$", text[max(0, m.start() - 60) : m.start()])
            if dotted and alias and re.search(r"use Rattle\.\w+\.[\w.]* as " + re.escape(alias.group(1)) + r"\b", text):
                return turned[word]
            return word

        out = TOKEN.sub(turn, text)
        if out != text:
            with open(path, "w", encoding="utf-8") as f:
                f.write(out)
            changed += 1
    with open("tools/port_names.tsv", "w", encoding="utf-8") as f:
        f.writelines(f"{a}\t{b}\n" for a, b in sorted(turned.items()))
    print(f"{len(turned)} names, {changed} files; as they were, since another name is spelled so: {' '.join(left)}")


if __name__ == "__main__":
    main()

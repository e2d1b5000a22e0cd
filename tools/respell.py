#!/usr/bin/env python3
"""Respells this repository's own definitions and lemmas: words in snake case, types and facts in camel case.

Run once at the top of the checkout, after the toolchain's port.py. It reads which names specs/ and proofs/ declare
and respells those in the .antt and .rt files, in must-fail edits and, inside backticks, in the pages. Names of the
toolchain's goals and of its libraries stay, as do functions of src/, strings, inputs and outputs.
"""
import collections
import glob
import re
import subprocess
import sys

TOKEN = re.compile(r"[A-Za-z_ℕ][\w'ℕ]*(?:-[\w'ℕ*+≤<≡]+)*")
DECLARED = re.compile(r"\s*(?:abbrev |unfoldable )?(?:pub )?(?:record |data |ruleset )?([^\s:(){};]+)\s*(?:\{|\(|:)(.*)")
IMPORTED = re.compile(r"^\s*(?:ghost |pub )*use ([^{;\s]+)\.\{([^}]*)\}")
# lemmas whose dash joins two names: what a bit of a number is, under a function of numbers
KEPT = re.compile(r"bit-\w+$")


def snake(name):
    return re.sub(r"(?<=[a-z0-9])([A-Z])", lambda m: "_" + m.group(1).lower(), name).replace("-", "_")


def camel(name):
    return "".join(p[:1].upper() + p[1:] for p in name.split("-"))


def logic_files():
    return sorted(glob.glob("crates/*/specs/**/*.antt", recursive=True) + glob.glob("crates/*/proofs/**/*.antt", recursive=True))


def code_files():
    return sorted(glob.glob("crates/*/src/**/*.rt", recursive=True))


def declared():
    """Each name that this repository declares, with the files that do."""
    names = collections.defaultdict(set)
    for f in logic_files():
        for line in open(f):
            m = DECLARED.match(line)
            if m and not m.group(1).startswith("--") and not m.group(2).strip().startswith("goal."):
                names[m.group(1)].add(f)
    return names


def foreign(text):
    """The names that a file imports from elsewhere than this repository's crates."""
    own = {line.split(":")[0].strip() for line in open("crates.txt") if line.strip() and not line.startswith("#")}
    names = set()
    for line in text.splitlines():
        m = IMPORTED.match(line)
        if not m:
            continue
        path = m.group(1).split(".")
        if path[0] == "Rattle" and len(path) > 1 and path[1] in own:
            continue
        names |= {n.split(" as ")[0].strip() for n in m.group(2).split(",")}
    return names


def renamings():
    names = declared()
    out = {}
    functions = set()
    for f in code_files():
        functions |= set(re.findall(r"\bfn (\w+)", open(f).read()))
    for n in names:
        if "goal" in n or KEPT.match(n) or not TOKEN.fullmatch(n):
            continue
        if n[0].isupper():
            new = camel(n) if "-" in n else n
        elif "-" in n or re.search(r"[a-z][A-Z]", n):
            new = snake(n)
            if new in functions and any("/proofs/" in f for f in names[n]):
                new += "_lem"
        else:
            continue
        if new != n:
            out[n] = new
    return out


def respelled(text, names, skip):
    # comments keep their words, but for facts' names
    def line_of(line, mark):
        code, found, comment = line.partition(mark)
        code = TOKEN.sub(lambda m: names[m.group(0)] if m.group(0) in names and m.group(0) not in skip else m.group(0), code)
        comment = TOKEN.sub(lambda m: names[m.group(0)] if m.group(0) in names and m.group(0)[0].isupper() else m.group(0), comment)
        return code + found + comment
    return line_of


def main():
    names = renamings()
    taken = collections.defaultdict(list)
    known = set(declared())
    for f in logic_files() + code_files():
        known |= foreign(open(f).read())
    for n, new in sorted(names.items()):
        taken[new].append(n)
    bad = [(new, ns) for new, ns in taken.items() if len(ns) > 1 or new in known]
    if "--look" in sys.argv:
        for n, new in sorted(names.items()):
            print(n, new)
    for new, ns in bad:
        print("falls together:", new, ns)
    if bad or "--look" in sys.argv:
        return 1 if bad else 0
    for f in logic_files() + code_files():
        text = open(f).read()
        change = respelled(text, names, foreign(text))
        mark = "--" if f.endswith(".antt") else "//"
        new = "\n".join(change(line, mark + " ") for line in text.split("\n"))
        if new != text:
            open(f, "w").write(new)
    for f in sorted(glob.glob("crates/*/must-fail/*.edit")):
        text = open(f).read()
        new = TOKEN.sub(lambda m: names.get(m.group(0), m.group(0)), text)
        if new != text:
            open(f, "w").write(new)
            print("edit:", f)
    for f in ["README.md"] + sorted(glob.glob("docs/*.md")):
        text = open(f).read()
        new = re.sub(r"`[^`\n]*`", lambda s: TOKEN.sub(lambda m: names.get(m.group(0), m.group(0)), s.group(0)), text)
        if new != text:
            open(f, "w").write(new)
            print("page:", f)
    print(len(names), "names respelled")
    return 0


sys.exit(main())

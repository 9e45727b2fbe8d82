#!/usr/bin/env python3
"""Brings the repository's own names in specs/, proofs/ and clauses to today's spelling. Run once, at the top, after the toolchain's port.py.

Words are in snake case and types in camel case: a dash in a name of the repository's own becomes an underscore, or, where the name begins with a
capital, goes and the next letter is a capital; a middle dot in the same way. A name that is imported from outside the repository keeps its spelling,
and so does one that a file of proofs/F/ alone has, since those files are made anew. The names in README.md and docs/ follow, between backquotes.
The choice by a test of crates/meaning/specs/If.antt is written `when t then x else y`, since `if` is the library's.
"""
import glob
import re
import sys

TOKEN = re.compile(r"[^\s(){}\[\];,.λ`\"«»]+")
NAME = re.compile(r"^[\w'₀-₉ₜ]+([-·][\w'₀-₉ₜ]+)+$")
USE = re.compile(r"^\s*(?:pub )?(?:ghost )?use ([^{]*?)(?:\.\{(.*)\})?;?\s*$")
# one that port.py took apart at its capital
OTHERS = {"get_d_past": "get_or_past"}


def respelt(name):
    if name in OTHERS:
        return OTHERS[name]
    parts = re.split("[-·]", name)
    if name[0].isupper():
        return "".join(p[:1].upper() + p[1:] for p in parts)
    return "_".join(parts)


def code(line):
    """A line without its comment."""
    return line.split("--")[0]


def names_of(files):
    """The names from outside, and the repository's own ones that change."""
    outside, own, all_names = set(), set(), set()
    for file in files:
        for line in open(file):
            use = USE.match(line.rstrip())
            if use and use.group(2) and not re.match(r"Rattle\.(?!std\b)", use.group(1)):
                outside.update(n.strip().split(" as ")[0] for n in use.group(2).split(","))
    for file in files:
        if file.endswith("/Proof.antt"):
            continue
        for line in open(file):
            for token in TOKEN.findall(code(line)):
                all_names.add(token)
                if (NAME.match(token) or token in OTHERS) and token not in outside:
                    own.add(token)
    for name in sorted(own):
        if respelt(name) in all_names or respelt(name) in outside:
            print(f"look: {name} would fall together with {respelt(name)}")
    return own, all_names


def chosen(text):
    """The text with `when` for the repository's own `if`, comments as they are."""
    text = text.replace("if◌then◌else◌", "when◌then◌else◌")
    lines = [re.sub(r"(?<![\w◌'-])if(?![\w◌'-])", "when", code(line)) + line[len(code(line)) :] for line in text.split("\n")]
    return "\n".join(lines)


def main():
    files = sorted(glob.glob("crates/**/*.antt", recursive=True))
    own, all_names = names_of(files)
    change = lambda m: respelt(m.group(0)) if m.group(0) in own else m.group(0)
    for file in files + sorted(glob.glob("crates/**/*.rt", recursive=True)):
        old = open(file).read()
        new = TOKEN.sub(change, old)
        if file.endswith(".antt"):
            new = chosen(new)
        if new != old:
            open(file, "w").write(new)
    known = {respelt(n) for n in own} | all_names
    cited = lambda m: respelt(m.group(0)) if NAME.match(m.group(0)) and respelt(m.group(0)) in known else m.group(0)
    for page in ["README.md"] + sorted(glob.glob("docs/**/*.md", recursive=True)):
        old = open(page).read()
        new = re.sub(r"`[^`\n]*`", lambda q: TOKEN.sub(cited, q.group(0)), old)
        if new != old:
            open(page, "w").write(new)
    print(f"respell: {len(own)} names")


if __name__ == "__main__":
    sys.exit(main())

#!/usr/bin/env python3
"""Brings the repository's own definitions and lemmas to today's spelling: run once, at the top, after port.py.

Types, records and modules stay in upper camel case. Everything else is in snake case; in a lemma's name a dash stays where it joins
two names (of definitions, constructors or fields of this repository, or of the words of the library below), and is `_` elsewhere.
A name that a file imports from the library is left alone in that file. Names that fall together are printed, and nothing is written.
"""

import os
import re
import sys

WORD = r"[^\s(){}\[\],;.:|\"«»?@`]+"
SIGNATURE = re.compile(r"^\s*((?:abbrev |unfoldable |pub )*)(" + WORD + r")((?: " + WORD + r")*) : ")
USE = re.compile(r"^\s*(?:pub )?(?:ghost )?use ([^{;]*?)\.?\{([^}]*)\}")
LIBRARY = """add and append comm cons cut drop eqb erase false filter get_or head insert join last leb length lookup ltb map member
min mul nil none not or range reverse set some split sub tail take total true zeros""".split()
# A tactic has the first name; the others would fall together with the definition that they are about.
WHOLE = {"first_of": "first_given", "last_of": "last_given"} | {
    n: n.replace("-", "_") + "_lem" for n in ("exported-get", "first_leaf", "last_leaf", "record_is", "small-cells", "stands-in", "to_free")
}
SKIPPED = ("pub", "abbrev", "unfoldable", "record", "data", "infix", "use", "let", "module")


def files(top, *endings):
    for folder, below, names in os.walk(top):
        below[:] = sorted(d for d in below if d not in ("out", ".git", "target"))
        for name in sorted(names):
            if name.endswith(endings):
                yield os.path.join(folder, name)


def snake(name):
    return re.sub(r"(?<=[a-z0-9])[A-Z]", lambda m: "_" + m.group(0).lower(), name) if name[:1].islower() else name


def own(path):
    """Whether a file has the definitions and lemmas of the repository, and not the proof of one function."""
    parts = path.split(os.sep)
    return "specs" in parts or parts[-2] == "proofs"


def defined(crates):
    found = set()
    for path in files("crates", ".antt"):
        if own(path):
            for line in open(path, encoding="utf-8"):
                m = SIGNATURE.match(line)
                if m and not line.lstrip().startswith("--"):
                    found.update(n for n in [m.group(2), *m.group(3).split()] if n not in SKIPPED)
    return found


def respelled(name, words):
    parts = [snake(p) for p in name.split("-")]
    said = parts[0]
    for i, part in enumerate(parts[1:], 1):
        left = re.split("-", said)[-1]
        rest = "_".join(parts[i:])
        joins = left in words and (part in words or rest in words)
        said += ("-" if joins else "_") + part
    return said


def main():
    crates = sorted(os.listdir("crates"))
    names = defined(crates)
    words = {snake(n) for n in names if "-" not in n and not n[:1].isupper()} | set(LIBRARY)
    turned = {}
    for n in sorted(names):
        to = WHOLE.get(n) or (respelled(n, words) if not n[:1].isupper() else n)
        if to != n:
            turned[n] = to
    by = {}
    for n in names:
        by.setdefault(turned.get(n, n), []).append(n)
    together = {k: v for k, v in by.items() if len(v) > 1}
    if together:
        for k, v in sorted(together.items()):
            print("fall together:", k, "<-", " ".join(sorted(v)))
        raise SystemExit(1)
    count = 0
    for path in files("crates", ".antt", ".rt", ".edit"):
        text = open(path, encoding="utf-8").read()
        foreign = set()
        for line in text.split("\n"):
            m = USE.match(line)
            if m and not re.match(r"Rattle\.(%s)(\.|$)" % "|".join(crates), m.group(1)):
                foreign.update(w.strip() for w in m.group(2).split(","))

        def turn(m):
            w = m.group(0)
            return w if w in foreign else turned.get(w, w)

        after = "\n".join(
            line if line.startswith("file:") or (path.endswith(".antt") and line.lstrip().startswith("pub mod")) else re.sub(WORD, turn, line)
            for line in text.split("\n")
        )
        if after != text:
            count += 1
            open(path, "w", encoding="utf-8").write(after)
    for n in sorted(turned):
        print(n, turned[n])
    print(f"{len(turned)} names in {count} files", file=sys.stderr)


main()

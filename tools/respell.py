#!/usr/bin/env python3
"""Spells this repository's own definitions and lemmas in snake case, as its toolchain does: a dash becomes an underscore.

usage: python3 tools/respell.py      at the top of the repository, once, on files whose own names still have dashes

A name is the repository's own if a file of specs/ or a lemma file of proofs/ uses it and imports it from no library. Those
names change wherever they stand as a whole name: in specs/, in proofs/, and in the clauses and imports of src/. Comments,
texts between quotes and must-fail edits stay as they are. In a function's proof files the names that the toolchain makes
(a goal's, and the steps behind `c.`) stay too.

It prints a line 'meets:' for each name that would come to stand beside another that is so spelled already.
"""
import re
from pathlib import Path

OWN_CRATE = re.compile(r"Rattle\.(%s)\b" % "|".join(sorted(p.name for p in Path("crates").iterdir())))
NAME = re.compile(r"[^\s(){}\[\].;:,@\"«»λ]+")
DASHED = re.compile(r"(?=.*\w)[^-].*-.*[^-]|to-25")
# A name that is a word and the sign of the whole numbers gets an underscore between them, as std's neg_ℤ has.
SIGNED = {"sumℤ": "sum_ℤ"}
USE = re.compile(r"^\s*(?:ghost )?use ([^\s{;]+)\.?\{([^}]*)\}", re.M)
IMPORTS = re.compile(r"^\s*(?:ghost )?use ([^\s{;]+)", re.M)
# A step or a goal, by the place where a proof file names it.
MADE = re.compile(r"\b(?:c|goal|need|l|w|g\.T)\.([^\s(){}\[\].;:,]+)")
SKIPPED = re.compile(r'"(?:[^"\\\n]|\\.)*"|--(?=[\s-]).*|//.*')


def is_function_proof(path):
    return path.name in ("Answers.antt", "Invariants.antt", "Choices.antt")


def files():
    for kind in ("specs/**/*.antt", "proofs/**/*.antt", "src/**/*.rt"):
        yield from sorted(Path("crates").glob("*/" + kind))


def imported(text):
    names = set()
    for module, listed in USE.findall(text):
        if not OWN_CRATE.match(module):
            for one in listed.split(","):
                names.update(one.split())
    return names


def code(text):
    return SKIPPED.sub(lambda m: " " * len(m.group()), text)


def own_names():
    """The dashed names of specs/ and lemma files, less what they import from a library."""
    names = set(SIGNED)
    libraries = set()
    for path in files():
        text = path.read_text()
        libraries |= imported(code(text))
        if path.suffix == ".antt" and not is_function_proof(path):
            body = IMPORTS.sub("", USE.sub("", code(text)))
            names |= {n for n in NAME.findall(body) if DASHED.fullmatch(n)} - imported(code(text))
    return names - libraries


def spelled(name):
    for old, new in SIGNED.items():
        name = name.replace(old, new)
    return name.replace("-", "_")


def respell(path, own):
    text = path.read_text()
    plain = code(text)
    made = set(MADE.findall(plain)) if is_function_proof(path) else set()
    if is_function_proof(path):
        made |= set(re.findall(r"^(?:abbrev )?pub (\S+) : goal\.", plain, re.M))
    here = set(NAME.findall(plain))
    out, at, met = [], 0, set()
    for m in NAME.finditer(plain):
        name = m.group()
        if name in own and name not in made:
            if spelled(name) in here:
                met.add(name)
            out += [text[at:m.start()], spelled(name)]
            at = m.end()
    out.append(text[at:])
    for name in sorted(met):
        print(f"meets: {path}: {name}")
    return "".join(out)


def main():
    own = own_names()
    for path in files():
        new = respell(path, own)
        if new != path.read_text():
            path.write_text(new)


main()

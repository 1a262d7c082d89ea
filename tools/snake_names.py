#!/usr/bin/env python3
"""Respells the repository's own definitions, lemmas and locals: words in snake case.

usage: python3 tools/snake_names.py [FOLDER]

    sheetOf, readSheet-is, ◌isIn◌  ->  sheet_of, read_sheet-is, ◌is_in◌

Run once, at the top, after the kit's port.py. A name is turned in each .antt and .rt file below crates/, in clauses, `ghost use` lines and
comments alike; code has none such. Types, modules and variants are in camel case already. Where the new spelling falls together with a name
that stood there, the one that stood there is written with a dash (APART).

    the-same-answer, alive-is, of-1  ->  the_same_answer, alive_is, of_1

Then the dashes of definitions, fields and constructors: a dash stays in the name of a lemma alone, where it stands between the words of its left
side. Comments keep their dashes but in backticks; names that Rattle makes for proofs keep theirs.
"""

import glob
import os
import re
import sys

HUMPS = re.compile(r"(?<![A-Za-z0-9_])([a-z][a-z0-9]*(?:[A-Z][A-Za-z0-9]*)+)(?![A-Za-z0-9])")
# Not names: hexadecimal numbers.
NUMBER = re.compile(r"x[0-9A-F]+$")
# Names that stood there: file, name, new name.
APART = [
    ("crates/condition/proofs/*.antt", "has_word", "has-word"),
    ("crates/clauses/proofs/ByTables.antt", "pair_is", "pair-is"),
    ("crates/meets/proofs/fill_pairs/Proof.antt", "pair_is", "pair-is"),
]


def snake(name):
    if NUMBER.match(name):
        return name
    return re.sub(r"(?<=[a-z0-9])([A-Z])", lambda m: "_" + m.group(1).lower(), name)


def write(path, text):
    with open(path, "w", encoding="utf-8", newline="") as f:
        f.write(text)


def read(path):
    with open(path, encoding="utf-8", newline="") as f:
        return f.read()


NAME = r"[A-Za-z_][\w'₀-₉]*(?:-[\w'₀-₉]+)+"
# Names that Rattle makes.
MADE = re.compile(r"(invariant|decreases|iterator|ghost)-")
# Names that would fall together with another in a file.
KEPT = {"at-end", "conditions-in", "in-condition", "over-limit", "with-body"}


def dashed():
    """The names with a dash of definitions, fields and constructors."""
    found = set()
    for path in glob.glob("crates/**/*.antt", recursive=True):
        if "/out/" in path:
            continue
        text = re.sub(r"--[^\n]*", "", read(path))
        found.update(re.findall(rf"(?m)^\s*(?:abbrev|unfoldable)(?: pub)? ({NAME}) :", text))
        inside = None
        for line in text.split("\n"):
            indent = len(line) - len(line.lstrip())
            if re.match(r"\s*(?:pub )?(?:record|data) ", line):
                inside = indent
            elif line.strip() and inside is not None and indent <= inside and not line.strip().startswith(":"):
                inside = None
            elif inside is not None:
                found.update(re.findall(rf"^\s+(?:pub )?({NAME}) :", line))
    return {it for it in found if not MADE.match(it)} - KEPT


def undashed(text, names):
    """The text with those names in snake case, outside comments and strings; in comments within backticks."""
    token = re.compile(r"(?<![\w'₀-₉-])(" + NAME + r")(?![\w'₀-₉-])")
    turn = lambda part: token.sub(lambda m: m.group(1).replace("-", "_") if m.group(1) in names else m.group(1), part)
    out = []
    for piece in re.split(r"((?://|--)[^\n]*|\"(?:[^\"\\]|\\.)*\")", text):
        if piece.startswith(("//", "--")):
            piece = re.sub(r"`[^`]*`", lambda m: turn(m.group(0)), piece)
        elif not piece.startswith('"'):
            piece = turn(piece)
        out.append(piece)
    return "".join(out)


def main():
    if len(sys.argv) > 1:
        os.chdir(sys.argv[1])
    for pattern, old, new in APART:
        for path in sorted(glob.glob(pattern, recursive=True)):
            text = read(path)
            turned = re.sub(r"(?<![\w'.-])" + old + r"(?![\w'-])", new, text)
            if turned != text:
                write(path, turned)
    count = 0
    for path in sorted(glob.glob("crates/**/*.antt", recursive=True) + glob.glob("crates/**/*.rt", recursive=True)):
        if "/out/" in path:
            continue
        text = read(path)
        turned = HUMPS.sub(lambda m: snake(m.group(1)), text)
        if turned != text:
            write(path, turned)
            count += 1
    print(f"{count} files turned")
    names, count = dashed(), 0
    for path in sorted(glob.glob("crates/**/*.antt", recursive=True) + glob.glob("crates/**/*.rt", recursive=True)):
        if "/out/" in path:
            continue
        text = read(path)
        turned = undashed(text, names)
        if turned != text:
            write(path, turned)
            count += 1
    print(f"{len(names)} names without a dash, {count} files turned")


main()

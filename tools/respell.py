#!/usr/bin/env python3
"""Brings the names of definitions and lemmas that port.py leaves in camel case to snake case: canonicalOf becomes canonical_of.

usage: tools/respell.py [--list] [FOLDER]

FOLDER is the repository, the current folder if none is named. It rewrites crates/*/src/**/*.rt, crates/*/{specs,proofs}/**/*.antt and
crates/*/must-fail/*.edit in place. A type, a fact and a module keep their capitals; a dash that joins two names stays; a prime is an
apostrophe; and getD, which the library calls get_or, is get_or in a lemma's name too. A lemma that has the name that a definition gets is
told apart by `_lem`. --list prints the old and the new names and writes nothing.
"""

import os
import re
import sys

# Lemmas, fields and local names that have the name that a definition gets: all_known is a lemma of allKnown. They get `_lem` behind it.
LEMMAS = "all_known all_wanted by_number in_place is_below lent_rows meet_below record_of row_inside rows_end same_beside target_at targets_of"
LEMMA = re.compile(
    r"(?<![\w.'-])(Differed\.|numbered\.|)(" + "|".join(LEMMAS.split()) + r")(?![\w.'-])"
)
TOKEN = re.compile(r"[^\s(){}\[\];,.@\"`:]+")
CAMEL = re.compile(r"^[a-z][a-z0-9₀-₉]*[A-Z]")
DECLARED = re.compile(r"^[ ]*(?:abbrev |unfoldable |pub )*([^\s(){}\[\];,.]+)(?: [^\s(){}\[\];,.]+)* :(?=\s)", re.M)
FIELDS = re.compile(r"^[ ]+pub ([^\s(){}\[\];,.]+) :", re.M)


def files(root):
    for crate in sorted(os.listdir(os.path.join(root, "crates"))):
        top = os.path.join(root, "crates", crate)
        for part, endings in (("src", (".rt",)), ("specs", (".antt",)), ("proofs", (".antt",)), ("must-fail", (".edit",))):
            for folder, dirs, names in os.walk(os.path.join(top, part)):
                dirs.sort()
                yield from (os.path.join(folder, it) for it in sorted(names) if it.endswith(endings))


def read(path):
    with open(path, encoding="utf-8") as f:
        return f.read()


def snake(word):
    """canonicalOf: canonical_of; each part between dashes by itself."""
    parts = []
    for part in word.split("-"):
        part = re.sub(r"^getD(?=$|[A-Z_])", "get_or", part)
        if CAMEL.match(part):
            part = re.sub(r"(?<=[a-z0-9₀-₉'])([A-Z]+)", lambda m: "_" + m[1].lower(), part)
        parts.append(part)
    return "-".join(parts).replace("′", "'")


def mapping(root):
    declared = set()
    for path in files(root):
        if path.endswith(".antt"):
            declared.update(DECLARED.findall(read(path)))
            declared.update(FIELDS.findall(read(path)))
    renamed = {it: snake(it) for it in declared}
    return declared, {old: new for old, new in renamed.items() if old != new}


def main(words):
    listed = "--list" in words
    roots = [it for it in words if not it.startswith("-")]
    if [it for it in words if it.startswith("-") and it != "--list"] or len(roots) > 1:
        print(__doc__)
        return 2
    root = roots[0] if roots else "."
    declared, renamed = mapping(root)
    for old, new in sorted(renamed.items()):
        clash = new in declared and new not in LEMMAS.split() or sum(it == new for it in renamed.values()) > 1
        if listed or clash:
            print(f"{old} {new}{' falls together' if clash else ''}")
    # A second run has nothing to rename, and would take definitions for the lemmas that have their names.
    if listed or not renamed:
        return 0
    for path in files(root):
        text = read(path)
        new = LEMMA.sub(r"\1\2_lem", text) if path.endswith(".antt") else text
        new = TOKEN.sub(lambda m: renamed.get(m[0], m[0]), new)
        if new != text:
            with open(path, "w", encoding="utf-8") as f:
                f.write(new)
    return 0


if __name__ == "__main__":
    raise SystemExit(main(sys.argv[1:]))

#!/usr/bin/env python3
"""Spells the repository's own definitions and lemmas in snake case, after the kit's port.py: `virtualSeed` becomes `virtual_seed`.

usage: tools/respell.py        at the top of the repository, once, with everything committed

A word is turned where it begins with a small letter and has a capital: no function of src/, no exported name and no string is spelled so, and
types, modules and facts begin with a capital. A lemma keeps its dashes: `virtualSeed-min` becomes `virtual_seed-min`. Three lemmas would have a
definition's name and get `_lem`, two definitions would have a field's, and one fact gets its capital. It rewrites crates/, and prints each word that is turned with the number of places.
"""
import collections
import pathlib
import re
import sys

ROOT = pathlib.Path(__file__).resolve().parent.parent
WORD = re.compile(r"(?<![A-Za-z0-9_])[a-z][a-z0-9_]*[A-Z][A-Za-z0-9_]*")
# A name that a turned word would meet, in the file that declares it and those that cite it.
FALLS = {
    "decimal": [("is_digit", "is_digit_lem")],
    "content_claim": [("by_mode", "by_mode_lem")],
    "cut_list_station_claim": [("numbers_of", "numbers_of_lem")],
    "frame_call": [("is_none", "IsNone")],
}
# A definition that would have the name of a field.
FIELDS = {"isFrame": "isFrameLine", "initialCut": "initialCutOf"}


def turned(word):
    word = FIELDS.get(word, word)
    return re.sub(r"(?<=[a-z0-9_])[A-Z]+", lambda m: "_" + m[0].lower(), word).replace("__", "_")


def main():
    seen, places = {}, collections.Counter()
    paths = sorted(p for end in ("antt", "rt", "edit") for p in ROOT.glob(f"crates/**/*.{end}") if "/out/" not in str(p))
    for path in paths:
        text = path.read_text()
        crate = path.relative_to(ROOT).parts[1]
        if path.suffix == ".antt" and "/proofs/" in str(path):
            for old, new in FALLS.get(crate, []):
                text = re.sub(rf"(?<![A-Za-z0-9_.-]){old}(?![A-Za-z0-9_-])", new, text)

        def turn(m):
            new = turned(m[0])
            if seen.setdefault(new, m[0]) != m[0]:
                sys.exit(f"respell: {m[0]} and {seen[new]} would be one name")
            places[m[0]] += 1
            return new

        new = WORD.sub(turn, text)
        if new != path.read_text():
            path.write_text(new)
    for word in sorted(places):
        print(f"{word} {turned(word)} {places[word]}")


main()

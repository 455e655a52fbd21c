#!/usr/bin/env python3
"""Brings the repository's own definitions and lemmas to snake case.

usage: python3 tools/respell.py        at the top of the repository

A name that is declared in crates/*/specs or crates/*/proofs, begins with a small letter and has a capital or a dash in it
gets an underscore in that place: amountOf and add-more become amount_of and add_more. Types, modules, names of goals and
names of src/ keep their spelling. What turns are whole words: in .antt and .rt files outside of strings, in must-fail
edits, and in the code spans of pages. Nothing is written where two names of one file would fall together. A second run
changes nothing.
"""

import collections
import os
import re
import sys

DECLARED = re.compile(
    r"^\s*(?:(?:unfoldable|abbrev|pub|pattern|data|record)\s+)*"
    r"([^\s(){}.;,@\"«»:]+)(?:\s*\{[^}]*\})?\s*:(?=\s)",
    re.M,
)
WORD = re.compile(r"[^\s(){}.;,@\"«»:`]+")
STRING = re.compile(r"(b?\"(?:[^\"\\\n]|\\.)*\")")
SPAN = re.compile(r"(`[^`\n]*`)")
CODE = (".antt", ".rt", ".edit")

# a word of the older library in the name of a lemma
LIBRARY_WORDS = {"getD": "get_or"}

# names that would fall together with another in snake case: a definition with the function that it is about, a lemma with
# the definition that it is about, a type with one of the
# library, or a type that has a dash
APART = {
    "blockWords": "block_words_of",
    "keyWords": "key_words_of",
    "preparedWords": "prepared_words_of",
    "constantsFrom": "constants_place",
    "inversesFrom": "inverses_place",
    "keysFrom": "keys_place",
    "lowestOne": "lowest_one_of",
    "firstWrong": "first_wrong_of",
    "firstStray": "first_stray_of",
    "newBit": "new_bit_of",
    "tripleAt": "triple_of",
    "byteWidth": "byte_width_of",
    "bodySize": "body_size_of",
    "headSize": "head_size_of",
    "oneByOne": "one_by_one_of",
    "bit-and": "and_of_bits",
    "bit-xor": "xor_of_bits",
    "lowest-in": "lowest_in_is",
    "allKeep": "all_published_keep",
    "record-size": "record_size_is",
    "set-of": "set_of_parts",
    "matrix-at": "matrix_at_is",
    "IsTrue": "IsTrueTriple",
    "Worked-example": "WorkedExample",
}


def snake(name):
    if name in APART:
        return APART[name]
    for old, new in LIBRARY_WORDS.items():
        name = name.replace(old, new)
    name = re.sub(r"(?<=[a-z0-9])(?=[A-Z])", "_", name)
    return name.replace("-", "_").lower()


def files(top, endings):
    for folder, folders, names in os.walk(top):
        folders[:] = sorted(f for f in folders if f not in ("out", ".git"))
        for name in sorted(names):
            if name.endswith(endings):
                yield os.path.join(folder, name)


def read(path):
    with open(path, encoding="utf-8") as f:
        return f.read()


def declared():
    found = set()
    for path in files("crates", (".antt",)):
        text = read(path)
        for m in DECLARED.finditer(text):
            is_goal = text[m.end() :].lstrip().startswith("goal." + m[1])
            if not is_goal:
                found.add(m[1])
    return {
        name: snake(name)
        for name in found
        if (name[0].islower() or name in APART) and snake(name) != name
    }


def turned(text, table, pattern, inside):
    """The text with each word of the table turned, in the parts that the pattern cuts out, or else in those between them."""
    parts = pattern.split(text)
    for i, part in enumerate(parts):
        if (i % 2 == 1) == inside:
            parts[i] = WORD.sub(lambda m: table.get(m[0], m[0]), part)
    return "".join(parts)


def fallen_together(path, text, table):
    words = collections.defaultdict(set)
    for m in WORD.finditer(text):
        words[table.get(m[0], m[0])].add(m[0])
    return [f"{path}: {sorted(olds)}" for olds in words.values() if len(olds) > 1]


def main():
    table = declared()
    written, together = {}, []
    for path in files("crates", CODE):
        text = read(path)
        new = turned(text, table, STRING, inside=False)
        if path.endswith((".antt", ".rt")):
            together += fallen_together(path, text, table)
        if new != text:
            written[path] = new
    pages = list(files("docs", (".md",))) + ["README.md"]
    for path in pages:
        text = read(path)
        new = turned(text, table, SPAN, inside=True)
        if new != text:
            written[path] = new
    if together:
        print("names fall together, nothing is written:", *together, sep="\n")
        return 1
    for path, text in written.items():
        with open(path, "w", encoding="utf-8") as f:
            f.write(text)
    print(f"{len(table)} names, {len(written)} files")
    return 0


if __name__ == "__main__":
    sys.exit(main())

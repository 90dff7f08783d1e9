#!/usr/bin/env python3
"""Gives this repository's own definitions the spelling of today's Rattle: words in snake case.

    python3 tools/respell.py            once, at the top of the repository, after the kit's port.py

A name such as `entryLength` becomes `entry_length`, in every file of specs/ and proofs/, in every clause, `ghost use` and comment of src/,
in the must-fail edits and in the documents. Names of Rattle functions, exported names, strings and numbers have no capital inside and stay.
Names of types begin with a capital and stay. Lemmas keep the dashes that join the parts of their names.

A word that is now spelled like a lemma, because port.py had given the lemma the underscores of a function of that name, would fall
together with it. LEMMAS lists these: there the lemma gets its dashes back first. What still falls together is printed and nothing is
written.
"""
import collections
import glob
import re
import sys

# Lemmas that port.py spelled like a definition: the name, and the files that mean the lemma.
LEMMAS = {
    "all_sound": ["crates/repack/proofs/Accepting.antt"],
    "cells_out": ["crates/format/proofs/ShownModule.antt"],
    "each_from": ["crates/acceptance/proofs/FillingChunks.antt"],
    "found_in": ["crates/query_theorems/proofs/FoundBlocks.antt"],
    "front_of": ["crates/packed_rows/proofs/Reading.antt", "crates/packed_rows/proofs/Checking.antt"],
    "entry_length": ["crates/packed_rows/proofs/Reading.antt"],
    "not_covered": ["crates/format/proofs/RepackedModule.antt", "crates/format/proofs/ChunkKinds.antt"],
    "not_there": [
        "crates/compare/proofs/WalkingRecords.antt", "crates/queries/proofs/Numbering.antt", "crates/replace/proofs/Answering.antt",
    ],
    "sample_in": ["crates/replace/proofs/Accepting.antt", "crates/replace/proofs/Placing.antt"],
    "too_long": [
        "crates/query_theorems/proofs/WorkedRefusals.antt", "crates/query_theorems/proofs/Theorems.antt",
        "crates/replace/proofs/Answering.antt", "crates/replace/proofs/replace_at/Proof.antt",
    ],
    "rows_same": [],
}
# Files of the documents that speak of names as they were.
HISTORY = ("docs/K4-left.patch", "docs/PORT.md")
# A name of the library that is part of lemmas' names.
PARTS = {"getD": "get_or"}

NAME = re.compile(r"[^\W\d][\w'₀-₉-]*")


def is_camel(word):
    return re.match(r"[a-z]\w*[A-Z]|[a-z][\w-]*[a-z0-9][A-Z]", word) and re.search(r"[a-z0-9][A-Z]", word) and not re.match(r"x[0-9A-F]+$", word)


def snake(word):
    for old, new in PARTS.items():
        word = re.sub(rf"(^|-){old}(?=-|$)", rf"\1{new}", word)
    word = word.replace("at16Bits", "at_16Bits")
    word = re.sub(r"([a-z0-9])([A-Z])", r"\1_\2", word)
    return re.sub(r"_([A-Z])", lambda m: "_" + m[1].lower(), word)


def read(path):
    with open(path, encoding="utf-8") as f:
        return f.read()


def all_files():
    antt = [p for kind in ("specs", "proofs") for p in glob.glob(f"crates/*/{kind}/**/*.antt", recursive=True)]
    code = glob.glob("crates/*/src/**/*.rt", recursive=True)
    edits = glob.glob("crates/*/must-fail/*.edit")
    pages = [p for p in ["README.md", "crates.txt"] + glob.glob("docs/*") if p not in HISTORY]
    return sorted(antt), sorted(code), sorted(edits), sorted(pages)


def words(text):
    return NAME.findall(re.sub(r'b?"[^"\n]*"', '""', text))


def main():
    antt, code, edits, pages = all_files()
    texts = {p: read(p) for p in antt + code + edits + pages}
    for name, places in LEMMAS.items():
        for p in places:
            texts[p] = re.sub(rf"(?<![\w'-]){name}(?![\w'-])", name.replace("_", "-"), texts[p])
    for p in antt:
        texts[p] = re.sub(r"(?<![\w'-])(rows_same)(?![\w'-])", "rows-same", texts[p])
    found = collections.defaultdict(set)
    for p in antt + code:
        for word in words(texts[p]):
            if is_camel(word):
                found[snake(word)].add(word)
    bad = [f"{new}: {sorted(old)}" for new, old in found.items() if len(old) > 1]
    there = collections.defaultdict(set)
    for p in antt:
        for word in words("\n".join(line for line in texts[p].split("\n") if re.match(r"\s*(abbrev |unfoldable )?(pub )?[^\s:]+ :", line))):
            there[word].add(p)
    if bad:
        print("\n".join(bad))
        sys.exit(1)
    names = {old: new for new, olds in found.items() for old in olds}
    for p, text in texts.items():
        # In code only the word itself can be a name of specs/; a Rust string holds none.
        pieces = re.split(r'(b?"[^"\n]*")', text) if p.endswith(".rt") else [text]
        new = "".join(piece if i % 2 else NAME.sub(lambda m: names.get(m[0], m[0]), piece) for i, piece in enumerate(pieces))
        if new != read(p):
            with open(p, "w", encoding="utf-8") as f:
                f.write(new)
    print(f"{len(names)} names")


main()

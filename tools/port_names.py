#!/usr/bin/env python3
"""Respells the names of this repository's definitions and lemmas as today's Rattle spells names: words in snake case, facts in
upper camel case. Run once at the top, after the kit's port.py; a second run changes nothing.

Respelled are words that begin with a small letter and have a capital one: `bitLength` becomes `bit_length`, also as a part of a
lemma's name (`bitLength-unique`), and `modℕ` becomes `mod_ℕ`, as the library's `neg_ℤ`. The dashes of lemmas stay: they join the
parts of a left side. Three definitions are facts and get a capital letter, and five lemmas, whose names would fall together with
those of the definitions that they are about, get longer names. Functions of src/, exported names, strings, inputs and outputs have no
such words, and the tool stops if one is met there. It also stops where two names of a file would become one."""
import glob
import re
import sys

CAMEL = re.compile(r"(?<![\w'])[a-z][a-z0-9]*(?:[A-Z]|[ℕℤ](?![\w']))[\w']*")
# A name, but not one behind a dot: that is a field, or the last part of a path.
NAME = re.compile(r"(?<![^\s(){}\[\],;])[^\s(){}\[\],;.\"`]+")
CLAUSE = re.compile(r"\s*(ghost |requires|ensures)|.*[≡→⌝∷×⌜λ]")

# Old name, new name, and the files.
FACTS = [
    ("part_of", "PartOf", ["rule_laws/specs/Rules.antt", "rule_laws/proofs/Refusals.antt"]),
    ("gives", "GivesTwo", ["fixnum_laws/proofs/WidthCases.antt"]),
    ("refuses", "Refuses", ["fold/proofs/Cases.antt"]),
]
LEMMAS = [
    (
        "is_negative",
        "is_negative-word",
        [
            "words/proofs/WordLaws.antt",
            "words/proofs/sign/magnitude/Proof.antt",
            "words/proofs/sign/absolute/Proof.antt",
            "widewords/proofs/double/of_word/Proof.antt",
        ],
    ),
    ("all_hold", "all_hold-first_failed", ["outcomes/proofs/TestLaws.antt", "fxstages/proofs/DomainLaws.antt"]),
    ("has_room", "has_room-done", ["limb_laws/proofs/LegalLaws.antt", "limb_laws/proofs/Steps.antt"]),
    ("in_field", "in_field-bit", ["bits/proofs/Samples.antt"]),
    ("after_tag", "after_tag-tagged", ["rules/proofs/EncodeParse.antt"]),
]


def snake(word):
    word = re.sub(r"(?<=[a-z0-9])([A-Z])", lambda m: "_" + m.group(1).lower(), word)
    return re.sub(r"(?<=[a-z0-9])(?=[ℕℤ](?![\w']))", "_", word)


def respelled(path, text, known):
    """`text` with each word of `known`, or every such word if `known` is None, respelled."""
    for old, new, files in FACTS + LEMMAS:
        if path.removeprefix("crates/") in files:
            text = re.sub(r"(?<![\w'.`-])" + old + r"(?![\w'`-])", new, text)
    return CAMEL.sub(lambda m: snake(m.group()) if known is None or m.group() in known else m.group(), text)


def fallen_together(path, text, known):
    """The names that several names of `text` would become. A function's name and a definition's may be one: clauses see the one, code
    the other."""
    text = re.sub(r"(?m)--.*$|//.*$", "", text)
    if path.endswith(".rt"):
        text = re.sub(r"(?ms)^(pub )?use .*?;|\b(fn|mod) \w+|::\w+|\b\w+(?=\()", "", text)
    news = {}
    for m in NAME.finditer(text):
        news.setdefault(respelled(path, m.group(), known), set()).add(m.group())
    return [(path, new, sorted(olds)) for new, olds in news.items() if len(olds) > 1]


def read(path):
    with open(path, encoding="utf-8") as file:
        return file.read()


def main():
    antt = sorted(glob.glob("crates/*/specs/**/*.antt", recursive=True) + glob.glob("crates/*/proofs/**/*.antt", recursive=True))
    code = sorted(glob.glob("crates/*/src/**/*.rt", recursive=True))
    edits = sorted(glob.glob("crates/*/must-fail/*.edit"))
    pages = ["README.md", "tests/README.md", "tests/command.md"] + sorted(glob.glob("docs/**/*.md", recursive=True))
    known = {m.group() for path in antt for m in CAMEL.finditer(read(path))}

    faults = []
    for path in antt + code:
        faults += fallen_together(path, read(path), known)
    for path in code:
        for number, line in enumerate(read(path).split("\n"), 1):
            if CAMEL.search(line) and not CLAUSE.match(line):
                faults.append((path, number, line.strip()))
    for fault in faults:
        print("stop:", *fault)
    if faults:
        sys.exit(1)

    changed = 0
    for path in antt + code + edits + pages:
        old = read(path)
        # An edit holds words that port.py has respelled elsewhere by the same rule.
        new = respelled(path, old, None if path.endswith(".edit") else known)
        if new != old:
            changed += 1
            with open(path, "w", encoding="utf-8") as file:
                file.write(new)
    print(f"{len(known)} words, {changed} files changed")


if __name__ == "__main__":
    main()

#!/usr/bin/env python3
"""Spells the repository's own definitions and lemmas as today's Rattle does, once, after port.py (docs/PORT.md).

usage: tools/respell.py [--dry]     at the top of the repository

Types and modules keep their capital; all other names become snake case, inside each part that a dash bounds. A dash stays where
both of its sides name a definition (length-word_at), and becomes '_' where a side is a plain word (moves_differ). Names that
Rattle makes of the code, as the goals in proofs/F/, and names of src/ stay as they are. It goes by whole words, in .antt, .rt
and .edit files everywhere, and in pages and the scripts of tests/ between backquotes alone.
"""
import glob
import json
import re
import sys

LETTER = r"[\w'₀₁₂₃₄₅₆₇₈₉ℕℤ]"
TOKEN = re.compile(rf"{LETTER}+(?:-{LETTER}+)*")
LOWER = re.compile(r"^[a-z]")
MARKS = r"(?:pub |abbrev |unfoldable )*"
SIGNATURE = re.compile(rf"^({MARKS})({LETTER}+(?:-{LETTER}+)*) :(?: |$)")
INNER = re.compile(rf"^\s+(?:\| )?(?:pub )?({LETTER}+(?:-{LETTER}+)*(?: {LETTER}+(?:-{LETTER}+)*)*) :(?: |$)")
TYPE = re.compile(rf"^{MARKS}(record|data) ({LETTER}+)")
LIBRARY = set("length take drop map append reverse replicate get_or set flatten mod div mul add sub cond not and or eqb ltb leb suc zero".split())
# what falls together with another name otherwise, and what has to stay
BY_HAND = {
    "in-range": "stays_in_range",
    "is_word": "proper",
    "line_read": "line_read_lem",
    "run_out": "run_out_lem",
    "step_by": "step_by_lem",
    "too_many": "too_many_lem",
    "all_kinds": "all_kinds_lem",
    "digits_more": "digits_more_lem",
}


def snake(word):
    return re.sub(r"(?<=[a-z0-9])([A-Z])", lambda m: "_" + m.group(1).lower(), word) if LOWER.match(word) else word


def lemma_files():
    return sorted(glob.glob("crates/*/specs/**/*.antt", recursive=True) + [p for p in glob.glob("crates/*/proofs/**/*.antt", recursive=True) if not p.endswith("/Proof.antt")])


def own_names():
    """Names that the repository defines, and those of them that are definitions and no lemmas."""
    names, definitions = set(), set()
    for path in lemma_files():
        for line in open(path, encoding="utf-8"):
            if m := TYPE.match(line):
                names.add(m.group(2))
                definitions.add(m.group(2))
            elif m := SIGNATURE.match(line):
                names.add(m.group(2))
                if "abbrev" in m.group(1) or "unfoldable" in m.group(1):
                    definitions.add(m.group(2))
            elif m := INNER.match(line):
                names |= {n for n in m.group(1).split() if n not in ("let", "in", "elim")}
    return names, definitions


def table():
    names, definitions = own_names()
    words = {snake(d) for d in definitions if "-" not in d} | LIBRARY
    plain = words | {snake(n) for n in names if "-" not in n}
    turned = {}
    for name in names:
        parts = [snake(p) for p in name.split("-")]
        new = parts[0]
        for left, right in zip(parts, parts[1:]):
            new += ("-" if left in words and right in words else "_") + right
        if "-" in name and new in plain:
            new += "_lem"  # a lemma that would have its function's name
        new = BY_HAND.get(name, new)
        if new != name:
            turned[name] = new
    return turned


def turn(text, turned):
    return TOKEN.sub(lambda m: turned.get(m.group(0), m.group(0)), text)


def files():
    for pattern in ("crates/**/*.antt", "crates/**/*.rt", "crates/**/*.edit"):
        yield from ((p, False) for p in glob.glob(pattern, recursive=True) if "/out/" not in p)
    yield from ((p, True) for p in ["README.md", *glob.glob("docs/*.md")])


def main(args):
    turned = table()
    if "--table" in args:
        json.dump(turned, sys.stdout, ensure_ascii=False, indent=0, sort_keys=True)
        return
    for path, prose in files():
        text = open(path, encoding="utf-8").read()
        new = re.sub(r"`[^`\n]+`", lambda m: turn(m.group(0), turned), text) if prose else turn(text, turned)
        if new != text and "--dry" not in args:
            open(path, "w", encoding="utf-8").write(new)


if __name__ == "__main__":
    main(sys.argv[1:])

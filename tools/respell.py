#!/usr/bin/env python3
"""Brings this repository's own definitions and lemmas to today's spelling: words in snake case. Run once, after the kit's port.py, at the top.

A word in camel case that begins small becomes snake case, in each part of a lemma's name too. Types, modules, functions of src/, exported C
names and strings keep theirs. MANUAL has the names that would fall together with another one, or with a field that clauses read.
"""
import collections
import glob
import re

MANUAL = {
    "keyLength": "is_key_length",  # a field of Card is called key_length
    "keysHash": "card_keys_hash",  # a field of Sealed is called keys_hash
    "replySize": "reply_size_for",  # a field of Card is called reply_size
    "xorBlock": "block_xor",  # std has xor_block
}
# Lemmas that a definition's new name would meet in one file, with what they are called now.
LEMMAS = {
    "crates/claims/specs/EdgesHold.antt": {"no_zero": "no_zero-holds"},
    "crates/door_claims/specs/Uuid.antt": {"record_of": "record_of-parts"},
    "crates/key_expansion/specs/Turns.antt": {"next_word": "next_is_word"},
}
FIELDS = {"keyLength"}  # also the name of a record's field, which may be called as the struct's field is

WORD = re.compile(r"(?<![\w'-])[A-Za-z][\w']*(?:-[\w'≡≤<]+)*")
DEFINED = re.compile(r"^\s*(?:abbrev |unfoldable |ruleset )*(?:pub )?(?:record |data )?(?:pub )?([^\s(){}:,;=]+)(?:\s+[({][^\n]*?[)}])*\s+:\s", re.M)


def snake(part):
    if part in MANUAL:
        return MANUAL[part]
    part = part.replace("getD", "get_or").replace("get_d_", "get_or-")
    if part[:1].isupper():
        return part
    return re.sub(r"([a-z0-9])([A-Z])", lambda m: m[1] + "_" + m[2].lower(), part)


def spelled(name):
    return "-".join(snake(p) for p in name.split("-"))


def files(*patterns):
    return sorted(f for p in patterns for f in glob.glob(p, recursive=True) if "/out/" not in f)


def main():
    sources = files("crates/*/specs/**/*.antt", "crates/*/proofs/**/*.antt")
    names = set()
    for f in sources:
        with open(f, encoding="utf-8") as it:
            names |= set(DEFINED.findall(it.read()))
    turned = {n: spelled(n) for n in names if spelled(n) != n}
    met = collections.defaultdict(set)
    for n, s in turned.items():
        met[s].add(n)
    for s, ns in sorted(met.items()):
        if len(ns) > 1 or s in names:
            print("look: %s is now %s, which is the name of something already" % (" and ".join(sorted(ns)), s))
    tokens = files("crates/**/*.antt", "crates/**/*.rt", "crates/*/must-fail/*.edit", "tests/edits/**/*.edit", "README.md", "docs/*.md", "docs/changes/*.md")
    for f in tokens:
        with open(f, encoding="utf-8") as it:
            text = it.read()
        new = text
        if f in LEMMAS:
            new = WORD.sub(lambda m: LEMMAS[f].get(m[0], m[0]), new)
        new = WORD.sub(lambda m: turned.get(m[0], spelled(m[0]) if f.endswith((".edit", ".md")) and spelled(m[0]) in set(turned.values()) else m[0]), new)
        if new != text:
            with open(f, "w", encoding="utf-8") as it:
                it.write(new)
    print("%d names in %d files" % (len(turned), len(tokens)))


main()

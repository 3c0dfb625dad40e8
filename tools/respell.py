#!/usr/bin/env python3
"""Respells the repository's own names, after port.py of the toolchain: words in snake case, types in upper camel case.

usage: python3 tools/respell.py [--docs] [FOLDER]     FOLDER is a checkout's top, or else the folder where it is called

A name is read part by part, between dashes: camel case becomes snake case (length-readItems is length-read_items), and getD is
get_or, as in the library. It rewrites specs/, proofs/, src/ and must-fail/ of every crate; with --docs the pages that name
definitions. Where no name of the crates has the older spelling, it changes nothing.
"""

import os
import re
import sys

# What a token ends at.
TOKEN = re.compile(r"[^\s(){}.;,@\"«»\[\]\\:→←=|&?!<>*/+`#]+")
CAMEL = re.compile(r"[a-z0-9₀-₉][A-Z]")

# Names that no rule gives: definitions that are types, and lemmas and fields that would fall together with a definition.
BY_HAND = {
    "mayStand": "MayStand",
    "get_d_past": "get_or-past",
    "get_d_part": "get_or-part",
    "get_d_map": "get_or-map",
    "get_d_sets_before": "get_or-sets_before",
}
# Lemmas and fields whose names some definitions now get, in .antt files alone: there functions of src/ are not meant.
FREED = {
    "all_among": "all_among_lem",
    "cast_fits": "cast_fits_lem",
    "pairs_of": "pairs_of_lem",
    "same_bytes": "same_bytes_lem",
    "quotient_fits": "quotient-fits",
    "count_fits": "count-fits",
    "in_order": "in-order",
    "all_hold": "all-hold",
}
# Of these the steps of a function's proof are meant, which have the names of functions.
STEP = re.compile(r"proofs/.*Proof\.antt$")
PAGES = ("README.md", "docs", "tools/reading", "tests", "rust", "fuzz", "include", "examples")


def part(p):
    if not p or not p[0].islower() or not CAMEL.search(p):
        return p
    if p == "getD":
        return "get_or"
    p = re.sub(r"([a-z0-9₀-₉])([A-Z])", r"\1_\2", p)
    return re.sub(r"([A-Z])([A-Z][a-z])", r"\1_\2", p).lower()


def respelled(token):
    if token in BY_HAND:
        return BY_HAND[token]
    return "-".join(map(part, token.split("-"))) if CAMEL.search(token) else token


def turned(text, freed):
    def one(m):
        t = m[0]
        return FREED[t] if freed and t in FREED else respelled(t)

    return TOKEN.sub(one, text)


def write(path, text):
    with open(path, encoding="utf-8") as f:
        old = f.read()
    new = text(old)
    if new != old:
        with open(path, "w", encoding="utf-8") as f:
            f.write(new)
    return new != old


def files(top):
    for folder, dirs, names in os.walk(top):
        dirs[:] = sorted(d for d in dirs if d not in ("out", "target", ".git"))
        for n in sorted(names):
            yield os.path.join(folder, n)


def names_of(crates):
    """The names that the crates have, before they are respelled: what a page may speak of."""
    found = set()
    for p in files(crates):
        if p.endswith(".antt"):
            with open(p, encoding="utf-8") as f:
                found |= {t for t in TOKEN.findall(f.read()) if respelled(t) != t}
    return found


def main(argv):
    docs = "--docs" in argv
    rest = [a for a in argv if a != "--docs"]
    top = rest[0] if rest else "."
    crates = os.path.join(top, "crates")
    known = names_of(crates)
    if not known:
        print("no name has the older spelling: nothing to do")
        return
    changed = 0
    for p in files(crates):
        if p.endswith((".antt", ".rt", ".edit")):
            freed = p.endswith(".antt") and not STEP.search(p)
            changed += write(p, lambda t: turned(t, freed))
    if docs:
        for page in PAGES:
            page = os.path.join(top, page)
            for p in files(page) if os.path.isdir(page) else [page]:
                if p.endswith((".md", ".txt", ".sh")) and "landings" not in p and not p.endswith(("docs/PORT.md", "Cargo.lock")):
                    changed += write(p, lambda t: TOKEN.sub(lambda m: respelled(m[0]) if m[0] in known else m[0], t))
    print(f"{changed} files changed")


if __name__ == "__main__":
    main(sys.argv[1:])

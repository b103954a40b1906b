#!/usr/bin/env python3
"""Respells the words of specs/, proofs/ and clauses: termsIn becomes terms_in. Types, modules and constructors of types keep their capital.

usage: respell.py [--check] TOP

Rewrites crates/*/{src,specs,proofs}/**/*.{rt,antt} below TOP. --check writes nothing, and names what falls together: a file in which
a new word stands already.
"""
import os
import re
import sys

WORD = re.compile(r"[^\s(){}.;,@\"«»\[\]\\⟦⟧]+")
HUMP = re.compile(r"(?<=[a-z0-9])(?=[A-Z])")
# Lemmas that today's spelling gives their function's name: they take a plain word after it.
LEMMAS = set(
    "same_bytes same_number number_fits free_bound by_shape take_all well_typed ending_of one_byte is_digit keys_in key_in not_taken in_order"
    " not_itself run_call run_on saved_after as_before".split()
)
PATH = re.compile(r"Rattle(\.[\w'-]+)+")


def respelled(word):
    """Each part of a word between dashes that begins small gets its humps as underscores."""
    parts = re.split(r"([-·◌+*/<>≤≡≢=&|!^%:∷→×∘′'₀-₉]+)", word)
    out = []
    for part in parts:
        if re.fullmatch(r"[a-z_][A-Za-z0-9_]*", part) and re.search(r"[a-z0-9][A-Z]", part):
            part = re.sub(r"([a-z0-9])([A-Z]+)(?=[A-Z][a-z])", r"\1_\2_", part)
            part = re.sub(r"([A-Z])(?=[A-Z][a-z])", lambda m: m[1], part)
            part = HUMP.sub("_", part).lower()
        out.append(part)
    return "".join(out)


def plain(text):
    """In a proof file, a lemma that would have its function's name; fields, steps and paths have a dot before them."""
    one = r"(?<![\w.'·-])(%s)(?![\w'′-])" % "|".join(sorted(LEMMAS))
    out, last = [], 0
    for path in PATH.finditer(text):
        out += [re.sub(one, r"\1_lem", text[last : path.start()]), path[0]]
        last = path.end()
    return "".join(out) + re.sub(one, r"\1_lem", text[last:])


COMMENT = re.compile(r"(--[^\n]*|//[^\n]*|\"(?:[^\"\\]|\\.)*\")")


def turn(text, rust):
    out = []
    for at, piece in enumerate(COMMENT.split(text)):
        if at % 2 and piece.startswith('"'):
            out.append(piece)
            continue
        if not rust and not at % 2:
            piece = plain(piece)
        out.append(WORD.sub(lambda m: respelled(m[0]), piece))
    return "".join(out)


def main(argv):
    check = "--check" in argv
    top = [it for it in argv if it != "--check"][0]
    fell = 0
    for folder, dirs, files in os.walk(os.path.join(top, "crates")):
        dirs[:] = sorted(d for d in dirs if d not in ("out", "must-fail", "data"))
        for name in sorted(files):
            if not name.endswith((".rt", ".antt")):
                continue
            path = os.path.join(folder, name)
            with open(path, encoding="utf-8", newline="") as it:
                text = it.read()
            new = turn(text, name.endswith(".rt"))
            if check:
                bare = PATH.sub(" ", plain(COMMENT.sub(" ", text)))
                words = set(re.findall(r"[A-Za-z_][A-Za-z0-9_'′-]*", bare))
                for w in sorted(words):
                    r = respelled(w)
                    if r != w and r in words:
                        fell += 1
                        print(f"{path}: {w} -> {r} stands there")
            if new != text and not check:
                with open(path, "w", encoding="utf-8", newline="") as it:
                    it.write(new)
                print(path)
    if check:
        print(fell, "fall together")
    return 0


if __name__ == "__main__":
    raise SystemExit(main(sys.argv[1:]))

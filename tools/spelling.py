#!/usr/bin/env python3
"""Brings the repository's own definitions and lemmas to today's spelling: words in snake case.

usage: python3 tools/spelling.py      at the top, once, right after port.py

Reads crates/**/*.antt, the clauses of crates/**/*.rt, and the edits crates/*/must-fail/*.edit. No Rust name, string or number changes:
a word in lower camel case stands in clauses and in antt alone.
"""
import glob
import os
import re

TOKEN = re.compile(r"[A-Za-z_₀-₉Ͱ-Ͽ'][\w₀-₉'′-]*")
CAMEL = re.compile(r"(^|-)[a-z_][a-z0-9_]*[A-Z]")
HEX = re.compile(r"x[0-9A-F]+$")
# a dash that stands in a definition, a field or a constructor of specs/
DECLARED = re.compile(r"^\s*(?:(?:abbrev|unfoldable|pub|opaque|data|record) )*([a-z][\w'-]*-[\w'-]*) *: ", re.M)
ENTRY = re.compile(r"[{;] *([a-z][\w'-]*-[\w'-]*) : ")
# a lemma that would have the name of its definition, by the file that declares it
LEMMAS = {
    "crates/monitor_base/proofs/LocatingLaws.antt": "in_one",
    "crates/demands/proofs/Literals.antt": "in_stack",
    "crates/plain/proofs/ImageLaws.antt": "read_back",
    "crates/specification/proofs/AuditSame.antt": "read_back",
    "crates/demands_origins/proofs/Alters.antt": "cells_fit",
    "crates/calls_origins_format/proofs/KeptLaws.antt": "cells_fit",
}

# a field that would have the name of the definition that it speaks of
FIELDS = {"copy-number": "copy_number_lem", "counter-after": "counter_after_lem", "no-share": "no_share_lem", "point-number": "point_number_lem"}


def snake(word):
    parts = word.split("-")
    for i, p in enumerate(parts):
        if re.match(r"[a-z_]", p) and re.search(r"[A-Z]", p):
            parts[i] = re.sub(r"(?<=[a-z0-9])([A-Z])", r"_\1", p).lower()
    return "-".join(parts)


def read(path):
    with open(path, encoding="utf-8") as f:
        return f.read()


def files():
    for pattern in ("crates/**/*.antt", "crates/**/*.rt", "crates/*/must-fail/*.edit"):
        yield from sorted(p for p in glob.glob(pattern, recursive=True) if "/out/" not in p)


def lemma(path, text):
    """Gives the lemma of a file that has the name of its definition another name, where it is declared and where it is imported from there."""
    for declared, name in LEMMAS.items():
        word = re.compile(r"(?<![\w'.-])" + name + r"(?![\w'-])")
        if path == declared:
            text = word.sub(name + "_lem", text)
        else:
            module = "Rattle." + ".".join(declared[len("crates/"):-len(".antt")].split("/")) + "."
            taken = re.compile(r"^(\s*(?:pub )?use " + re.escape(module) + r"\{)([^}]*)\}", re.M)
            if any(name in [w.strip() for w in m.group(2).split(",")] for m in taken.finditer(text)):
                text = word.sub(name + "_lem", text)
    return text


def main():
    texts = {p: read(p) for p in files()}
    # first, the lemmas, as long as the definitions still have other names
    new = {p: lemma(p, t) for p, t in texts.items()}
    words, dashed = set(), set()
    for p, t in new.items():
        words.update(w for w in TOKEN.findall(t) if CAMEL.search(w) and not HEX.match(w))
        if "/specs/" in p and p.endswith(".antt"):
            dashed.update(DECLARED.findall(t))
            dashed.update(ENTRY.findall(t))
    turned = {w: snake(w) for w in words}
    turned.update({w: snake(w).replace("-", "_") for w in dashed})
    turned.update(FIELDS)
    for p, t in new.items():
        t = TOKEN.sub(lambda m: turned.get(m.group(0), m.group(0)), t)
        if t != texts[p]:
            with open(p, "w", encoding="utf-8") as f:
                f.write(t)
    print(len(turned), "words")
    for w in sorted(dashed):
        print("dash", w, turned[w])


if __name__ == "__main__":
    os.chdir(os.path.join(os.path.dirname(os.path.realpath(__file__)), ".."))
    main()

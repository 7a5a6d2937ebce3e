#!/usr/bin/env python3
"""Lists functions of crates/*/src that are one text but for numbers, types and names: twins, a group a line.

Clauses and comments are left out; bodies of fewer than four lines are not looked at.
"""
import pathlib
import re
import sys

HEAD = re.compile(r'^( *)(?:pub(?:\(crate\))? )?(?:extern "C" )?fn (\w+)', re.M)


def functions(text):
    """Each function's name and the text from its signature to its end."""
    for head in HEAD.finditer(text):
        end = text.find("\n" + head.group(1) + "}\n", head.start())
        if end >= 0:
            yield head.group(2), text[head.start():end]


def shape(body):
    """A function's text without clauses and comments, each number and name by the order in which it first stands."""
    kept = []
    for line in body.split("\n"):
        line = line.split("//")[0]
        if re.match(r"\s*(requires|ensures)\b", line) or re.match(r"\s+[×≡(] ?", line) and "≡" in line:
            continue
        if line.strip():
            kept.append(line.strip())
    seen = {}
    words = re.compile(r"0x[0-9a-fA-F]+|\d+|\w+")
    text = words.sub(lambda m: str(seen.setdefault(m.group(0), len(seen))), "\n".join(kept))
    return len(kept), re.sub(r"\s+", " ", text)


def main(root):
    groups = {}
    for path in sorted(pathlib.Path(root).glob("crates/*/src/**/*.rt")):
        crate = path.relative_to(root).parts[1]
        for name, body in functions(path.read_text(encoding="utf-8")):
            lines, text = shape(body)
            if lines >= 4:
                groups.setdefault(text, []).append(f"{crate}::{name}")
    twins = sorted(g for g in groups.values() if len(g) > 1)
    for group in twins:
        print(" ".join(group))
    print(f"{len(twins)} groups, {sum(len(g) - 1 for g in twins)} functions more than one each")


main(pathlib.Path(sys.argv[1] if len(sys.argv) > 1 else "."))

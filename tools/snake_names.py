#!/usr/bin/env python3
"""Spells the repository's own words as today's Rattle does, once, after port.py: definitions and lemmas in snake case, types in
camel case. Usage: snake_names.py TOP. It reads the names that specs/ and proofs/ declare, and turns them where they stand whole
in .antt and .rt files (comments, strings and code of Rust left out) and in must-fail edits."""

import collections
import glob
import os
import re
import sys

DECLARED = re.compile(r"^\s*(?:(?:abbrev|unfoldable|rec)\s+)*(?:pub\s+)?([A-Za-z_][A-Za-z0-9_'-]*) :(?!:)", re.M)
HEAD = re.compile(r"^\s*(?:pub )?(?:record|data|rec|abbrev|unfoldable) (?:pub )?([A-Za-z_][A-Za-z0-9_'-]*)", re.M)
WORD = re.compile(r"[A-Za-z_][A-Za-z0-9_'-]*")

# Variables of specs/ that are spelled as the definitions are.
VARIABLES = {"account-type", "buyer-effect", "seller-effect"}


def spelled(name):
    if name[0].isupper():
        return "".join(part[:1].upper() + part[1:] for part in name.split("-"))
    return name.replace("-", "_").lower()


def pieces(text, comment):
    """The text in pieces (piece, whether it is code)."""
    out, at = [], 0
    for found in re.finditer(comment + r'.*|"(?:\\.|[^"\\\n])*"', text):
        out.append((text[at:found.start()], True))
        out.append((found.group(0), False))
        at = found.end()
    out.append((text[at:], True))
    return out


def main():
    top = sys.argv[1] if len(sys.argv) > 1 else "."
    antt = sorted(glob.glob(os.path.join(top, "crates/*/specs/*.antt")) + glob.glob(os.path.join(top, "crates/*/proofs/**/*.antt"), recursive=True))
    code = sorted(glob.glob(os.path.join(top, "crates/*/src/**/*.rt"), recursive=True))
    edits = sorted(glob.glob(os.path.join(top, "crates/*/must-fail/*.edit")))
    names = set(VARIABLES)
    for path in antt:
        parts = path[len(top):].strip("/").split("/")
        if parts[2] == "proofs" and len(parts) > 4:
            continue
        text = open(path, encoding="utf-8").read()
        for found in list(DECLARED.finditer(text)) + list(HEAD.finditer(text)):
            if "-" in found.group(1):
                names.add(found.group(1))
    turned = {name: spelled(name) for name in names}
    back = collections.defaultdict(set)
    for old, new in turned.items():
        back[new].add(old)
    for new, olds in sorted(back.items()):
        if len(olds) > 1:
            print(f"fall together: {sorted(olds)} -> {new}")
    count = 0
    for path in antt + code + edits:
        text = open(path, encoding="utf-8").read()
        comment = "--" if path.endswith(".antt") else "//"
        new = "".join(WORD.sub(lambda m: turned.get(m.group(0), m.group(0)), piece) if is_code else piece for piece, is_code in pieces(text, comment))
        if new != text:
            count += 1
            with open(path, "w", encoding="utf-8") as out:
                out.write(new)
    print(f"{len(names)} words, {count} files")


main()

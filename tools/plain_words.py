#!/usr/bin/env python3
"""Takes the library's plain word All off another word: files that import `AllByRecursion as All` say AllByRecursion. Usage: plain_words.py TOP"""

import glob
import os
import re
import sys

top = sys.argv[1] if len(sys.argv) > 1 else "."
for kind in ("crates/*/specs/*.antt", "crates/*/proofs/**/*.antt", "crates/*/src/**/*.rt"):
    for path in glob.glob(os.path.join(top, kind), recursive=True):
        with open(path, encoding="utf-8") as file:
            text = file.read()
        if "AllByRecursion as All" not in text:
            continue
        text = text.replace("AllByRecursion as All", "All")
        lines = [line if re.match(r"\s*(--|//)", line) else re.sub(r"(?<![\w'.-])All(?![\w'-])", "AllByRecursion", line) for line in text.split("\n")]
        with open(path, "w", encoding="utf-8") as file:
            file.write("\n".join(lines))

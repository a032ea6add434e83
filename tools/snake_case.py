#!/usr/bin/env python3
"""Brings the repository's own definitions and lemmas to snake case: today's Rattle writes words so, and types, facts and modules in camel case.

usage: python3 tools/snake_case.py      at the top of the repository, once, after the kit's port.py

It turns each part of a name that begins with a small letter and has a capital later, as personOf in personOf-none. In crates/ it turns .antt files
whole; in .rt files, the edits and the pages it turns just the names that an .antt file had. Where a new name stands already in a file that has the
old one too, it says so ('falls together'), and the file is turned all the same.
"""

import glob
import os
import re

CAMEL = re.compile(r"(?<![A-Za-z0-9_'\\])([a-z][a-z0-9]*[A-Z][A-Za-z0-9]*)(?![A-Za-z0-9_])")
PAGES = ["README.md", "CHANGELOG.md", "CONTRIBUTING.md", "docs/DECISIONS.md", "docs/RULES.md", "docs/TRUST.md", "docs/PERFORMANCE.md"]


def snake(name):
    return re.sub(r"([a-z0-9])([A-Z])", lambda m: m.group(1) + "_" + m.group(2).lower(), name)


def read(path):
    with open(path, encoding="utf-8") as f:
        return f.read()


def own(pattern):
    return sorted(p for p in glob.glob(pattern, recursive=True) if "/out/" not in p)


def main():
    antt, code = own("crates/**/*.antt"), own("crates/**/*.rt") + own("crates/*/must-fail/*.edit")
    names = {n for p in antt for n in CAMEL.findall(read(p))}
    turned = 0
    for path in antt + code + [p for p in PAGES if os.path.exists(p)]:
        text = read(path)
        if path in PAGES:  # names of the code's own files and words of prose stay: just what is in backquotes is turned
            new = re.sub(r"`[^`\n]*`", lambda m: CAMEL.sub(lambda n: snake(n.group(1)) if n.group(1) in names else n.group(1), m.group(0)), text)
        else:
            new = CAMEL.sub(lambda m: snake(m.group(1)) if m.group(1) in names else m.group(1), text)
        if new == text:
            continue
        for name in sorted(set(CAMEL.findall(text)) & names):
            if re.search(r"(?<![A-Za-z0-9_.-])" + snake(name) + r"(?![A-Za-z0-9_-])", text):
                print(f"falls together: {path}: {name} and {snake(name)}")
        with open(path, "w", encoding="utf-8") as f:
            f.write(new)
        turned += 1
    print(f"{len(names)} names, {turned} files")


main()

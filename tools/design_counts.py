#!/usr/bin/env python3
"""Counts the places of the points of docs/DESIGN-PASS.md in crates/*/src: tools/design_counts.py [-v] [FOLDER]."""
import collections
import pathlib
import re
import sys

verbose = "-v" in sys.argv
folder = pathlib.Path(next((a for a in sys.argv[1:] if a != "-v"), "."))
sources = {p: p.read_text() for p in sorted(folder.glob("crates/*/src/*.rt"))}
places = collections.defaultdict(list)


def place(point, path, text, at, what):
    line = text.count("\n", 0, at) + 1
    places[point].append(f"{path.relative_to(folder / 'crates')}:{line}: {what}")


def found(point, pattern, what=lambda m: m.group(0).strip()):
    for path, text in sources.items():
        code = re.sub(r"//[^\n]*", lambda m: " " * len(m.group(0)), text)
        for m in re.finditer(pattern, code, re.M):
            place(point, path, text, m.start(), what(m))


# the functions: name, parameters, result, body
functions = []
for path, text in sources.items():
    for m in re.finditer(r"^ *(?:pub(?:\(crate\))? )?(?:extern \"C\" )?fn (\w+)(?:<[^>]*>)?\(", text, re.M):
        depth, at = 1, m.end()
        while depth:
            depth += {"(": 1, ")": -1}.get(text[at], 0)
            at += 1
        parameters = dict(re.findall(r"(\w+): ([^,]+(?:<[^>]*>)?)", text[m.end():at - 1]))
        functions.append((path, text, m.start(), m.group(1), parameters))

# 1: enums of the code; flags in structs; a number that says 'none'; numbers for kinds
found("1 enums", r"^ *(?:pub(?:\(crate\))? )?enum (\w+)")
found("1 flags beside a value", r"^ *(?:pub )?\w+: bool,")
for path, text, at, name, parameters in functions:
    if parameters.get("kind") == "u16":
        place("1 numbers for kinds", path, text, at, f"{name}(kind: u16)")
found("1 numbers for kinds", r"^ *pub kind: u16,")
for path, text in sources.items():
    for m in re.finditer(r"^ *//[^\n]*(?<!P )\bor (?:the (?:row's |text's )?(?:length|end)|F|0|255|256|`to`|how many cells)\b[^\n]*", text, re.M):
        place("1 a number that says 'none'", path, text, m.start(), m.group(0).strip()[:90])

# 3: loops
found("3 while and loop", r"^ *(?:while\b|loop \{)[^\n]*")

# 4: small functions that a derive or std has; fields named twice
known = "same_client same_class labelled smaller lesser by_break one_if wide at_or_0 byte_at is_digit stands excess cell_for choose " \
    "other_client one_class sanitised clear_at has_bytes two_groups folder_no".split()
for path, text, at, name, parameters in functions:
    if name in known:
        place("4 by hand what std or a derive has", path, text, at, name)
    elif (path.name in ("told.rt", "refusal.rt") or name == "in_numbers") and name != "from":
        place("4 conversions by hand", path, text, at, name)
found("4 fields named twice", r"^ *(\w+): \1,$")

# 5: parameters that travel together
for path, text, at, name, parameters in functions:
    kinds = []
    if {"classes", "clients"} <= set(parameters) and "&[u16]" in (parameters["classes"], parameters["clients"]):
        kinds.append("classes, clients")
    if {"firsts", "seconds"} <= set(parameters):
        kinds.append("firsts, seconds")
    if {"matrix", "start"} <= set(parameters):
        kinds.append("matrix, start")
    if kinds:
        place("5 parameters that travel together", path, text, at, f"{name}({'; '.join(kinds)})")
# a fact that stands in the contracts of three or more functions
facts = collections.Counter()
for text in sources.values():
    for m in re.finditer(r"^ *requires(?: \w+)? \{ (.*) \}$", text, re.M):
        for fact in re.split(r" × ", m.group(1)):
            facts[re.sub(r"[()]", "", fact)] += 1
for fact, n in sorted(facts.items()):
    if n >= 3:
        places["5 facts in three or more contracts"].append(f"{n} times: {fact}")

# 6: fixed buffers
found("6 fixed buffers", r"^[^\n]*\[(?:0|0u8|0u16|0u64|0u32); \d+\][^\n]*")
found("6 fixed buffers", r"^ *(?:pub )?\w+: \[u\d+; \d+\],")

# 7: a switch on which step to run
for path, text, at, name, parameters in functions:
    if "Sort" in parameters.values():
        place("7 a switch on which step to run", path, text, at, f"{name}(sort: Sort)")

for point in sorted(places):
    print(f"{len(places[point]):4}  {point}")
    if verbose:
        for p in places[point]:
            print("        " + p)

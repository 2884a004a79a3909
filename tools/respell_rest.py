#!/usr/bin/env python3
"""Brings to snake case what respell.py did not see, once, after it.

usage: python3 tools/respell_rest.py      at the top of the repository

1. The names that a file of src/ gives to what it brings in (`graphed as isGraphed`): such a name stands in its own file alone, in clauses. A
   name that the file has already is not taken: the script stops there.
2. Three constructors, of which one line declares several, and two parameters of records. The lemma `unit_d` would meet one of them, so it is
   called a law.
"""

import glob
import re
import sys

GIVEN = re.compile(r"\bas ([a-z][a-z0-9]*(?:[A-Z][a-z0-9]*)+)\b")
OTHERS = {"nameT": "name_t", "nameC": "name_c", "unitD": "unit_d", "centresX": "centres_x", "centresY": "centres_y", "unit_d": "unit_d_law"}
OTHER = re.compile(r"(?<![\w'-])(%s)(?![\w'-])" % "|".join(OTHERS))


def read(path):
    with open(path, encoding="utf-8") as file:
        return file.read()


def write(path, text):
    with open(path, "w", encoding="utf-8") as file:
        file.write(text)
    print(path)


sources = sorted(glob.glob("crates/*/src/**/*.rt", recursive=True))
for path in sources:
    text = after = read(path)
    for name in sorted(set(GIVEN.findall(text))):
        snake = re.sub(r"(?<=[a-z0-9])([A-Z])", lambda m: "_" + m.group(1).lower(), name)
        if re.search(r"(?<!\w)%s(?!\w)" % snake, after):
            sys.exit("%s has %s already" % (path, snake))
        after = re.sub(r"(?<!\w)%s(?!\w)" % name, snake, after)
    if after != text:
        write(path, after)

texts = sources + sorted(glob.glob("crates/*/specs/**/*.antt", recursive=True) + glob.glob("crates/*/proofs/**/*.antt", recursive=True))
if any("unitD" in read(path) for path in texts):
    for path in texts:
        text = read(path)
        after = OTHER.sub(lambda m: OTHERS[m.group(1)], text)
        if after != text:
            write(path, after)

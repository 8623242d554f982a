#!/usr/bin/env python3
"""Turns the repository's own names of definitions and lemmas to snake case: `mostBits` to `most_bits`, `getD-chop` to `slice_index-chop`.

usage: tools/respell.py [--list]     at the top of the repository, once, after the kit's port.py; --list prints the names and changes nothing

Words of a name that a dash joins are turned one by one. Names of types and modules stay in camel case, a letter of a formula (kL, aL) stays as it is.
Where two names would become one, nothing is written and both are printed; a new name that stands somewhere already is printed too.
"""

import glob
import re
import sys

TEXTS = ("crates/*/specs/**/*.antt", "crates/*/proofs/**/*.antt", "crates/*/src/**/*.rt")
NAME = re.compile(r"[^\W\d]['\w?₀-₉]*(?:-['\w?₀-₉]+)*", re.UNICODE)
FORMULAS = {"kL", "aL"}
# Words whose snake case is another name here, and one that the kit calls otherwise.
OTHERWISE = {
    "allMore": "all_more_dec",
    "noPlace": "no_place_left",
    "readAnswer": "answer_of_read",
    "changeAnswer": "answer_of_change",
    "getD": "get_or",
}


def snake(word):
    """One word of a name in snake case."""
    if word in OTHERWISE:
        return OTHERWISE[word]
    if word in FORMULAS or not re.match(r"[a-z]", word) or not re.search(r"[a-z0-9][A-Z]", word):
        return word
    return re.sub(r"(?<=[a-z0-9])([A-Z])(?![A-Z])", lambda m: "_" + m.group(1).lower(), word)


def turned(name):
    return "-".join(snake(word) for word in name.split("-"))


def files():
    return sorted({path for pattern in TEXTS for path in glob.glob(pattern, recursive=True)})


def main():
    texts = {}
    for path in files():
        with open(path, encoding="utf-8") as text:
            texts[path] = text.read()
    found, all_names = {}, set()
    for path, text in texts.items():
        for name in NAME.findall(text):
            all_names.add(name)
            if turned(name) != name:
                found.setdefault(turned(name), set()).add(name)
    clash = {new: old for new, old in found.items() if len(old) > 1}
    taken = {new: old for new, old in found.items() if new in all_names}
    for new, old in sorted(clash.items()):
        print(f"falls together: {sorted(old)} as {new}")
    for new, old in sorted(taken.items()):
        print(f"stands already: {new}, for {sorted(old)}")
    if "--list" in sys.argv:
        for new, old in sorted(found.items()):
            print(f"{sorted(old)[0]} {new}")
        return 0
    if clash:
        return 1
    changed = 0
    for path, text in texts.items():
        new = NAME.sub(lambda m: turned(m.group(0)), text)
        if new != text:
            changed += 1
            with open(path, "w", encoding="utf-8") as out:
                out.write(new)
    print(f"respell: {sum(map(len, found.values()))} names in {changed} files")
    return 0


sys.exit(main())

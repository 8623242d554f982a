#!/usr/bin/env python3
"""Counts the places of each point of docs/DESIGN-PASS.md in crates/*/src: places.py [COMMIT] [--list]. Without a commit, the files as they stand."""
import collections
import re
import subprocess
import sys


def sources(commit):
    """Each source file's path and text."""
    if commit is None:
        import pathlib

        for path in sorted(pathlib.Path("crates").glob("*/src/*.rt")):
            yield str(path), path.read_text()
        return
    names = subprocess.run(["git", "ls-tree", "-r", "--name-only", commit, "crates"], capture_output=True, text=True, check=True).stdout.split()
    for name in names:
        if re.fullmatch(r"crates/[^/]+/src/[^/]+\.rt", name):
            yield name, subprocess.run(["git", "show", f"{commit}:{name}"], capture_output=True, text=True, check=True).stdout


LINES = {
    "1 own enums": r"^(pub )?enum ",
    "1 a flag or an answer in a struct": r"^    (pub )?[a-z_]+: (bool|Answer),",
    "1 a number or a record in place of none": r"return (0|REFUSED|rules::REFUSED);",
    "1 a number in place of a kind or a mark": r"\b(kind|op|mark|marks\[[a-z]\]) [!=]= [0-9]|\breturn [12];",
    "3 while": r"^ *('[a-z]+: )?(while|loop)\b",
    "4 by hand": r"^ *(pub )?fn (same|number|value|record_of|glyph|put[a-z_]*|digits_of|apart|higher|at_top|lesser)\(",
    "5 settings and sizes": r"settings: Settings, sizes: Sizes|^    sizes: Sizes,",
    "5 StagedFacts": r"^ *requires.*StagedFacts",
    "5 Sized": r"^ *requires.*Sized",
    "5 Levelled": r"^ *requires.*Levelled",
    "5 Low": r"^ *requires.*\bLow ",
    "5 cells, len, count": r"cells: &(mut )?\[u8\], (len|k): usize|^    (len|count): usize,",
    "5 floor and step": r"floor: u8, step: u8",
    "6 arrays": r"\[u(8|16); MOST_BITS",
    "6 a buffer and a place in it": r"&mut \[u8\], (at|waiting|from|hand): usize",
    "7 a switch on a step": r"^ *match (plan|asked|entry) ",
}


def shape(body):
    """A body's tokens with names numbered in their order, and numbers, types and comparisons made alike."""
    names, out = {}, []
    for token in re.findall(r"[A-Za-z_]\w*|\d+|<=|>=|==|!=|&&|\|\||\+=|-=|[^\s\w]", body):
        if re.fullmatch(r"u8|u16|u32|usize", token):
            out.append("T")
        elif re.fullmatch(r"[A-Za-z_]\w*", token) and token not in KEEP:
            out.append(names.setdefault(token, f"n{len(names)}"))
        elif token.isdigit():
            out.append("N")
        elif token in ("<", "<=", ">", ">=", "==", "!="):
            out.append("cmp")
        else:
            out.append(token)
    return " ".join(out)


KEEP = {"if", "else", "while", "for", "in", "let", "mut", "return", "match", "as", "true", "false", "fn", "self"}


def functions(text):
    """Each function's name and body."""
    for found in re.finditer(r"\bfn (\w+)", text):
        # the body opens with the first brace that ends a line: a clause closes its own
        opening = re.compile(r"\{$", re.M).search(text, found.end())
        depth, i = 0, opening.start()
        while True:
            depth += {"{": 1, "}": -1}.get(text[i], 0)
            i += 1
            if depth == 0:
                break
        yield found.group(1), text[opening.start() : i]


def main():
    arguments = [a for a in sys.argv[1:] if a != "--list"]
    commit = arguments[0] if arguments else None
    files = list(sources(commit))
    for title, pattern in LINES.items():
        places = [f"{name}:{number}: {line.strip()}" for name, text in files for number, line in enumerate(text.split("\n"), 1) if re.search(pattern, line)]
        print(f"{title}: {len(places)}")
        if "--list" in sys.argv:
            print("\n".join("    " + p for p in places))
    groups = collections.defaultdict(list)
    for name, text in files:
        for function, body in functions(text):
            groups[shape(body)].append(f"{name.split('/')[1]}::{function}")
    twins = [g for g in groups.values() if len(g) > 1]
    print(f"2 functions of one shape: {sum(map(len, twins))} in {len(twins)} groups")
    if "--list" in sys.argv:
        for group in twins:
            print("    " + ", ".join(group))


main()

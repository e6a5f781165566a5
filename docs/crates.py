#!/usr/bin/env python3
"""Writes the table of crates in docs/ARCHITECTURE.md anew, from crates.txt and the first sentence of the comment that each crate begins with.

Run it anywhere: python3 docs/crates.py
"""
import os
import re

HERE = os.path.dirname(os.path.abspath(__file__))
TOP = os.path.dirname(HERE)
BEGIN, END = "<!-- crates: made by docs/crates.py -->\n", "<!-- end of crates -->\n"


def stands_on():
    """The words behind each crate's name in crates.txt, each crate behind those that it stands on."""
    with open(os.path.join(TOP, "crates.txt")) as file:
        lines = dict(re.match(r"(\w+)[^:]*:(.*)", line).groups() for line in file if re.match(r"\w+[^:#]*:", line))
    given, ordered = {name: words.split() for name, words in lines.items()}, {}

    def visit(name):
        if name in given and name not in ordered:
            for below in given[name]:
                visit(below)
            ordered[name] = given[name]

    for name in given:
        visit(name)
    return ordered


def first_sentence(name):
    """The first sentence of the comment that a crate begins with."""
    for root in ("lib.rt", "main.rt"):
        path = os.path.join(TOP, "crates", name, "src", root)
        if os.path.isfile(path):
            with open(path, encoding="utf-8") as file:
                text = re.match(r"(?://.*\n)*", file.read()).group()
            return re.split(r"\.(?:\s|$)", re.sub(r"\s*//!? ?", " ", text).strip(), maxsplit=1)[0]
    return ""


def below(name, known):
    """All that a crate stands on, at any depth."""
    return {it for word in known.get(name, []) for it in {word} | below(word, known)}


def row(name, known):
    words = [word for word in known[name] if not any(word in below(other, known) for other in known[name])]
    return f"| `{name}` | {first_sentence(name)} | {', '.join(f'`{word}`' for word in words)} |\n"


def main():
    known = stands_on()
    table = "| Crate | What it holds | Stands on |\n|---|---|---|\n" + "".join(row(name, known) for name in known)
    path = os.path.join(HERE, "ARCHITECTURE.md")
    with open(path, encoding="utf-8") as file:
        before, rest = file.read().split(BEGIN)
    with open(path, "w", encoding="utf-8") as file:
        file.write(before + BEGIN + "\n" + table + "\n" + END + rest.split(END)[1])


main()

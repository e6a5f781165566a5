#!/usr/bin/env python3
"""Writes a project into FOLDER: FILES classes in ten packages, each file of at most BYTES bytes, whose main declares integers from those before.

generate.py FOLDER FILES BYTES [dense]

With `dense` the statements are long sums of short names without a blank, so that a file has many nodes.
"""
import os
import sys

HEAD = "package part{part};\n\npublic class Class{number} {{\n    public static void main(String[] args) {{\n"
FOOT = "    }\n}\n"
FORMS = [
    "        int longLocal{k} = (longLocal{a} + {k}) * (longLocal{b} - {k});\n",
    "        int longLocal{k} = longLocal{a} * 3 - (longLocal{b} + longLocal{a});\n",
    "        int longLocal{k} = longLocal{a} + longLocal{b} * longLocal{a} - {k};\n",
]


def line_of(k):
    line = FORMS[k % 3].format(k=k, a=k - 1, b=k - 2)
    return line + f"        System.out.println(longLocal{k});\n" if k % 10 == 0 else line


def dense_line_of(k):
    return f"int a{k}=" + "+".join(f"a{k - 1}*a{k - 2}" for _ in range(60)) + ";"


def text_of(number, size, dense):
    first = ["int a0=7;", "int a1=9;"] if dense else ["        int longLocal0 = 7;\n", "        int longLocal1 = 9;\n"]
    lines = [HEAD.format(part=number % 10, number=number)] + first
    left = size - sum(map(len, lines)) - len(FOOT)
    k = 2
    while True:
        line = dense_line_of(k) if dense else line_of(k)
        if len(line) > left:
            return "".join(lines) + FOOT
        lines.append(line)
        left -= len(line)
        k += 1


folder, files, size, dense = sys.argv[1], int(sys.argv[2]), int(sys.argv[3]), sys.argv[4:] == ["dense"]
for number in range(files):
    place = os.path.join(folder, f"part{number % 10}")
    os.makedirs(place, exist_ok=True)
    with open(os.path.join(place, f"Class{number}.java"), "w") as file:
        file.write(text_of(number, size, dense))

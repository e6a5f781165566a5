#!/usr/bin/env python3
"""Times the parser of expressions on one long expression of each size: measure.py FOLDER [BYTES ..].

Run it at the top. A workspace with the crates and the program of program.txt is made in FOLDER, outside the checkout, and is proved and
built there, which takes some minutes. It wants the command /usr/bin/time.
"""
import os
import sys

sys.path.insert(0, os.path.join(os.path.dirname(os.path.abspath(__file__)), ".."))
from timing import built, run

PART = "f(a + b * 2, c == d ? e : g, new int[] {1, 2}, h.i(j)[k], (int) l, x -> { y(); z = 1; }), "


def main():
    top, folder = os.getcwd(), os.path.abspath(sys.argv[1])
    text = os.path.join(top, "bench/parse/program.txt")
    program = built(top, folder, "parsed", text, ["java_exprs", "java_lexer", "java_tree", "j2k_base", "anyhow"])
    for size in map(int, sys.argv[2:] or ["1000000", "4000000", "16000000"]):
        text = os.path.join(folder, f"list{size}")
        with open(text, "w") as file:
            file.write("f(" + PART * (size // len(PART)) + "a)")
        best = min(run([program, text], folder) for _ in range(5))
        print(f"{os.path.getsize(text)} bytes: {best[0]:.3f} s, {best[1]:.1f} MB, status {best[2]}")


main()

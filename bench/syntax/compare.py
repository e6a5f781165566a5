#!/usr/bin/env python3
"""Compares the parser with that of javac on generated files: compare.py FOLDER [COUNT [SEED]].

Run it at the top. The files of generate.py, one line each, are made in FOLDER/files; a workspace with the crates and the program of
program.txt is made in FOLDER, outside the checkout, and is proved and built there, which takes long. Where there is no javac, nothing is done.
"""
import collections
import glob
import os
import shutil
import subprocess
import sys

HERE = os.path.dirname(os.path.abspath(__file__))
sys.path.insert(0, os.path.join(HERE, ".."))
from timing import built


def main():
    if not shutil.which("javac"):
        return print("there is no javac")
    top, folder = os.getcwd(), os.path.abspath(sys.argv[1])
    files, classes = os.path.join(folder, "files"), os.path.join(folder, "classes")
    subprocess.run([sys.executable, os.path.join(HERE, "generate.py"), files] + (sys.argv[2:4] or ["2000"]), check=True)
    paths = sorted(glob.glob(os.path.join(files, "*.java")))
    program = built(top, folder, "syntax", os.path.join(HERE, "program.txt"), ["java_parser", "java_lexer", "java_tree", "j2k_base", "anyhow"])
    lines = b"".join(open(path, "rb").read() for path in paths)
    ours = subprocess.run([program], input=lines, capture_output=True).stdout.decode().split("\n")
    subprocess.run(["javac", "-d", classes, os.path.join(HERE, "Syntax.java")], check=True)
    theirs = subprocess.run(["java", "-cp", classes, "Syntax"] + paths, capture_output=True, text=True).stdout.split("\n")
    counts = collections.Counter()
    for path, own, other in zip(paths, ours, theirs):
        is_fine, other_is_fine = own == "fine", other.endswith(" fine")
        counts[(own.split(" ")[0], "fine" if other_is_fine else "error")] += 1
        if is_fine != other_is_fine:
            print(os.path.basename(path), own, "|", other.split(" ", 1)[1])
    print(dict(counts))


main()

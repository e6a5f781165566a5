#!/usr/bin/env python3
"""Times the lexer and javac side by side on the same files, with their peak memory: measure.py FOLDER [BYTES ..].

Run it at the top. A workspace with the crates and the program of program.txt is made in FOLDER, outside the checkout, and is proved and
built there, which takes some minutes. It wants the command /usr/bin/time; javac is left out where it is missing.
"""
import glob
import os
import shutil
import subprocess
import sys

sys.path.insert(0, os.path.join(os.path.dirname(os.path.abspath(__file__)), ".."))
from timing import built, run


def main():
    top, folder = os.getcwd(), os.path.abspath(sys.argv[1])
    program = built(top, folder, "lexed", os.path.join(top, "bench/lex/program.txt"), ["java_lexer", "java_tree", "j2k_base", "anyhow"])
    for size in sys.argv[2:] or ["1048576", "16777216"]:
        java = os.path.join(folder, "java" + size)
        subprocess.run([sys.executable, os.path.join(top, "bench/lex/generate.py"), java, size], check=True)
        files = sorted(glob.glob(java + "/*.java"))
        best = min(run([program] + files, folder) for _ in range(9))
        print(f"{sum(map(os.path.getsize, files))} bytes, lex: {best[0]:.3f} s, {best[1]:.1f} MB, status {best[2]}")
        if shutil.which("javac"):
            best = min(run(["javac", "-proc:none", "-d", "classes"] + files, folder) for _ in range(2))
            print(f"{size} bytes, javac: {best[0]:.3f} s, {best[1]:.1f} MB, status {best[2]}")


main()

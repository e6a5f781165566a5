#!/usr/bin/env python3
"""The table of small projects with their first fault of names, and what javac says of each: table.py [FOLDER].

projects.txt holds a project a line: the code, or `none`; `own` where javac takes what this project's own rules refuse; then
`path=text` for each file. The mark § stands before the place of the fault.
Run it at the top. It writes stdin and stdout of the program java_names_cases, and where there is a javac, verdicts.txt: what is wanted, javac's verdict, the row. A last line says which rows don't agree: javac refuses where N1, N2, N3, N4 or N6 is wanted, and takes the project where nothing, N0 or N5 is.
"""
import os
import shutil
import subprocess
import sys
import tempfile

HERE = os.path.dirname(os.path.abspath(__file__))
CASES = os.path.join(HERE, "..", "..", "crates", "java_names_cases")
MARK = "§"


def projects():
    """Headings, empty lines, and rows as (code, words, [(path, text)])."""
    for line in open(os.path.join(HERE, "projects.txt"), encoding="utf-8").read().split("\n"):
        if not line or line.startswith("#"):
            yield line
        else:
            head, *files = line.split(" | ")
            code, *words = head.split(" ")
            yield code, words, [tuple(part.replace("\\n", "\n").split("=", 1)) for part in files]


def answer(code, files):
    """The code and the place of the first mark."""
    if code == "none":
        return code
    path, text = next((path, text) for path, text in files if MARK in text)
    before = text.split(MARK)[0]
    line, column = before.count("\n") + 1, len(before.rsplit("\n", 1)[-1].encode()) + 1
    return f"{code} {path} {line}:{column}"


def bare(files):
    return [(path, text.replace(MARK, "")) for path, text in files]


def verdicts(rows, folder):
    lines = []
    for number, (_, _, files) in enumerate(rows):
        paths = []
        for path, text in bare(files):
            place = os.path.join(folder, str(number), path)
            os.makedirs(os.path.dirname(place), exist_ok=True)
            open(place, "w", encoding="utf-8").write(text)
            paths += [place] if path.endswith(".java") else []
        lines.append(" ".join(paths))
    classes = os.path.join(folder, "classes")
    os.makedirs(classes, exist_ok=True)
    subprocess.run(["javac", "-d", folder, os.path.join(HERE, "Verdicts.java")], check=True)
    return subprocess.run(["java", "-cp", folder, "Verdicts", classes], input="\n".join(lines) + "\n", capture_output=True, text=True, check=True).stdout.split("\n")[:-1]


def main():
    table = list(projects())
    rows = [row for row in table if not isinstance(row, str)]
    with open(os.path.join(CASES, "stdin"), "w", encoding="utf-8") as out, open(os.path.join(CASES, "stdout"), "w", encoding="utf-8") as told:
        for row in table[:-1] if table[-1] == "" else table:
            if isinstance(row, str):
                print(row, file=out)
                print(row, file=told)
            else:
                code, _, files = row
                print("project " + "\\x1f".join(f"{path}={text}" for path, text in bare(files)).replace("\n", "\\n"), file=out)
                print(answer(code, files), file=told)
    if not shutil.which("javac"):
        return print("there is no javac")
    with tempfile.TemporaryDirectory() as made:
        said = verdicts(rows, sys.argv[1] if len(sys.argv) > 1 else made)
    apart = []
    with open(os.path.join(HERE, "verdicts.txt"), "w", encoding="utf-8") as out:
        for (code, words, files), verdict in zip(rows, said):
            wanted, is_own = answer(code, files), "own" in words
            refused = code in ("N1", "N2", "N3", "N4", "N6") and not is_own
            row = " | ".join(f"{path}={text}" for path, text in bare(files)).replace("\n", "\\n")
            print(f"{wanted}{' own' if is_own else ''}\t{verdict}\t{row}", file=out)
            if refused != verdict.startswith("refuses"):
                apart.append(f"{wanted} | {verdict} | {row}")
    print("\n".join(apart))
    print(f"{len(rows)} projects, {len(apart)} apart")


main()

#!/usr/bin/env python3
"""Times the converter and javac side by side on the same projects, with their peak memory: measure.py [FILES BYTES LAYOUT ..].

LAYOUT is `wide` or `dense` (see generate.py). Run it at the top, where ./j2k has built the program. It wants the command /usr/bin/time; javac is left out where it is missing.
"""
import os
import shutil
import subprocess
import sys
import tempfile

sys.path.insert(0, os.path.join(os.path.dirname(os.path.abspath(__file__)), ".."))
from timing import timed

SHAPES = ["2000", "2097", "wide", "2000", "8388", "wide", "2000", "8388", "dense", "16", "1048576", "wide", "16", "1048576", "dense"]


def java_files(folder):
    return [os.path.join(place, name) for place, _, names in os.walk(folder) for name in names]


def measure(top, folder, files, size, layout):
    source = os.path.join(folder, "src")
    subprocess.run([sys.executable, os.path.join(top, "bench/convert/generate.py"), source, files, size, layout], check=True)
    found = java_files(source)
    total = sum(map(os.path.getsize, found))
    with open(os.path.join(folder, "list"), "w") as listed:
        listed.write("\n".join(found))
    commands = {"j2k": [os.path.join(top, "crates/j2k/out/j2k"), "convert", "src", "out"]}
    if shutil.which("javac"):
        commands["javac"] = ["javac", "-proc:none", "-nowarn", "-d", "classes", "@list"]
    for name, words in commands.items():
        runs = []
        for turn in range(3 if name == "j2k" else 1):
            shutil.rmtree(os.path.join(folder, "out"), ignore_errors=True)
            runs.append(timed(words, folder))
        seconds, processor, memory, status = min(runs)
        print(
            f"{files} files, {layout}, {total} bytes, {name}: {seconds:.2f} s, {processor:.2f} s of processor time, "
            f"{memory:.1f} MB, {memory * 1048576 / total:.1f} a byte, status {status}"
        )


words = sys.argv[1:] or SHAPES
for files, size, layout in zip(words[::3], words[1::3], words[2::3]):
    with tempfile.TemporaryDirectory() as folder:
        measure(os.getcwd(), folder, files, size, layout)

#!/usr/bin/env python3
"""A project as one row of java_names_cases, which lexes, parses and binds it: `out/java_names_cases < ROW`.

speed.py classes CLASSES PAIRS > ROW: each class has PAIRS of methods, one with a loop, locals, a field and calls of another class.
speed.py members COUNT > ROW: one class of COUNT fields and COUNT methods, each of which names a field and another method.
speed.py locals COUNT > ROW: one body of COUNT locals, each of which names the one before.
speed.py chain COUNT > ROW: COUNT classes, each of which extends the one before.
speed.py --java FOLDER SHAPE ..: the same as files, for javac.
"""
import os
import sys


def pair(number, other):
    return (f"int f{number}(int a) {{ int b = a + x; C{other} c = null; "
            f"for (int i = 0; i < b; i++) {{ b = b + c.f{number}(i); }} return g{number}(b) + b; }} "
            f"int g{number}(int a) {{ return a; }}")


def classes(count, pairs):
    for number in range(count):
        methods = " ".join(pair(k, (number * 7 + k) % count) for k in range(pairs))
        yield f"p/C{number}.java", f"package p; public class C{number} {{ int x; {methods} }}"


def members(count):
    fields = " ".join(f"int x{k};" for k in range(count))
    methods = " ".join(f"int f{k}(int a) {{ return a + x{k} + f{(k * 7) % count}(a); }}" for k in range(count))
    yield "p/C.java", f"package p; public class C {{ {fields} {methods} }}"


def locals_of(count):
    lines = " ".join(f"int b{k} = b{k - 1};" for k in range(1, count))
    yield "p/C.java", f"package p; public class C {{ void f() {{ int b0 = 1; {lines} }} }}"


def chain(count):
    for number in range(count):
        above = f" extends C{number - 1}" if number else ""
        yield f"p/C{number}.java", f"package p; public class C{number}{above} {{ }}"


words = sys.argv[1:]
folder = None
if words[0] == "--java":
    folder, words = words[1], words[2:]
shape = {"classes": classes, "members": members, "locals": locals_of, "chain": chain}[words[0]]
files = shape(*map(int, words[1:]))
if folder is None:
    print("project " + "\\x1f".join(f"{path}={text}" for path, text in files))
else:
    for path, text in files:
        os.makedirs(os.path.dirname(f"{folder}/{path}"), exist_ok=True)
        with open(f"{folder}/{path}", "w") as file:
            file.write(text)

#!/usr/bin/env python3
"""Makes the rows of crates/java_conversions_cases: types in pairs, and whether javac takes one for the other.

    python3 bench/conversions/rows.py FOLDER    writes FOLDER/stdin and FOLDER/stdout

Each row is a line of a Java class; whether javac (release 8) reports an error on it is the answer. The rows on the first of
some faults are ordered by hand. In `stdin` a type is written behind its arguments: `String List/1` is `List<String>`.
"""
import os, re, subprocess, sys, tempfile

# The project of the rows. java_conversions_cases/src/classes.rt says the same.
PROJECT = """
interface Shape { }
interface Solid extends Shape { }
interface Source<T> { }
class Base implements Shape { }
class Derived extends Base implements Solid { }
final class Leaf extends Base { }
class Box<T> implements Source<T> { }
class TextBox extends Box<String> { }
class Pair<A, B> extends Box<A> { }
class Twice<X> extends Pair<List<X>, X> { }
interface Left extends Solid { }
interface Right extends Solid { }
class Both extends Derived implements Left, Right { }
class Names extends ArrayList<String> { }
"""
VARIABLES = {"T", "U", "V", "W"}
HEAD = "class Use<T, U extends Base, V extends U, W extends Box<String>> {"

SUBTYPES = """
int int; int long; short int; byte short; byte int; byte long; byte char; char int; char short; short char; short byte;
long int; int short; char long; boolean boolean; boolean int; int boolean
null Object; null String; null int[]; null T; null List<String>; null Runnable
String Object; Object String; String String; String Integer; Integer Object; Integer Long
Derived Base; Base Derived; Derived Shape; Derived Solid; Solid Shape; Shape Solid; Solid Object; Shape Object; Base Solid
Leaf Shape; Leaf Derived; Both Left; Both Right; Both Shape; Both Base; Left Shape; Left Right; Both Leaf
Thread Runnable; Runnable Thread; Thread Object; Runnable Object; Thread String
List<String> List<String>; List<String> List<Object>; List<Object> List<String>; ArrayList<String> List<String>
ArrayList<String> List<Object>; ArrayList<String> Object; List<String> ArrayList<String>
HashMap<String,Integer> Map<String,Integer>; HashMap<String,Integer> Map<Integer,String>; HashMap<String,List<Integer>> Map<String,List<Integer>>
Map<String,Integer> HashMap<String,Integer>; List<List<String>> List<List<String>>; List<List<String>> List<List<Object>>
List<int[]> List<int[]>; List<int[]> List<long[]>
Names List<String>; Names ArrayList<String>; Names List<Object>
Box<String> Source<String>; Box<String> Source<Object>; TextBox Box<String>; TextBox Source<String>; TextBox Source<Object>; TextBox Box<Object>
Pair<String,Integer> Box<String>; Pair<String,Integer> Box<Integer>; Pair<String,Integer> Source<String>; Pair<String,Integer> Source<Integer>
Twice<String> Pair<List<String>,String>; Twice<String> Pair<String,List<String>>; Twice<String> Box<List<String>>; Twice<String> Box<String>
Twice<String> Source<List<String>>; Twice<String> Source<String>; Twice<T> Source<List<T>>; Twice<T> Source<List<U>>; Twice<int[]> Source<List<int[]>>
T T; T Object; T String; String T; Object T; U Base; U Shape; U T; V U; V Base; V Shape; U V; V Derived; W Box<String>; W Source<String>; W Source<Object>
List<T> List<T>; List<T> List<U>; List<T> List<Object>; ArrayList<T> List<T>
int[] int[]; int[] long[]; byte[] int[]; int[] Object; Object int[]; String[] Object[]; Object[] String[]; Derived[] Shape[]; int[][] Object[]; int[][] int[][]
int[] Object[]; Derived[][] Base[][]; T[] Object[]; U[] Base[]; List<String>[] Object[]; boolean[] boolean[]; String[] Shape[]
Throwable Exception; IOException Exception; NumberFormatException RuntimeException; NumberFormatException Error
"""
LOOSE = """
int Integer; int Object; int Long; int long; Integer int; Integer long; Integer short; Long int; Short int; Byte int; Character int; Character long
Character short; Boolean boolean; boolean Boolean; boolean Object; byte Byte; byte Integer; char Character; char Integer; long Long; long Object
Integer Object; Object int; String int; int String; null int; null Integer; Byte short; Short Integer; Integer Long; short Short; int T; T int
char int; int char; Boolean int; int[] Object; List<String> int; Both Left; Derived Leaf
"""
# the type and the value of a constant, and the place
ASSIGNED = """
int 5 byte; int 127 byte; int 128 byte; int -128 byte; int -129 byte; int 32767 short; int 32768 short; int -32768 short; int -32769 short
int 65535 char; int 65536 char; int -1 char; int 0 char; int 5 Byte; int 128 Byte; int 5 Short; int 32768 Short; int 65 Character; int -1 Character
int 5 Integer; int 5 Long; int 5 long; int 5 Object; int 5 String; int 5 boolean; short 5 byte; short 300 byte; short 65 char; short -5 char; char 65 byte; char 200 byte
char 65 short; char 40000 short; byte 5 char; byte -5 char; byte 5 Character; long 5 int; long 5 byte; long 5 Long; long 5 Byte; byte 5 short; byte 5 Short
char 65 Byte; short 7 Byte; int 70 Object
"""
CASTS = """
int byte; long char; char byte; boolean boolean; boolean int; int boolean; byte char; int Integer; int Object; int Long; int String; byte Integer
Integer int; Integer long; Integer short; Integer Object; Object Integer; Object int; Object boolean; Object char; String int; T int; Runnable int; null int; null String; Byte int; Long int
Boolean boolean; Boolean int; Character int; long Long; long Integer
Object String; String Object; String Integer; String Shape; String Runnable; Integer Runnable; Base Derived; Derived Base; Derived Leaf; Leaf Derived; Base Runnable; Leaf Runnable
Shape Base; Shape Leaf; Solid Leaf; Solid Base; Solid Derived; Runnable Leaf; Runnable Base; Runnable Shape; Shape Runnable; Left Right; Left Both
Object int[]; int[] Object; int[] long[]; int[] int[]; int[][] int[]; Object[] String[]; String[] Object[]; Object[] int[]; Base[] Derived[]; Derived[] Leaf[]; Shape[] Leaf[]; int[] String; String int[]; Runnable int[]
T String; T Object; T Shape; U Derived; U Leaf; U String; U Runnable; V Derived; W TextBox; W String
List<String> Names; List<Integer> Names; Box<String> TextBox; Box<Integer> TextBox; Source<String> TextBox; Source<Integer> TextBox; Box<T> TextBox
ArrayList<String> Names; ArrayList<Integer> Names; Names List<String>; Map<String,String> Names; Object Names; TextBox Names; Names Runnable
"""
# two operands and the type to which they are promoted
PROMOTED = """
int int int; byte byte int; short char int; char char int; int long long; long int long; byte long long; Integer int int; Integer Long long; Character Byte int
Short Short int; Long byte long; boolean int int; int boolean int; String int int; Object int int; Boolean Boolean int; null int int; int long int; byte byte byte
"""
# the faults in their order of appearance, and the first of them
FIRSTS = """
N1@b.java:5 N1@a.java:9 = N1@a.java:9
N1@a.java:9 N1@b.java:5 = N1@a.java:9
T1@a.java:3 N2@b.java:40 = N2@b.java:40
N2@a.java:7 N1@a.java:7 = N1@a.java:7
N2@a.java:7 N1@a.java:8 = N2@a.java:7
N1@a.java:10 N1@a.java:9 = N1@a.java:9
N1@ab.java:1 N1@a.java:2 = N1@a.java:2
P20@a.java:1 F1@z.java:99 = F1@z.java:99
P9@a.java:1 P10@a.java:1 = P9@a.java:1
T7@a/b.java:3 T7@a.java:3 = T7@a.java:3
U1@a.java:1 P1@a.java:1 T1@a.java:1 F1@a.java:1 = T1@a.java:1
K1@a.kt:1 KL1@b.kt:1 KS1@a.kt:2 = KL1@b.kt:1
S1@b.java:2 L6@c.java:9 S3@a.java:1 = L6@c.java:9
T1@a.java:1 block = T1@a.java:1
block block = none
block T3@a.java:1 block T2@a.java:1 = T2@a.java:1
"""


def pairs(text, size):
    for row in re.split(r"[;\n]", text):
        words = row.split()
        if words:
            assert len(words) == size, words
            yield words


def split_args(text):
    depth, start, found = 0, 0, []
    for at, c in enumerate(text):
        depth += (c == "<") - (c == ">")
        if c == "," and depth == 0:
            found.append(text[start:at])
            start = at + 1
    return found + [text[start:]]


def postfix(kind):
    if kind.endswith("[]"):
        return postfix(kind[:-2]) + " []"
    if "<" in kind:
        name, args = kind[: kind.index("<")], split_args(kind[kind.index("<") + 1 : -1])
        return " ".join(map(postfix, args)) + f" {name}/{len(args)}"
    return kind


def value(kind):
    """An expression of a type that is no constant."""
    return "null" if kind == "null" else "v"


def method(number, kind, body):
    params = "" if kind == "null" else f"{kind} v"
    return f"  void m{number}({params}) {{ {body} }}"


def lines():
    """Each row with its line of Java."""
    number = 0
    for a, b in pairs(SUBTYPES, 2):
        simple = {"int", "long", "short", "byte", "char", "boolean"}
        assert a == "null" or (a in simple) == (b in simple), (a, b)
        yield f"subtype {postfix(a)} | {postfix(b)}", method(number, a, f"{b} w = {value(a)};")
        number += 1
    for a, b in pairs(LOOSE, 2):
        yield f"loose {postfix(a)} | {postfix(b)}", f"  void p{number}({b} p) {{ }}" + method(number, a, f"p{number}({value(a)});")
        number += 1
    for a, v, b in pairs(ASSIGNED, 3):
        yield f"assigned {a} | {v} | {postfix(b)}", method(number, "null", f"final {a} c = ({a}) {v}; {b} w = c;")
        number += 1
    for a, b in pairs(CASTS, 2):
        yield f"cast {postfix(a)} | {postfix(b)}", method(number, a, f"Object w = ({b}) {value(a)};")
        number += 1
    for a, b, to in pairs(PROMOTED, 3):
        # of this type exactly: assignable to it, and a shift of int by the other way round isn't asked
        second = f"{b} w" if b != "null" else "Object w"
        first = f"{a} v, " if a != "null" else ""
        x = "null" if a == "null" else "v"
        exact = {"int": "int r = %s; Integer s = %s;", "long": "long r = %s; Long s = %s;", "byte": "byte r = %s; Byte s = %s;"}[to]
        e = f"{x} - w"
        yield f"promoted {postfix(a)} | {postfix(b)} | {to}", f"  void m{number}({first}{second}) {{ {exact % (e, e)} }}"
        number += 1


def main():
    folder = sys.argv[1]
    rows = list(lines())
    text = ["import java.util.*; import java.io.*;"] + PROJECT.strip().split("\n") + [HEAD]
    first = len(text) + 1
    text += [java for _, java in rows] + ["}"]
    with tempfile.TemporaryDirectory() as at:
        path = os.path.join(at, "Use.java")
        with open(path, "w") as out:
            out.write("\n".join(text) + "\n")
        told = subprocess.run(
            ["javac", "--release", "8", "-Xlint:none", "-Xmaxerrs", "100000", "-d", at, path], capture_output=True, text=True
        )
    refused = {int(m) for m in re.findall(r"Use\.java:(\d+): error", told.stderr)}
    assert all(first <= n < first + len(rows) for n in refused), told.stderr
    asked, answers = [], []
    word = None
    for n, (row, _) in enumerate(rows):
        if row.split()[0] != word:
            word = row.split()[0]
            asked.append(f"# {word}")
            answers.append(f"# {word}")
        asked.append(row)
        answers.append("no" if first + n in refused else "yes")
    asked.append("# first")
    answers.append("# first")
    for row in FIRSTS.strip().split("\n"):
        faults, answer = row.split(" = ")
        asked.append(f"first {faults}")
        answers.append(answer)
    for name, found in (("stdin", asked), ("stdout", answers)):
        with open(os.path.join(folder, name), "w") as out:
            out.write("\n".join(found) + "\n")
    print(f"rows {len(rows)}, refused {len(refused)}")


main()

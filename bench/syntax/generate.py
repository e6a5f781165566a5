#!/usr/bin/env python3
"""Makes small Java files of the profile, of which about half are broken in one token: generate.py FOLDER COUNT [SEED].

A file is made of random forms of the grammar, without regard to names and types. A broken one lacks a token, has one twice, has another
in its place, or has two exchanged. What is made has no fault of its tokens.
"""
import os
import random
import sys

WORDS = ["if", "else", "for", "while", "do", "switch", "case", "default", "break", "return", "new", "this", "super", "class", "try", "catch",
         "finally", "throw", "static", "final", "public", "void", "int", "enum", "interface", "extends", "implements", "instanceof", "true", "null",
         "package", "import", "synchronized", "abstract", "throws"]
MARKS = ["(", ")", "{", "}", "[", "]", ";", ",", ".", "=", "<", ">", "?", ":", "->", "+", "-", "*", "==", "&&", "++", "!", "@"]


class Maker:
    def __init__(self, seed):
        self.random = random.Random(seed)
        self.pick = self.random.choice

    def some(self, make, least, most, between=","):
        parts = [make() for _ in range(self.random.randint(least, most))]
        out = []
        for number, part in enumerate(parts):
            out += ([between] if number else []) + part
        return out

    def chance(self, percent):
        return self.random.randrange(100) < percent

    def name(self):
        return [self.pick("a b c d e x y z".split())]

    def type_name(self):
        return [self.pick("A B C D E".split())]

    def kind(self, depth=2):
        if self.chance(40):
            out = [self.pick(["int", "long", "boolean", "char", "byte", "short"])]
        else:
            out = self.type_name()
            if depth and self.chance(25):
                out += ["<"] + self.some(lambda: self.argument(depth - 1), 1, 2) + [">"]
        return out + (["[", "]"] if self.chance(20) else [])

    def argument(self, depth):
        out = self.type_name()
        if depth and self.chance(30):
            out += ["<"] + self.argument(depth - 1) + [">"]
        return out

    def formals(self):
        return ["("] + self.some(lambda: (["final"] if self.chance(10) else []) + self.kind(1) + self.name(), 0, 2) + [")"]

    # expressions

    def literal(self):
        return [self.pick(["0", "1", "12L", "'a'", '"s"', "true", "false", "null"])]

    def primary(self, depth):
        if depth == 0:
            return self.pick([self.name, self.literal, lambda: ["this"]])()
        inner = lambda: self.expression(depth - 1)
        args = lambda: ["("] + self.some(inner, 0, 2) + [")"]
        return self.pick([
            lambda: self.name(),
            lambda: self.literal(),
            lambda: ["("] + inner() + [")"],
            lambda: self.name() + args(),
            lambda: ["super", "."] + self.name() + args(),
            lambda: self.primary(depth - 1) + ["."] + self.name() + args(),
            lambda: self.primary(depth - 1) + ["."] + self.name(),
            lambda: self.name() + ["["] + inner() + ["]"],
            lambda: ["new"] + self.type_name() + args() + (self.members_in_braces(depth - 1) if self.chance(30) else []),
            lambda: ["new"] + self.type_name() + ["<", ">"] + args(),
        ])()

    def unary(self, depth):
        if depth and self.chance(20):
            return [self.pick(["!", "~"])] + self.unary(depth - 1)
        if depth and self.chance(15):
            return ["(", "int", ")"] + self.unary(depth - 1)
        if depth and self.chance(10):
            return ["(", "A", ")"] + self.name()
        return self.primary(depth)

    def expression(self, depth):
        if depth == 0 or self.chance(50):
            return self.unary(depth)
        inner = lambda: self.unary(depth - 1)
        return self.pick([
            lambda: inner() + [self.pick(["+", "-", "*", "/", "&&", "||", "==", "<", ">=", "&", "^", ">>", ">>>"])] + inner(),
            lambda: inner() + ["?"] + inner() + [":"] + inner(),
            lambda: self.name() + [self.pick(["=", "+=", ">>="])] + self.expression(depth - 1),
            lambda: self.name() + ["->"] + self.expression(depth - 1),
            lambda: ["(", ")", "->"] + self.block(depth - 1),
            lambda: ["("] + self.some(self.name, 1, 2) + [")", "->"] + self.expression(depth - 1),
            lambda: ["(", "int"] + self.name() + [")", "->"] + self.block(depth - 1),
            lambda: ["new", "int", "["] + self.expression(depth - 1) + ["]"],
            lambda: ["new", "int", "[", "]", "{"] + self.some(lambda: self.expression(depth - 1), 0, 2) + ["}"],
            lambda: self.name() + ["instanceof"] + self.type_name(),
        ])()

    def step(self, depth):
        args = lambda: ["("] + self.some(lambda: self.expression(depth), 0, 2) + [")"]
        return self.pick([
            lambda: self.name() + ["="] + self.expression(depth),
            lambda: self.name() + ["++"],
            lambda: ["--"] + self.name(),
            lambda: self.name() + args(),
            lambda: self.name() + ["."] + self.name() + args(),
            lambda: ["new"] + self.type_name() + args(),
        ])()

    # statements

    def initializer(self, depth):
        if self.chance(15):
            return ["{"] + self.some(lambda: self.expression(depth), 0, 2) + [self.pick(["}", ",}"])]
        return self.expression(depth)

    def declaration(self, depth):
        return self.kind() + self.some(lambda: self.name() + (["="] + self.initializer(depth) if self.chance(60) else []), 1, 2)

    def block(self, depth):
        return ["{"] + self.some(lambda: self.inner(depth), 0, 2, "") + ["}"]

    def inner(self, depth):
        if self.chance(30):
            return (["final"] if self.chance(20) else []) + self.declaration(depth) + [";"]
        return self.statement(depth)

    def statement(self, depth):
        if depth == 0:
            return self.pick([lambda: [";"], lambda: self.step(0) + [";"], lambda: ["return", ";"], lambda: ["break", ";"]])()
        deep = depth - 1
        test = lambda: ["("] + self.expression(deep) + [")"]
        catch = lambda: ["catch", "("] + (["final"] if self.chance(20) else []) + self.type_name() + self.name() + [")"] + self.block(deep)
        return self.pick([
            lambda: self.block(deep),
            lambda: self.step(deep) + [";"],
            lambda: self.name() + [":"] + self.statement(deep),
            lambda: ["if"] + test() + self.statement(deep),
            lambda: ["if"] + test() + self.statement(deep) + ["else"] + self.statement(deep),
            lambda: ["while"] + test() + self.statement(deep),
            lambda: ["do"] + self.statement(deep) + ["while"] + test() + [";"],
            lambda: ["for", "("] + self.pick([lambda: self.declaration(deep), lambda: self.some(lambda: self.step(deep), 0, 2)])() + [";"]
            + (self.expression(deep) if self.chance(70) else []) + [";"] + self.some(lambda: self.step(deep), 0, 2) + [")"] + self.statement(deep),
            lambda: ["for", "("] + self.kind() + self.name() + [":"] + self.expression(deep) + [")"] + self.statement(deep),
            lambda: ["switch"] + test() + ["{"] + self.some(lambda: self.group(deep), 0, 2, "") + ["}"],
            lambda: ["return"] + self.expression(deep) + [";"],
            lambda: ["throw"] + self.expression(deep) + [";"],
            lambda: [self.pick(["break", "continue"])] + self.name() + [";"],
            lambda: ["synchronized"] + test() + self.block(deep),
            lambda: ["try"] + self.block(deep) + self.some(catch, 1, 2, "") + (["finally"] + self.block(deep) if self.chance(30) else []),
            lambda: ["try"] + self.block(deep) + ["finally"] + self.block(deep),
        ])()

    def group(self, depth):
        label = lambda: ["case"] + self.unary(0) + [":"] if self.chance(80) else ["default", ":"]
        return self.some(label, 1, 2, "") + self.some(lambda: self.inner(depth), 1, 2, "")

    # members

    def members_in_braces(self, depth):
        return ["{"] + self.some(lambda: self.member("", depth), 0, 2, "") + ["}"]

    def member(self, owner, depth):
        throws = lambda: ["throws"] + self.type_name() if self.chance(15) else []
        return self.pick([
            lambda: self.pick([[], ["private"], ["public", "static"], ["final"]]) + self.declaration(depth) + [";"],
            lambda: self.pick([[], ["public"], ["private", "static"], ["@", "Override"]]) + self.pick([["void"], self.kind()]) + self.name()
            + self.formals() + throws() + self.block(depth),
            lambda: (["public"] + [owner] + self.formals() + throws() + self.first_block(depth)) if owner else [";"],
            lambda: ["static"] + self.block(depth) if owner else self.block(depth),
            lambda: [";"],
        ])()

    def first_block(self, depth):
        first = ["this", "("] + self.some(lambda: self.expression(depth), 0, 2) + [")", ";"] if self.chance(30) else []
        return ["{"] + first + self.some(lambda: self.inner(depth), 0, 2, "") + ["}"]

    def type(self, depth):
        own = self.type_name()
        members = lambda: self.some(lambda: self.member(own[0], depth), 0, 3, "")
        nested = lambda: self.type(depth - 1) if depth and self.chance(20) else []
        return self.pick([
            lambda: self.pick([[], ["public"], ["abstract"], ["final"]]) + ["class"] + own + (["<", "T", ">"] if self.chance(20) else [])
            + (["extends"] + self.type_name() if self.chance(20) else []) + (["implements"] + self.type_name() if self.chance(20) else [])
            + ["{"] + members() + nested() + ["}"],
            lambda: ["interface"] + own + ["{"] + self.some(lambda: ["void"] + self.name() + self.formals() + [";"], 0, 2, "") + ["}"],
            lambda: ["enum"] + own + ["{"] + self.some(lambda: self.name() + (["("] + self.expression(depth) + [")"] if self.chance(30) else []), 0, 2)
            + ([";"] + members() if self.chance(50) else []) + ["}"],
        ])()

    def file(self, depth):
        out = ["package", "p", ";"] if self.chance(20) else []
        if self.chance(20):
            out += ["import", "q", ".", self.pick(["A", "*"]), ";"]
        return out + self.some(lambda: self.type(depth), 1, 2, "")

    def broken(self, tokens):
        at = self.random.randrange(len(tokens))
        change = self.random.randrange(4)
        if change == 0:
            return tokens[:at] + tokens[at + 1:]
        if change == 1:
            return tokens[:at] + [tokens[at]] + tokens[at:]
        if change == 2:
            return tokens[:at] + [self.pick(WORDS + MARKS)] + tokens[at + 1:]
        other = min(at + 1, len(tokens) - 1)
        tokens = list(tokens)
        tokens[at], tokens[other] = tokens[other], tokens[at]
        return tokens


def main():
    folder, count = sys.argv[1], int(sys.argv[2])
    maker = Maker(int(sys.argv[3]) if len(sys.argv) > 3 else 1)
    os.makedirs(folder, exist_ok=True)
    for number in range(count):
        tokens = [token for token in maker.file(3) if token]
        is_broken = number % 2 == 1
        if is_broken:
            tokens = maker.broken(tokens)
        with open(os.path.join(folder, f"{'broken' if is_broken else 'whole'}{number:05}.java"), "w") as file:
            file.write(" ".join(tokens) + "\n")


main()

#!/usr/bin/env python3
"""Runs the tables on Kotlin text, without any proof: `python3 bench/kotlin_grammar/simulate.py FILE..` says which pieces are read.

A quick look at a change of the grammar before it is proved. Strings and numbers are only cut out here, not judged.
"""
import re
import sys
import tables as T
KEYWORDS = 'as break class continue do else false for fun if in interface is null object package return super this throw true try typealias typeof val var when while'.split()
MARKS = '=== !== == != <= >= && || !! ++ -- -> :: ( ) [ ] { } , . @ ? : = ! + - * / % < >'.split()
MARK_KIND = {'(': 'OpenRound', ')': 'CloseRound', '[': 'OpenSquare', ']': 'CloseSquare', '}': 'CloseCurly', ',': 'Comma', '.': 'Dot', '@': 'At', '?': 'Question', ':': 'Colon',
             '::': 'DoubleColon', '=': 'Assign', '==': 'Equality', '===': 'Equality', '!=': 'Equality', '!==': 'Equality', '!': 'Not', '!!': 'NotNull', '+': 'Sign', '-': 'Sign',
             '++': 'Step', '--': 'Step', '->': 'Arrow', '*': 'Times', '/': 'Times', '%': 'Times', '&&': 'AndAnd', '||': 'OrOr', '<': 'Less', '>': 'Greater', '<=': 'Compare', '>=': 'Compare'}
WORDS = {'abstract': 'ModifierWord', 'open': 'ModifierWord', 'override': 'ModifierWord', 'const': 'ModifierWord', 'private': 'PrivateWord', 'companion': 'CompanionWord',
         'constructor': 'ConstructorWord', 'import': 'ImportWord', 'init': 'InitWord', 'java': 'JavaWord', 'JvmField': 'AnnotationWord', 'JvmStatic': 'AnnotationWord',
         'Synchronized': 'AnnotationWord', 'Volatile': 'AnnotationWord', 'set': 'SetWord', 'until': 'UntilWord'}
WORDS.update({w: 'InfixWord' for w in 'shl shr ushr and or xor'.split()})
ALONE = {'as': 'As', 'break': 'Break', 'class': 'Class', 'continue': 'Continue', 'do': 'Do', 'for': 'For', 'fun': 'Fun', 'if': 'If', 'in': 'In', 'interface': 'Interface', 'is': 'Is',
         'object': 'Object', 'package': 'Package', 'return': 'Return', 'super': 'SuperWord', 'this': 'This', 'throw': 'Throw', 'try': 'Try', 'val': 'Val', 'var': 'Var', 'when': 'When',
         'while': 'While', 'true': 'Literal', 'false': 'Literal', 'null': 'Literal', 'typealias': 'Unused', 'typeof': 'Unused'}
TOKEN = re.compile(r'(?P<line>\n)|(?P<blank>[ \t\f\r]+|//[^\n]*|/\*.*?\*/)|(?P<semi>;)|(?P<lit>"(?:\\.|[^"\\])*"|\'(?:\\.|[^\'\\])*\'|\d+L?)|(?P<tick>`[^`]+`)|(?P<id>[A-Za-z_][A-Za-z_0-9]*)|(?P<mark>'
                   + '|'.join(re.escape(m) for m in MARKS) + ')', re.S)


def lex(text):
    out, gap, open_, i = [], 'Plain', [], 0
    while i < len(text):
        m = TOKEN.match(text, i)
        if not m:
            raise SystemExit(f'no token at {text[i:i + 20]!r}')
        i, kind = m.end(), m.lastgroup
        if kind == 'line':
            if not (open_ and open_[-1] in '(['):
                gap = 'Line' if gap == 'Plain' else gap
        elif kind == 'semi':
            gap = 'Semicolon'
        elif kind != 'blank':
            t = m.group()
            out.append([kind, t, gap])
            gap = 'Plain'
            if kind == 'mark':
                if t in '([{':
                    open_.append(t)
                elif t in ')]}' and open_:
                    open_.pop()
    return out


def stands(ls, kinds):
    return bool(ls) and ls[0][1] == 'Plain' and ls[0][0] in kinds


def opens(ls):
    if not ls or ls[0][1] != 'Plain':
        return False
    return stands(ls[1:], ('OpenCurly', 'OpenParameters')) if ls[0][0] == 'Question' else ls[0][0] in ('OpenRound', 'OpenCurly', 'OpenParameters')


def arguments(ls):
    spot, depth = 'Type', 0
    for i, (k, g, t) in enumerate(ls):
        if g == 'Semicolon':
            return False
        if spot == 'Type':
            if k not in T.SETS['AnyName']:
                return False
            spot = 'Name'
        elif k == 'Comma':
            spot = 'Type'
        elif k == 'Greater':
            if depth == 0:
                return opens(ls[i + 1:])
            depth, spot = depth - 1, 'Closed'
        elif k == 'Question' and spot != 'Asked':
            spot = 'Asked'
        elif k == 'Dot' and spot == 'Name':
            spot = 'Type'
        elif k == 'Less' and spot == 'Name':
            depth, spot = depth + 1, 'Type'
        else:
            return False
    return False


def names(ls):
    was = False
    for k, g, t in ls:
        if g == 'Semicolon':
            return False
        if was:
            if k == 'Arrow':
                return True
            if k != 'Comma':
                return False
            was = False
        elif k in T.SETS['Name']:
            was = True
        else:
            return False
    return False


def named(c, ls):
    if stands(ls, ('Less',)):
        return 'NameArguments' if arguments(ls[1:]) else 'NameLess'
    if stands(ls, ('At',)):
        return {'ModifierWord': 'LabelModifier', 'PrivateWord': 'LabelModifier', 'AnnotationWord': 'LabelAnnotation'}.get(c, 'Label')
    return c


def kind(tok, ls):
    how, t, gap = tok
    if how == 'lit':
        return 'Literal'
    if how == 'mark':
        if t == '{':
            return 'OpenParameters' if stands(ls, ('Arrow',)) or names(ls) else 'OpenCurly'
        return MARK_KIND[t]
    if how == 'tick':
        return named('Name', ls)
    if t in ALONE:
        return ALONE[t]
    if t == 'else':
        return 'ElseArrow' if stands(ls, ('Arrow',)) else 'Else'
    if t == 'catch':
        return 'Catch'
    if t == 'finally':
        return 'FinallyWord'
    if t == 'private' and ls and ls[0][1] != 'Semicolon' and ls[0][0] == 'SetWord':
        return 'PrivateSet'
    if t == 'run' and stands(ls, ('OpenCurly', 'OpenParameters')):
        return 'RunBlock'
    if t == 'synchronized' and stands(ls, ('OpenRound',)):
        return 'SynchronizedBlock'
    return named(WORDS.get(t, 'Name'), ls)


BEFORE = 'Dot Colon AndAnd OrOr OpenCurly OpenParameters CloseCurly Catch FinallyWord Else'.split()


def letters(toks):
    ls = []
    for tok in reversed(toks):
        k = kind(tok, ls)
        g = 'Plain' if tok[2] == 'Line' and k in BEFORE else tok[2]
        ls.insert(0, (k, g, tok[1]))
    return ls


WRITTEN = {w[0]: w[2] for w in T.WAYS}


def ahead(ls):
    if not ls:
        return 'End'
    k, g, t = ls[0]
    return k if g == 'Plain' else ({'While': 'BrokenWhile', 'PrivateSet': 'BrokenSet'}.get(k, 'Broken') if g == 'Line' else 'Broken')


def run(form, ls, trace=False):
    stack, steps = [('Form', form)], 0
    ls = list(ls)
    while stack:
        steps += 1
        s = stack.pop()
        if s[0] == 'Act':
            if trace:
                print('!' + s[1], end=' ')
        elif s[0] == 'Form':
            default, tab = T.choose[s[1]]
            stack.extend(reversed(WRITTEN[tab.get(ahead(ls), default)]))
        else:
            if not ls or ahead(ls) not in T.kinds_of(s):
                return False, ls, s
            if s[1] in ('Ends', 'MemberEnds'):
                ls[0] = (ls[0][0], 'Plain', ls[0][2])
            else:
                ls.pop(0)
                if s[1] in T.BLANK_AFTER and ls and ls[0][1] == 'Line':
                    ls[0] = (ls[0][0], 'Plain', ls[0][2])
    return (not ls), ls, None


def pieces(toks):
    out, cur, depth = [], [], 0
    for t in toks:
        cur.append(t)
        if t[0] == 'mark':
            depth += 1 if t[1] in '([{' else -1 if t[1] in ')]}' else 0
            if t[1] == '}' and depth == 0:
                out.append(cur)
                cur = []
    return out + [cur]


def read(text, trace=False):
    ps = pieces(lex(text))
    for i, p in enumerate(ps):
        if i and not p:
            continue
        if p and (i or p[0][2] == 'Line'):
            p[0][2] = 'Plain'
        ok, rest, s = run('ClassForm' if i else 'FileHead', letters(p), trace)
        if not ok:
            return f'piece {i}: wanted {s}, stands {rest[:4]}'
    return 'read'


if __name__ == '__main__':
    for name in sys.argv[1:]:
        print(name, read(open(name).read()))

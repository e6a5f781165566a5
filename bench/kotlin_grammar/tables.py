#!/usr/bin/env python3
"""Writes the tables of the Kotlin grammar: `python3 bench/kotlin_grammar/tables.py` at the top of the repository.

grammar.txt -> crates/kotlin_grammar/src/letters.rt, the specs Table and Choice, and the certificate in proofs/. No proof trusts
what it computes: the sets of first and following kinds and the weights are tested there.
"""
import os
HERE = os.path.dirname(os.path.abspath(__file__))
KINDS = """End Broken BrokenWhile BrokenSet Name NameArguments NameLess Label LabelModifier LabelAnnotation InfixWord UntilWord
CompanionWord InitWord ConstructorWord SetWord JavaWord ImportWord PrivateWord PrivateSet ModifierWord AnnotationWord RunBlock
SynchronizedBlock Catch FinallyWord Literal As Break Class Continue Do Else ElseArrow For Fun If In Interface Is Object Package
Return SuperWord This Throw Try Val Var When While Unused OpenRound CloseRound OpenSquare CloseSquare OpenCurly OpenParameters
CloseCurly Comma Dot At Question Colon DoubleColon Assign Equality Not NotNull Sign Step Arrow Times AndAnd OrOr Less Greater
Compare""".split()
NAMES = """Name InfixWord UntilWord CompanionWord InitWord ConstructorWord SetWord JavaWord ImportWord PrivateWord PrivateSet
ModifierWord AnnotationWord""".split()
SETS = {
    'Name': NAMES + ['NameLess'],
    'AnyName': NAMES + ['NameLess', 'NameArguments'],
    'TypeName': NAMES,
    'TypeNameArguments': ['NameLess', 'NameArguments'],
    'TargetName': NAMES + ['NameLess', 'SynchronizedBlock'],
    'LabelName': ['Label', 'LabelModifier', 'LabelAnnotation'],
    'Modifier': ['PrivateWord', 'ModifierWord', 'LabelModifier'],
    'Annotation': ['AnnotationWord', 'LabelAnnotation'],
    'ClassOrInterface': ['Class', 'Interface'],
    'Variability': ['Val', 'Var'],
    'ThisOrSuper': ['This', 'SuperWord'],
    'WhenCurly': ['OpenCurly', 'OpenParameters'],
    'WhileOfDo': ['While', 'BrokenWhile'],
    'PrivateOfSet': ['PrivateSet', 'BrokenSet'],
    'TypeLess': ['Less'],
    'CompareMark': ['Less', 'Greater', 'Compare'],
    'PrefixMark': ['Sign', 'Not', 'Step'],
    'PostfixMark': ['NotNull', 'Step'],
    'Ends': ['Broken', 'BrokenWhile', 'BrokenSet'],
    'MemberEnds': ['Broken', 'BrokenWhile'],
}
DOCS = {
    'Name': 'An identifier that no type arguments follow.',
    'AnyName': 'An identifier.',
    'TypeName': 'The name of a type, with no `<` behind it.',
    'TypeNameArguments': 'The name of a type, with `<` behind it.',
    'TargetName': 'The label that a jump names.',
    'LabelName': 'A label before its `@`.',
    'Modifier': 'A modifier that is a word.',
    'Annotation': 'The word of an annotation.',
    'ClassOrInterface': '`class` or `interface`.',
    'Variability': '`val` or `var`.',
    'ThisOrSuper': '`this` or `super`.',
    'WhenCurly': 'The `{` of a `when`.',
    'WhileOfDo': 'The `while` of a `do`, also on a line of its own.',
    'PrivateOfSet': 'The `private` before `set`, also on a line of its own.',
    'TypeLess': 'The `<` of type arguments or parameters.',
    'CompareMark': '`<`, `>`, `<=` or `>=` between operands.',
    'PrefixMark': '`+`, `-`, `!`, `++` or `--` before an operand.',
    'PostfixMark': '`!!`, `++` or `--` behind an operand.',
    'Ends': 'What ends a statement, a line of a `when`, or a package or import line: it takes no token.',
    'MemberEnds': 'What ends a member: it takes no token.',
}
# after these a line end is a blank
BLANK_AFTER = set("""CompareMark PrefixMark Modifier Annotation PrivateOfSet WhenCurly InfixWord UntilWord OrOr AndAnd Equality Is As
Sign Times Comma Dot Colon Assign OpenCurly OpenParameters Arrow""".split())
PAID = 64


def read():
    text = []
    for line in open(os.path.join(HERE, 'grammar.txt')):
        line = line.rstrip('\n')
        if not line.strip() or line.startswith('#'):
            continue
        if line.startswith(' '):
            text[-1] += ' ' + line.strip()
        else:
            text.append(line)
    forms = [l.split(':', 1)[0] for l in text]
    ways, acts, kinds = [], [], []
    for l in text:
        form, right = l.split(':', 1)
        for alt in (' ' + right).split(' | '):
            way, written = alt.split('=', 1)
            syms = []
            for w in written.split():
                if w[0] == '!':
                    if w[1:] not in acts:
                        acts.append(w[1:])
                    syms.append(('Act', w[1:]))
                elif w in SETS:
                    syms.append(('Term', w))
                elif w in forms:
                    syms.append(('Form', w))
                else:
                    assert w in KINDS, w
                    syms.append(('Kind', w))
            ways.append((way.strip(), form, syms))
    for f in forms:
        assert f not in KINDS and f not in SETS, f
    assert len(set(w[0] for w in ways)) == len(ways)
    return forms, ways, acts


FORMS, WAYS, ACTS = read()
BY = {f: [w for w in WAYS if w[1] == f] for f in FORMS}


def kinds_of(s):
    return set(SETS[s[1]]) if s[0] == 'Term' else {s[1]}


empty = {f: False for f in FORMS}
first = {f: set() for f in FORMS}
follow = {f: set() for f in FORMS}


def firsts(syms):
    r = set()
    for s in syms:
        if s[0] == 'Act':
            continue
        if s[0] != 'Form':
            return r | kinds_of(s), False
        r |= first[s[1]]
        if not empty[s[1]]:
            return r, False
    return r, True


def fixed(step):
    while step():
        pass


def step_first():
    changed = False
    for way, form, syms in WAYS:
        f, e = firsts(syms)
        if not f <= first[form]:
            first[form] |= f
            changed = True
        if e and not empty[form]:
            empty[form] = changed = True
    return changed


def step_follow():
    changed = False
    for way, form, syms in WAYS:
        for i, s in enumerate(syms):
            if s[0] == 'Form':
                f, e = firsts(syms[i + 1:])
                if e:
                    f = f | follow[form]
                if not f <= follow[s[1]]:
                    follow[s[1]] |= f
                    changed = True
    return changed


fixed(step_first)
follow['FileHead'].add('End')
follow['ClassForm'].add('End')
fixed(step_follow)
choose, conflicts = {}, 0
for form in FORMS:
    tab = {}
    for way, _, syms in BY[form]:
        f, e = firsts(syms)
        if e:
            f = f | follow[form]
        for k in f:
            if k in tab:
                print('conflict', form, k, tab[k], way)
                conflicts += 1
            tab[k] = way
    default = None
    for way, _, syms in BY[form]:
        if firsts(syms)[1]:
            default = way
    if default is None:
        default = max((w[0] for w in BY[form]), key=lambda q: sum(1 for v in tab.values() if v == q))
    choose[form] = (default, {k: v for k, v in tab.items() if v != default})
weight = {f: 1 for f in FORMS}


def step_weight():
    changed = False
    for way, form, syms in WAYS:
        need = 1 + sum(weight[s[1]] if s[0] == 'Form' else 1 for s in syms) - PAID * sum(1 for s in syms if s[0] in ('Term', 'Kind'))
        if need > weight[form]:
            weight[form] = need
            changed = True
    assert max(weight.values()) < 10000
    return changed


fixed(step_weight)
print('forms', len(FORMS), 'ways', len(WAYS), 'kinds', len(KINDS), 'sets', len(SETS), 'acts', len(ACTS), 'weight', max(weight.values()), 'conflicts', conflicts)
used = set(k for w in WAYS for s in w[2] if s[0] in ('Term', 'Kind') for k in kinds_of(s))
print('kinds that nothing takes:', [k for k in KINDS if k not in used])

# ---- what is written
OUT = os.path.join(HERE, '..', '..', 'crates', 'kotlin_grammar')
SET_NAMES = list(SETS)


def put(path, text):
    path = os.path.join(OUT, path)
    os.makedirs(os.path.dirname(path), exist_ok=True)
    open(path, 'w').write(text)


def enum(name, variants, doc, docs={}):
    body = ''.join((f'    /// {docs[v]}\n' if v in docs else '') + f'    {v},\n' for v in variants)
    return f'/// {doc}\n#[derive(Clone, Copy)]\npub enum {name} {{\n{body}}}\n\n'


KIND_DOCS = {
    'End': 'No token.',
    'Broken': 'A token with an end before it.',
    'BrokenWhile': '`while` with a line end before it.',
    'BrokenSet': '`private` before `set`, with a line end before it.',
    'Name': 'A name before neither `<` nor `@`, as the other words.',
    'NameArguments': 'A name with type arguments behind it, and `(` or a lambda behind them.',
    'NameLess': 'A name before another `<`.',
    'Label': 'A name before `@`.',
    'LabelModifier': 'A modifier before `@`.',
    'LabelAnnotation': 'The word of an annotation before `@`.',
    'InfixWord': '`shl`, `shr`, `ushr`, `and`, `or` or `xor`.',
    'PrivateSet': '`private` before `set`.',
    'ModifierWord': '`abstract`, `open`, `override` or `const`.',
    'AnnotationWord': '`JvmStatic`, `JvmField`, `Synchronized` or `Volatile`.',
    'RunBlock': '`run` before `{`.',
    'SynchronizedBlock': '`synchronized` before `(`.',
    'Literal': 'A literal, `true`, `false` and `null` included.',
    'ElseArrow': '`else` before `->`.',
    'Unused': 'A word that no form takes.',
    'OpenParameters': '`{` before names and `->`.',
    'Equality': '`==`, `!=`, `===` or `!==`.',
    'Sign': '`+` or `-`.',
    'Step': '`++` or `--`.',
    'Times': '`*`, `/` or `%`.',
    'Compare': '`<=` or `>=`.',
}
rs = '// The letters of the grammar: kinds of tokens, terminals, forms, ways to write them, and actions.\n\n'
rs += enum('Kind', KINDS, 'What a token is, as far as a choice depends on it, with what stands behind it taken in.', KIND_DOCS)
rs += '/// The tokens that a form takes at a place.\n#[derive(Clone, Copy)]\npub enum Term {\n    /// One of the kind.\n    Only(Kind),\n'
rs += ''.join(f'    /// {DOCS[s]}\n    {s},\n' for s in SET_NAMES) + '}\n\n'
rs += enum('Form', FORMS, 'A form of the grammar.')
rs += enum('Act', ACTS, 'What is built of the parts before it.')
rs += enum('Way', [w[0] for w in WAYS], 'A way to write a form.').rstrip('\n') + '\n'
put('src/letters.rt', rs)

PACK = 'Rattle.kotlin_grammar'


def uses(*names):
    r = ''
    for name, alias in names:
        r += f'use {PACK}.specs.declared.letters.{name}.{{{name}}}\n'
        if alias:
            r += f'use {PACK}.specs.declared.letters.{name}.TheVariants as {alias}\n'
    return r


SYMBOL = 'use Rattle.grammar.specs.declared.symbols.Symbol.{Symbol}\nuse Rattle.grammar.specs.declared.symbols.Symbol.TheVariants as y\n'


def term(s):
    return f't.{s[1]}' if s[0] == 'Term' else f'(t.Only k.{s[1]})'


def symbol(s):
    return {'Act': f'y.Act a.{s[1]}', 'Form': f'y.Form f.{s[1]}'}.get(s[0]) or f'y.Term {term(s)}'


an = '-- The grammar of the Kotlin profile: how each form is written, and which tokens are which of its terminals.\n'
an += 'use Rattle.std.specs.Prelude.{ℕ, Bool, true, false, List, [], ◌∷◌, nat_eq}\n'
an += SYMBOL + uses(('Kind', 'k'), ('Term', 't'), ('Form', 'f'), ('Way', 'w'), ('Act', 'a'))
an += '\n-- the number of a kind\nabbrev pub code : Kind → ℕ\n' + ''.join(f'code k.{k} = {i}\n' for i, k in enumerate(KINDS))
an += '\n-- which kinds a terminal takes\nunfoldable pub accepts : Term → Kind → Bool\naccepts (t.Only k) c = nat_eq (code k) (code c)\n'
for s in SET_NAMES:
    an += ''.join(f'accepts t.{s} k.{k} = true\n' for k in sorted(SETS[s], key=KINDS.index)) + f'accepts t.{s} _ = false\n'
an += '\n-- after these a line end is a blank\nabbrev pub blank_after : Term → Bool\n'
an += ''.join(f'blank_after (t.Only k.{k}) = true\n' for k in KINDS if k in BLANK_AFTER and k not in SETS)
an += ''.join(f'blank_after t.{s} = true\n' for s in SET_NAMES if s in BLANK_AFTER) + 'blank_after _ = false\n'
an += '\n-- the end of a statement or a member takes no token\nabbrev pub is_end : Term → Bool\nis_end t.Ends = true\nis_end t.MemberEnds = true\nis_end _ = false\n'
an += '\nabbrev pub Symbols : Type 0\nSymbols = List (Symbol Term Form Act)\n'
an += '\n-- how it is written: all that a text of the profile may be\nunfoldable pub written : Way → Symbols\n'
for way, form, syms in WAYS:
    an += f'written w.{way} = ' + ' ∷ '.join([symbol(s) for s in syms] + ['[]']) + '\n'
an += '\n-- the form that each is a way to write\nabbrev pub owner : Way → Form\n' + ''.join(f'owner w.{w[0]} = f.{w[1]}\n' for w in WAYS)
put('specs/Table.antt', an)

an = '-- Which way to write a form stands ahead, by the kind of the first token.\n' + uses(('Kind', 'k'), ('Form', 'f'), ('Way', 'w')) + '\n'


def snake(x):
    return ''.join('_' + c.lower() if c.isupper() and i else c.lower() for i, c in enumerate(x))


for f in FORMS:
    d, tab = choose[f]
    if tab:
        an += f'abbrev pub choose_{snake(f)} : Kind → Way\n' + ''.join(f'choose_{snake(f)} k.{k} = w.{tab[k]}\n' for k in KINDS if k in tab) + f'choose_{snake(f)} _ = w.{d}\n\n'
an += 'unfoldable pub choose : Form → Kind → Way\n'
for f in FORMS:
    d, tab = choose[f]
    an += f'choose f.{f} k = ' + (f'choose_{snake(f)} k' if tab else f'w.{d}') + '\n'
put('specs/Choice.antt', an)

# ---- the certificate
an = '-- Which kinds begin a form, which may follow it, and a weight: what the test of the grammar takes.\n'
an += 'use Rattle.std.specs.Prelude.{ℕ, Bool, true, false, if◌then◌else◌, nat_eq, List, [], ◌∷◌}\n'
an += uses(('Kind', 'k'), ('Form', 'f')) + f'use {PACK}.specs.Table.{{code}}\n'


def table(name, sets):
    r = f'\nabbrev {name}_codes : Form → List ℕ\n'
    for f in FORMS:
        r += f'{name}_codes f.{f} = ' + ' ∷ '.join([str(i) for i, k in enumerate(KINDS) if k in sets[f]] + ['[]']) + '\n'
    return r


an += '\nabbrev pub mem : ℕ → List ℕ → Bool\nmem x [] = false\nmem x (z ∷ zs) = if nat_eq x z then true else mem x zs\n'
an += table('begin', first) + table('follow', follow)
an += '\nabbrev pub begins : Form → Kind → Bool\nbegins x c = mem (code c) (begin_codes x)\n\nabbrev pub follows : Form → Kind → Bool\nfollows x c = mem (code c) (follow_codes x)\n'
an += '\nabbrev pub may_be_empty : Form → Bool\n' + ''.join(f'may_be_empty f.{f} = true\n' for f in FORMS if empty[f]) + 'may_be_empty _ = false\n'
an += '\nabbrev pub weight : Form → ℕ\n' + ''.join(f'weight f.{f} = {weight[f]}\n' for f in FORMS)
put('proofs/FirstAndFollowing.antt', an)

an = '-- The lists of all kinds, forms and ways, and their numbers.\n'
an += 'use Rattle.std.proofs.Common.{◌≡◌, ◌<◌, ◌∙◌, ℕ, true, List, [], ◌∷◌, length, get_or, refl, ap, sym, arith}\nuse Rattle.std.specs.Prelude.{nat_eq}\nuse Rattle.std.proofs.lemmas.Bool.Decides.{nat_tests}\n'
an += uses(('Kind', 'k'), ('Form', 'f'), ('Way', 'w')) + f'use {PACK}.specs.Table.{{code}}\n'
an += '\npub same_number : (a b : ℕ) → nat_eq a b ≡ true → a ≡ b\nsame_number a b h = grind (arith, nat_tests)\n'
for name, ty, al, names in (('way', 'Way', 'w', [w[0] for w in WAYS]), ('form', 'Form', 'f', FORMS)):
    an += f'\nabbrev pub {name}_code : {ty} → ℕ\n' + ''.join(f'{name}_code {al}.{v} = {i}\n' for i, v in enumerate(names))
for name, ty, al, names, code in (('way', 'Way', 'w', [w[0] for w in WAYS], 'way_code'), ('form', 'Form', 'f', FORMS, 'form_code'), ('kind', 'Kind', 'k', KINDS, 'code')):
    an += f'\nunfoldable pub {name}s : List {ty}\n{name}s = ' + ' ∷ '.join([f'{al}.{v}' for v in names] + ['[]']) + '\n'
    an += f'\npub {name}_at : (x : {ty}) → get_or {name}s ({code} x) {al}.{names[0]} ≡ x\nunfolding {name}s\n' + ''.join(f'{name}_at {al}.{v} = refl\n' for v in names)
an += '\npub kind_within : (c : Kind) → code c < length kinds\nunfolding kinds\n' + ''.join(f'kind_within k.{v} = omega arith\n' for v in KINDS)
for name, ty, al, first_name, code in (('way', 'Way', 'w', WAYS[0][0], 'way_code'), ('form', 'Form', 'f', FORMS[0], 'form_code'), ('kind', 'Kind', 'k', KINDS[0], 'code')):
    an += f'\npub {name}_same : (x z : {ty}) → nat_eq ({code} x) ({code} z) ≡ true → x ≡ z\n{name}_same x z h = sym ({name}_at x) ∙ ap (λ i. get_or {name}s i {al}.{first_name}) (same_number ({code} x) ({code} z) h) ∙ {name}_at z\n'
put('proofs/Lists.antt', an)

an = f'''-- The grammar passes the test: one kind ahead decides each form.
use Rattle.std.proofs.Common.{{◌≡◌, ℕ, zero, suc, ◌+◌, ◌*◌, ◌<◌, ◌≤◌, Bool, true, false, List, [], ◌∷◌, length, get_or, refl, nat_le, subst, arith}}
use Rattle.std.specs.Prelude.{{if◌then◌else◌, nat_eq}}
use Rattle.std.proofs.lemmas.Bool.Decides.{{nat_tests}}
use Rattle.grammar.specs.Certificate.{{Certificate, form_first, first, implies, may_follow, weight_of, terms}}
{uses(('Kind', 'k'), ('Term', None), ('Form', 'f'), ('Way', 'w'))}use {PACK}.specs.declared.ahead.Letter.{{Letter}}
use {PACK}.specs.Table.{{accepts, owner, written, code}}
use {PACK}.specs.Choice.{{choose}}
use {PACK}.specs.Taking.{{size}}
use {PACK}.proofs.FirstAndFollowing.{{begins, follows, may_be_empty, weight}}
use {PACK}.proofs.Lists.{{way_code, form_code, kinds, kind_at, kind_within, way_same, form_same}}

-- the certificate
abbrev pub certificate : Certificate Letter Kind Term Form
certificate = record {{ accepts = accepts; is_end = λ c. nat_eq (code c) 0; begins = begins; may_be_empty = may_be_empty; follows = follows; weight = weight; size = size }}

abbrev all : (Kind → Bool) → List Kind → Bool
all p [] = true
all p (c ∷ cs) = if p c then all p cs else false

if_true : (a b : Bool) → (if a then b else false) ≡ true → (a ≡ true) × (b ≡ true)
if_true true b h = (refl, h)
if_true false b h = absurd (cc h)

all_get : (p : Kind → Bool) (cs : List Kind) (i : ℕ) → all p cs ≡ true → i < length cs → p (get_or cs i k.{KINDS[0]}) ≡ true
all_get p [] i h l = absurd (omega arith)
all_get p (c ∷ cs) zero h l = (if_true (p c) _ h).0
all_get p (c ∷ cs) (suc i) h l = all_get p cs i (if_true (p c) _ h).1 (omega arith)

everywhere : (p : Kind → Bool) → all p kinds ≡ true → (c : Kind) → p c ≡ true
everywhere p h c = subst (λ z. p z ≡ true) (kind_at c) (all_get p kinds (code c) h (kind_within c))

-- Of a way and a kind: it is chosen where it may come first, what begins it begins its form, and what follows may follow.
abbrev choice_test : Way → Kind → Bool
choice_test q c = implies (first certificate (written q) (follows (owner q) c) c) (nat_eq (way_code (choose (owner q) c)) (way_code q))

abbrev closed_test : Bool → Way → Kind → Bool
closed_test after q c = implies (first certificate (written q) after c) (form_first certificate (owner q) after c)

abbrev follow_test : Way → Kind → Bool
follow_test q c = may_follow certificate (follows (owner q) c) (written q) c

abbrev test : Way → Kind → Bool
test q c = if choice_test q c then (if closed_test false q c then (if closed_test true q c then follow_test q c else false) else false) else false

passed : (q : Way) → all (test q) kinds ≡ true
unfolding kinds written accepts choose
''' + ''.join(f'passed w.{w[0]} = refl\n' for w in WAYS) + '''
own_passed : (m : Form) → all (λ c. nat_eq (form_code (owner (choose m c))) (form_code m)) kinds ≡ true
unfolding kinds choose
''' + ''.join(f'own_passed f.{f} = refl\n' for f in FORMS) + '''
heavy_passed : (q : Way) → nat_le (1 + weight_of certificate (written q)) (weight (owner q) + 64 * terms (written q)) ≡ true
unfolding written
''' + ''.join(f'heavy_passed w.{w[0]} = refl\n' for w in WAYS) + '''
-- ---- what it says

implied : (a b : Bool) → implies a b ≡ true → a ≡ true → b ≡ true
implied true b h g = h
implied false b h g = absurd (cc g)

if_all : (a b c d : Bool) → (if a then (if b then (if c then d else false) else false) else false) ≡ true → (a ≡ true) × (b ≡ true) × (c ≡ true) × (d ≡ true)
if_all true true true d h = (refl, refl, refl, h)
if_all true true false d h = absurd (cc h)
if_all true false c d h = absurd (cc h)
if_all false b c d h = absurd (cc h)

at_all : (q : Way) (c : Kind) → (choice_test q c ≡ true) × (closed_test false q c ≡ true) × (closed_test true q c ≡ true) × (follow_test q c ≡ true)
at_all q c = if_all (choice_test q c) (closed_test false q c) (closed_test true q c) (follow_test q c) (everywhere (test q) (passed q) c)

pub chosen : (q : Way) (c : Kind) → first certificate (written q) (follows (owner q) c) c ≡ true → choose (owner q) c ≡ q
chosen q c h = way_same (choose (owner q) c) q (implied (first certificate (written q) (follows (owner q) c) c) _ (at_all q c).0 h)

pub closed : (q : Way) (after : Bool) (c : Kind) → first certificate (written q) after c ≡ true → form_first certificate (owner q) after c ≡ true
closed q false c h = implied (first certificate (written q) false c) _ (at_all q c).1 h
closed q true c h = implied (first certificate (written q) true c) _ (at_all q c).2 h

pub followed : (q : Way) (c : Kind) → may_follow certificate (follows (owner q) c) (written q) c ≡ true
followed q c = (at_all q c).3

pub owned : (m : Form) (c : Kind) → owner (choose m c) ≡ m
owned m c = form_same (owner (choose m c)) m (everywhere (λ c. nat_eq (form_code (owner (choose m c))) (form_code m)) (own_passed m) c)

pub heavy : (q : Way) → 1 + weight_of certificate (written q) ≤ weight (owner q) + 64 * terms (written q)
heavy q = number (1 + weight_of certificate (written q)) (weight (owner q) + 64 * terms (written q)) (heavy_passed q)
  where
    number : (a b : ℕ) → nat_le a b ≡ true → a ≤ b
    number a b h = grind (arith, nat_tests)
'''
put('proofs/Decided.antt', an)

# ---- the code of the tables


def rust_symbol(s):
    if s[0] == 'Act':
        return f'Symbol::Act(Act::{s[1]})'
    if s[0] == 'Form':
        return f'Symbol::Form(Form::{s[1]})'
    return f'Symbol::Term(Term::{s[1]})' if s[0] == 'Term' else f'Symbol::Term(Term::Only(Kind::{s[1]}))'


rs = '// The tables of the grammar as the machine asks for them.\n\n'
rs += 'ghost use Rattle.std.specs.Prelude.{◌≡◌, true, false};\n'
rs += f'ghost use {PACK}.specs.Table.{{accepts as accepts_of, blank_after as blank_after_of, is_end as is_end_of, written as written_of, code as code_of}};\n'
rs += f'ghost use {PACK}.specs.Choice as choice;\nghost use {PACK}.specs.declared.letters.Term.TheVariants as t;\n\n'
rs += 'use grammar::Symbol;\nuse kotlin_grammar::{Act, Form, Kind, Term, Way};\n\n'
rs += '/// The number of a kind.\nfn code(kind: Kind) -> u8\n    ensures { result ≡ code_of kind }\n{\n    match kind {\n' + ''.join(f'        Kind::{k} => {i},\n' for i, k in enumerate(KINDS)) + '    }\n}\n\n'
for s in SET_NAMES:
    rs += f'#[tactic(auto, unfolding(kotlin_grammar::specs::Table::accepts))]\nfn is_{snake(s)}(kind: Kind) -> bool\n    ensures {{ result ≡ accepts_of t.{s} kind }}\n{{\n    match kind {{\n' + ''.join(f'        Kind::{k} => true,\n' for k in KINDS if k in SETS[s]) + '        _ => false,\n    }\n}\n\n'
rs += '/// Whether the terminal takes a token of the kind.\n#[tactic(auto, unfolding(kotlin_grammar::specs::Table::accepts))]\npub fn accepts(term: Term, kind: Kind) -> bool\n    ensures { result ≡ accepts_of term kind }\n{\n    match term {\n        Term::Only(only) => code(only) == code(kind),\n'
rs += ''.join(f'        Term::{s} => is_{snake(s)}(kind),\n' for s in SET_NAMES) + '    }\n}\n\n'
blank_kinds = [k for k in KINDS if k in BLANK_AFTER and k not in SETS]
rs += '/// Whether a line end behind the token is a blank.\npub fn blank_after(term: Term) -> bool\n    ensures { result ≡ blank_after_of term }\n{\n    match term {\n'
rs += ''.join(f'        Term::Only(Kind::{k}) => true,\n' for k in blank_kinds) + ''.join(f'        Term::{s} => true,\n' for s in SET_NAMES if s in BLANK_AFTER) + '        _ => false,\n    }\n}\n\n'
rs += '/// Whether the terminal is an end, which takes no token.\npub fn is_end(term: Term) -> bool\n    ensures { result ≡ is_end_of term }\n{\n    match term {\n        Term::Ends => true,\n        Term::MemberEnds => true,\n        _ => false,\n    }\n}\n\n'
for f in FORMS:
    d, tab = choose[f]
    if tab:
        rs += f'fn choose_{snake(f)}(kind: Kind) -> Way\n    ensures {{ result ≡ choice.choose_{snake(f)} kind }}\n{{\n    match kind {{\n' + ''.join(f'        Kind::{k} => Way::{tab[k]},\n' for k in KINDS if k in tab) + f'        _ => Way::{d},\n    }}\n}}\n\n'
rs += '/// The way to write the form that stands ahead of a token of the kind.\n#[tactic(auto, unfolding(kotlin_grammar::specs::Choice::choose))]\npub fn choose(form: Form, kind: Kind) -> Way\n    ensures { result ≡ choice.choose form kind }\n{\n    match form {\n'
for f in FORMS:
    d, tab = choose[f]
    rs += f'        Form::{f} => ' + (f'choose_{snake(f)}(kind)' if tab else f'Way::{d}') + ',\n'
rs += "    }\n}\n\n/// How the form is written.\n#[tactic(auto, unfolding(kotlin_grammar::specs::Table::written))]\npub fn written(way: Way) -> &'static [Symbol<Term, Form, Act>]\n    ensures { result.now ≡ written_of way }\n{\n    match way {\n"
for way, form, syms in WAYS:
    rs += f'        Way::{way} => &[' + ', '.join(rust_symbol(s) for s in syms) + '],\n'
rs += '    }\n}\n'
put('../kotlin_tables/src/table.rt', rs)

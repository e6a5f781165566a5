#!/usr/bin/env python3
"""Writes what the actions of the Kotlin grammar build: `python3 bench/kotlin_grammar/actions.py` at the top of the repository.

The definitions (kotlin_grammar/specs/Build) and the code (kotlin_actions) come from one table here, line for line;
the proof compares the two.
"""
import os
import re
import tables as T
CRATES = os.path.join(T.HERE, '..', '..', 'crates')
# name of a part: the stack, its type for contracts, its type in code, where the type is declared
PARTS = {
    'place': ('places', 'Position', 'Position'),
    'token': ('tokens', 'KToken', 'KToken'),
    'name': ('names', 'KName', 'KName'),
    'commas': ('comma_lists', 'List Position', 'Items<Position>'),
    'qualified': ('qualifieds', 'KQualified', 'KQualified'),
    'kind': ('kinds', 'KType', 'KType'),
    'kinds': ('kind_lists', 'List KType', 'Items<KType>'),
    'arguments': ('argument_lists', 'KTypeArguments', 'KTypeArguments'),
    'expr': ('exprs', 'KExpr', 'Boxed<KExpr>'),
    'exprs': ('expr_lists', 'List KExpr', 'Items<KExpr>'),
    'lambda_names': ('lambda_names', 'KLambdaNames', 'KLambdaNames'),
    'choice': ('choices', 'KChoice', 'KChoice'),
    'choices': ('choice_lists', 'List KChoice', 'Items<KChoice>'),
    'branch': ('branches', 'KBranch', 'KBranch'),
    'branches': ('branch_lists', 'List KBranch', 'Items<KBranch>'),
    'catch': ('catches', 'KCatch', 'KCatch'),
    'catches': ('catch_lists', 'List KCatch', 'Items<KCatch>'),
    'block': ('blocks', 'KBlock', 'KBlock'),
    'statement': ('statements', 'KStmt', 'Boxed<KStmt>'),
    'statements': ('statement_lists', 'List KStmt', 'Items<KStmt>'),
    'target': ('targets', 'Option KTarget', 'Option<KTarget>'),
    'label': ('labels', 'Option KLabel', 'Option<KLabel>'),
    'declared': ('declared', 'KDeclared', 'KDeclared'),
    'value': ('values', 'Option KValue', 'Option<KValue>'),
    'setter': ('setters', 'Option KPrivateSet', 'Option<KPrivateSet>'),
    'typed': ('typed', 'Option KTyped', 'Option<KTyped>'),
    'body': ('bodies', 'Option KBlock', 'Option<KBlock>'),
    'param_list': ('param_lists', 'List KParam', 'Items<KParam>'),
    'params': ('params', 'KParams', 'KParams'),
    'delegation': ('delegations', 'Option KDelegation', 'Option<KDelegation>'),
    'modifiers': ('modifier_lists', 'List KModifier', 'Items<KModifier>'),
    'member': ('members', 'KMember', 'Boxed<KMember>'),
    'members': ('member_lists', 'List KMember', 'Items<KMember>'),
    'type_param_list': ('type_param_lists', 'List KTypeParam', 'Items<KTypeParam>'),
    'type_params': ('type_params', 'Option KTypeParams', 'Option<KTypeParams>'),
    'super_list': ('super_lists', 'List KSuper', 'Items<KSuper>'),
    'supers': ('supers', 'Option KSupers', 'Option<KSupers>'),
    'class_word': ('class_words', 'ClassHead', 'ClassHead'),
    'package': ('packages', 'Option KPackage', 'Option<KPackage>'),
    'imports': ('import_lists', 'List KImport', 'Items<KImport>'),
    'class': ('classes', 'KClass', 'KClass'),
}
BOXED = {'expr', 'statement', 'member'}
ALLOC = BOXED
# composite parts: brackets, and a word with brackets
HOME = {}
for home, names in {
    'places': 'Brackets Position', 'tokens': 'KToken TokenKind',
    'types': 'KName KDotted KQualified KType KTypeArguments',
    'expressions': 'KBinary KChoice KClassAt KElseAt KExpr KHeadAt KLambdaNames KLiteral KPostfix KPrefix KSuperAt',
    'statements': 'KBlock KBranch KCatch KDeclared KFinallyAt KLabel KStmt KTarget KVariability',
    'members': 'KCalled KCompanionAt KDelegation KMember KModifier KModifierKind KParam KParams KPrivateSet KTyped KValue',
    'files': 'KClass KClassWord KImport KPackage KSuper KSupers KTypeParam KTypeParams',
}.items():
    for n in names.split():
        HOME[n] = home

# action: (parts, the last first; what is pushed: list of (part, term, code); checks). A part is `part name`; a term uses the names.
# In a term `x` stands for the part; in code too. A line `name <- f x` takes what a partial function gives.


def rec(code_type, **fields):
    spec = 'record { ' + '; '.join(f'{k} = {v[0] if isinstance(v, tuple) else v}' for k, v in fields.items()) + ' }'
    code = code_type + ' { ' + ', '.join((f'{k}' if (v[1] if isinstance(v, tuple) else v) == k else f'{k}: {v[1] if isinstance(v, tuple) else v}') for k, v in fields.items()) + ' }'
    return spec, code


NONE = ('None', 'None')


def some(x):
    s, c = x
    return (f'Some ({s})', f'Some({c})')


def un(name, boxed=True):
    return (name, f'{name}.into_inner()')


def variant(enum, name, *args, fields=None):
    alias = {'KExpr': 'e', 'KStmt': 'e', 'KMember': 'mb', 'KType': 'ty'}[enum]
    sp, co = [], []
    for a in args:
        s, c = a if isinstance(a, tuple) else (a, a)
        sp.append(s if re.fullmatch(r'[\w.]+|\[\]', s) else f'({s})')
        co.append(c)
    spec = ' '.join([f'{alias}.{name}'] + sp)
    if fields:
        code = f'{enum}::{name} {{ ' + ', '.join(f if f == c else f'{f}: {c}' for f, c in zip(fields, co)) + ' }'
    else:
        code = f'{enum}::{name}' + (f'({", ".join(co)})' if co else '')
    return spec, code


E = lambda name, *args, fields=None: variant('KExpr', name, *args, fields=fields)
S = lambda name, *args, fields=None: variant('KStmt', name, *args, fields=fields)
M = lambda name, *args, fields=None: variant('KMember', name, *args, fields=fields)
K = lambda name, *args, fields=None: variant('KType', name, *args, fields=fields)
A = {}


def act(name, pops, *pushes, asks=(), crate='e'):
    A[name] = (pops.split(', ') if pops else [], list(pushes), list(asks), crate)


def add(lst, item):
    return ('+', lst, item)


FALSE = ('false', 'false')
# ---- types and names
act('Qualified', 'name first', ('qualified', rec('KQualified', first='first', rest=('[]', 'Items::new(alloc)'))))
act('AddDotted', 'place dot, name name, qualified q', ('qualified', ('record { first = q.first; rest = q.rest ++ record { dot = dot; name = name } ∷ [] }', 'DOTTED')))
act('PlainType', 'qualified name', ('kind', K('Plain', 'name', NONE, FALSE, fields=['name', 'question', 'variable'])))
act('AppliedType', 'arguments a, qualified name', ('kind', K('Applied', 'name', 'a.angles', ('a.items', 'a.items'), ('a.commas', 'a.commas'), NONE, fields=['name', 'angles', 'arguments', 'commas', 'question'])))
act('Ask', 'place at, kind kind', ('kind', ('asked at kind', 'asked(at, kind)')))
act('NoTypes', '', ('kinds', ('[]', 'Items::new(alloc)')), ('commas', ('[]', 'Items::new(alloc)')))
act('AddType', 'kind x, kinds xs', ('kinds', add('xs', ('x', 'x'))))
act('TypeArguments', 'brackets angles, commas commas, kinds items', ('arguments', rec('KTypeArguments', angles='angles', items='items', commas='commas')))
act('AddComma', 'place at, commas xs', ('commas', add('xs', ('at', 'at'))))
# ---- expressions
act('NoExprs', '', ('exprs', ('[]', 'Items::new(alloc)')), ('commas', ('[]', 'Items::new(alloc)')))
act('AddExpr', 'expr x, exprs xs', ('exprs', add('xs', un('x'))))
act('Literal', 'token t', ('expr', E('Literal', 'literal', ('t.position', 'at'))), asks=['literal literal_of t'])
act('Name', 'name name', ('expr', E('Name', 'name')))
act('This', 'place at', ('expr', E('This', 'at')))
act('Paren', 'brackets round, expr x', ('expr', E('Paren', 'round', 'x')))
CALL = ['name', 'types', 'round', 'arguments', 'commas']
act('Call', 'brackets round, name name, commas commas, exprs xs', ('expr', E('Call', 'name', NONE, 'round', 'xs', 'commas', fields=CALL)))
act('GenericCall', 'brackets round, name name, arguments types, commas commas, exprs xs', ('expr', E('Call', 'name', ('Some types', 'Some(types)'), 'round', 'xs', 'commas', fields=CALL)))
act('SuperCall', 'brackets round, place dot, place word, name name, commas commas, exprs xs',
    ('expr', E('SuperCall', rec('KSuperAt', word='word', dot='dot'), 'name', 'round', 'xs', 'commas', fields=['at', 'name', 'round', 'arguments', 'commas'])))
act('Field', 'place dot, name name, expr x', ('expr', E('Field', 'x', 'dot', 'name')))
METHOD = ['object', 'dot', 'name', 'types', 'round', 'arguments', 'commas']
act('Method', 'brackets round, place dot, name name, commas commas, exprs xs, expr x', ('expr', E('Method', 'x', 'dot', 'name', NONE, 'round', 'xs', 'commas', fields=METHOD)))
act('GenericMethod', 'brackets round, place dot, name name, arguments types, commas commas, exprs xs, expr x',
    ('expr', E('Method', 'x', 'dot', 'name', ('Some types', 'Some(types)'), 'round', 'xs', 'commas', fields=METHOD)))
act('Element', 'brackets square, expr y, expr x', ('expr', E('Element', 'x', 'square', 'y')))
act('Postfix', 'token t, expr x', ('expr', E('Postfix', 'x', 'operator', ('t.position', 'at'))), asks=['operator postfix_of t'])
act('Prefix', 'token t, expr x', ('expr', E('Prefix', 'operator', ('t.position', 'at'), 'x')), asks=['operator prefix_of t'])
act('As', 'place at, kind kind, expr x', ('expr', E('As', 'x', 'at', 'kind')))
act('Is', 'place at, kind kind, expr x', ('expr', E('Is', 'x', 'at', 'kind')))
act('Binary', 'token t, expr y, expr x', ('expr', E('Binary', 'x', 'operator', ('t.position', 'at'), 'y', fields=['left', 'operator', 'at', 'right'])), asks=['operator binary_of t'])
act('IfValue', 'place else_at, head at, expr z, expr y, expr x', ('expr', E('IfValue', 'at', 'x', 'y', 'else_at', 'z', fields=['at', 'condition', 'value', 'else_at', 'other'])))
WHEN_AT = 'place closes, place arrow, place word, place opens, head at'
ELSE_AT = rec('KElseAt', word='word', arrow='arrow')
CURLY = rec('Brackets', opens='opens', closes='closes')
act('WhenChoices', WHEN_AT + ', expr z, choices xs, expr x', ('expr', E('WhenValue', 'at', 'x', CURLY, 'xs', ELSE_AT, 'z', fields=['at', 'subject', 'curly', 'choices', 'else_at', 'other'])))
act('NoChoices', '', ('choices', ('[]', 'Items::new(alloc)')))
act('Choice', 'place arrow, expr x, commas commas, exprs labels', ('choice', rec('KChoice', labels='labels', commas='commas', arrow='arrow', value=un('x'))))
act('AddChoice', 'choice x, choices xs', ('choices', add('xs', ('x', 'x'))))
act('Run', 'place at, block b', ('expr', E('Run', 'at', 'b.curly', ('b.statements', 'b.statements'))))
act('ClassOf', 'place java, place dot, place word, place colons, expr x', ('expr', E('Class', 'name', rec('KClassAt', colons='colons', word='word', dot='dot', java='java'))), asks=['name chain x'])
act('Face', 'expr x', ('kind', K('Plain', 'name', NONE, FALSE, fields=['name', 'question', 'variable'])), asks=['name chain x'])
act('Applied', 'name first, arguments a', ('kind', K('Applied', rec('KQualified', first='first', rest=('[]', 'Items::new(alloc)')), 'a.angles', 'a.items', 'a.commas', NONE, fields=['name', 'angles', 'arguments', 'commas', 'question'])))
act('DottedApplied', 'place dot, name name, arguments a, expr x', ('kind', ('ty.Applied (record { first = q.first; rest = q.rest ++ record { dot = dot; name = name } ∷ [] }) a.angles a.items a.commas None', 'DOTTED_APPLIED')), asks=['q chain x'])
act('NoNames', '', ('lambda_names', rec('KLambdaNames', items=('[]', 'Items::new(alloc)'), commas=('[]', 'Items::new(alloc)'), arrow=NONE)))
act('AddName', 'name x, lambda_names xs', ('lambda_names', ('record { items = xs.items ++ x ∷ []; commas = xs.commas; arrow = xs.arrow }', 'ADD_NAME')))
act('AddNameComma', 'place x, lambda_names xs', ('lambda_names', ('record { items = xs.items; commas = xs.commas ++ x ∷ []; arrow = xs.arrow }', 'ADD_NAME_COMMA')))
act('NamesArrow', 'place x, lambda_names xs', ('lambda_names', ('record { items = xs.items; commas = xs.commas; arrow = Some x }', 'KLambdaNames { items: xs.items, commas: xs.commas, arrow: Some(x) }')))
act('Lambda', 'brackets curly, statements xs, lambda_names names, kind face', ('expr', E('Lambda', 'face', 'curly', 'names', 'xs', fields=['face', 'curly', 'names', 'statements'])))
# ---- statements
act('NoStatements', '', ('statements', ('[]', 'Items::new(alloc)')), crate='s')
act('AddStatement', 'statement x, statements xs', ('statements', add('xs', un('x'))), crate='s')
act('Block', 'brackets curly, statements statements', ('block', rec('KBlock', curly='curly', statements='statements')), crate='s')
act('Declared', 'place colon, token t, kind kind, name name', ('declared', rec('KDeclared', word='word', at=('t.position', 'at'), name='name', colon='colon', kind='kind')), asks=['word variability_of t'], crate='s')
act('Local', 'place at, expr x, declared d', ('statement', S('Local', 'd', 'at', un('x'))), crate='s')
act('Unset', 'declared d', ('statement', S('Declared', 'd')), crate='s')
act('Expression', 'expr x', ('statement', S('Expression', un('x'))), crate='s')
act('Assign', 'place at, expr y, expr x', ('statement', S('Assign', un('x'), 'at', un('y'))), asks=['is_target x'], crate='s')
act('NoLabel', '', ('label', NONE), crate='s')
act('Label', 'place at, name name', ('label', some(rec('KLabel', name='name', at='at'))), crate='s')
act('NoTarget', '', ('target', NONE), crate='s')
act('Target', 'place at, name name', ('target', some(rec('KTarget', at='at', name='name'))), crate='s')
B = ('b.curly', ('b.statements', 'b.statements'))
LOOP = ['label', 'at', 'condition', 'curly', 'statements']
act('While', 'head at, block b, expr x, label label', ('statement', S('While', 'label', 'at', un('x'), *B, fields=LOOP)), crate='s')
act('DoWhile', 'head at, place do_at, expr x, block b, label label', ('statement', S('DoWhile', 'label', 'do_at', *B, 'at', un('x'), fields=['label', 'do_at', 'curly', 'statements', 'at', 'condition'])), crate='s')
ROUND_AT = rec('KHeadAt', word='word', round=rec('Brackets', opens='opens', closes='closes'))
act('For', 'place closes, place in_at, place opens, place word, block b, expr x, name name, label label',
    ('statement', S('For', 'label', ROUND_AT, 'name', 'in_at', un('x'), *B, fields=['label', 'at', 'name', 'in_at', 'values', 'curly', 'statements'])), crate='s')
act('ForRange', 'place closes, place until_at, place in_at, place opens, place word, block b, expr y, expr x, name name, label label',
    ('statement', S('ForRange', 'label', ROUND_AT, 'name', 'in_at', un('x'), 'until_at', un('y'), *B, fields=['label', 'at', 'name', 'in_at', 'first', 'until_at', 'end', 'curly', 'statements'])), crate='s')
act('If', 'head at, block b, expr x', ('statement', S('If', 'at', un('x'), *B, fields=['at', 'condition', 'curly', 'statements'])), crate='s')
act('IfElse', 'place else_at, head at, block c, block b, expr x',
    ('statement', S('IfElse', 'at', un('x'), *B, 'else_at', 'c.curly', 'c.statements', fields=['at', 'condition', 'curly', 'statements', 'else_at', 'other_curly', 'others'])), crate='s')
act('IfElseIf', 'place else_at, head at, statement y, block b, expr x',
    ('statement', S('IfElseIf', 'at', un('x'), *B, 'else_at', 'y', fields=['at', 'condition', 'curly', 'statements', 'else_at', 'other'])), crate='s')
act('WhenBranches', WHEN_AT + ', block b, branches xs, expr x',
    ('statement', S('When', 'at', un('x'), CURLY, 'xs', ELSE_AT, *B, fields=['at', 'subject', 'curly', 'branches', 'else_at', 'other_curly', 'others'])), crate='s')
act('NoBranches', '', ('branches', ('[]', 'Items::new(alloc)')), crate='s')
act('Branch', 'place arrow, block b, commas commas, exprs labels', ('branch', rec('KBranch', labels='labels', commas='commas', arrow='arrow', curly='b.curly', statements='b.statements')), crate='s')
act('AddBranch', 'branch x, branches xs', ('branches', add('xs', ('x', 'x'))), crate='s')
act('Break', 'place at, target to', ('statement', S('Break', 'at', 'to')), crate='s')
act('Continue', 'place at, target to', ('statement', S('Continue', 'at', 'to')), crate='s')
act('Return', 'place at, target to', ('statement', S('Return', 'at', 'to')), crate='s')
act('Give', 'place at, expr x, target to', ('statement', S('Give', 'at', 'to', un('x'))), crate='s')
act('Throw', 'place at, expr x', ('statement', S('Throw', 'at', un('x'))), crate='s')
act('NoCatches', '', ('catches', ('[]', 'Items::new(alloc)')), crate='s')
act('Catch', 'place closes, place colon, place opens, place word, block b, kind kind, name name',
    ('catch', rec('KCatch', at=ROUND_AT, name='name', colon='colon', kind='kind', curly='b.curly', statements='b.statements')), crate='s')
act('AddCatch', 'catch x, catches xs', ('catches', add('xs', ('x', 'x'))), crate='s')
act('Try', 'place at, catches xs, block b', ('statement', S('Try', 'at', *B, 'xs', fields=['at', 'curly', 'statements', 'catches'])), crate='s')
act('TryFinally', 'place word, place at, block c, catches xs, block b',
    ('statement', S('TryFinally', 'at', *B, 'xs', rec('KFinallyAt', word='word', curly='c.curly'), 'c.statements', fields=['at', 'curly', 'statements', 'catches', 'last_at', 'last'])), crate='s')
act('Synchronized', 'head at, block b, expr x', ('statement', S('Synchronized', 'at', un('x'), *B, fields=['at', 'lock', 'curly', 'statements'])), crate='s')
# ---- members, classes, files
act('NoModifiers', '', ('modifiers', ('[]', 'Items::new(alloc)')), crate='m')
act('AddModifier', 'token t, modifiers xs', ('modifiers', add('xs', rec('KModifier', kind='kind', at=('t.position', 'at')))), asks=['kind modifier_of t'], crate='m')
act('AddAnnotation', 'place at_sign, token t, modifiers xs', ('modifiers', add('xs', rec('KModifier', kind='kind', at='at_sign'))), asks=['kind annotation_of t'], crate='m')
act('ClassWord', 'token t', ('class_word', rec('ClassHead', word='word', at=('t.position', 'at'))), asks=['word class_word_of t'], crate='m')
act('FunClassWord', 'place fun_at, token t', ('class_word', rec('ClassHead', word='word', at=('t.position', 'at'))), asks=['word fun_class_word_of fun_at t'], crate='m')
act('NoTypeParams', '', ('type_param_list', ('[]', 'Items::new(alloc)')), ('commas', ('[]', 'Items::new(alloc)')), crate='m')
act('AddTypeParam', 'typed bound, name name, type_param_list xs', ('type_param_list', add('xs', rec('KTypeParam', name='name', bound='bound'))), crate='m')
act('TypeParams', 'brackets angles, commas commas, type_param_list items', ('type_params', some(rec('KTypeParams', angles='angles', items='items', commas='commas'))), crate='m')
act('NoneOfTypeParams', '', ('type_params', NONE), crate='m')
act('NoSupers', '', ('super_list', ('[]', 'Items::new(alloc)')), ('commas', ('[]', 'Items::new(alloc)')), crate='m')
act('AddSuper', 'kind kind, super_list xs', ('super_list', add('xs', rec('KSuper', kind='kind', round=NONE))), crate='m')
act('AddCalledSuper', 'brackets round, kind kind, super_list xs', ('super_list', add('xs', rec('KSuper', kind='kind', round=('Some round', 'Some(round)')))), crate='m')
act('Supers', 'place colon, commas commas, super_list items', ('supers', some(rec('KSupers', colon='colon', items='items', commas='commas'))), crate='m')
act('NoneOfSupers', '', ('supers', NONE), crate='m')
act('Typed', 'place colon, kind kind', ('typed', some(rec('KTyped', colon='colon', kind='kind'))), crate='m')
act('Untyped', '', ('typed', NONE), crate='m')
act('NoMembers', '', ('members', ('[]', 'Items::new(alloc)')), crate='m')
act('AddMember', 'member x, members xs', ('members', add('xs', un('x'))), crate='m')
act('Init', 'place at, block b', ('member', M('Init', 'at', 'b')), crate='m')
act('Companion', 'brackets curly, place object, place companion, members xs', ('member', M('Companion', rec('KCompanionAt', companion='companion', object='object', curly='curly'), 'xs')), crate='m')
act('Property', 'setter setter, value value, declared d, modifiers ms', ('member', M('Property', 'ms', 'd', 'value', 'setter', fields=['modifiers', 'declared', 'value', 'setter'])), crate='m')
act('Function', 'place at, body body, typed result_type, params params, name name, modifiers ms',
    ('member', M('Function', 'ms', 'at', 'name', 'params', 'result_type', 'body', fields=['modifiers', 'at', 'name', 'params', 'result', 'body'])), crate='m')
act('Constructor', 'place at, block b, delegation first, params params, modifiers ms', ('member', M('Constructor', 'ms', 'at', 'params', 'first', 'b', fields=['modifiers', 'at', 'params', 'first', 'body'])), crate='m')
act('Value', 'place at, expr x', ('value', some(rec('KValue', at='at', tree=un('x')))), crate='m')
act('NoValue', '', ('value', NONE), crate='m')
act('Setter', 'place set_at, place private_at', ('setter', some(rec('KPrivateSet', private='private_at', set='set_at'))), crate='m')
act('NoSetter', '', ('setter', NONE), crate='m')
act('NoParams', '', ('param_list', ('[]', 'Items::new(alloc)')), ('commas', ('[]', 'Items::new(alloc)')), crate='m')
act('AddParam', 'place colon, kind kind, name name, param_list xs', ('param_list', add('xs', rec('KParam', name='name', colon='colon', kind='kind'))), crate='m')
act('Params', 'brackets round, commas commas, param_list items', ('params', rec('KParams', round='round', items='items', commas='commas')), crate='m')
act('Body', 'block b', ('body', ('Some b', 'Some(b)')), crate='m')
act('NoBody', '', ('body', NONE), crate='m')
act('Delegation', 'brackets round, token t, place colon, commas commas, exprs xs',
    ('delegation', some(rec('KDelegation', colon='colon', called='called', at=('t.position', 'at'), round='round', arguments='xs', commas='commas'))), asks=['called called_of t'], crate='m')
act('NoDelegation', '', ('delegation', NONE), crate='m')
act('Class', 'brackets curly, members members, supers supers, type_params type_params, name name, class_word head, modifiers modifiers',
    ('class', rec('KClass', comments=('[]', 'Items::new(alloc)'), modifiers='modifiers', word='head.word', at='head.at', name='name', params='type_params', supers='supers', curly='curly', members='members')), crate='m')
act('Package', 'place at, qualified name', ('package', some(rec('KPackage', at='at', name='name'))), crate='m')
act('NoPackage', '', ('package', NONE), crate='m')
act('NoImports', '', ('imports', ('[]', 'Items::new(alloc)')), crate='m')
act('Import', 'place at, qualified name, imports xs', ('imports', add('xs', rec('KImport', at='at', name='name'))), crate='m')
missing = [a for a in T.ACTS if a not in A]
extra = [a for a in A if a not in T.ACTS]
print('actions', len(A), 'missing', missing, 'extra', extra)

# ---- how deep the parts are: of so many parts, and so many whose depth doesn't count; what is pushed
LEVELS = {}
for line in """
Same 0 0: NoTypes NoExprs NoStatements NoChoices NoBranches NoCatches
Same 1 0: TypeArguments
Same 2 0: AddType AddExpr AddStatement AddChoice AddBranch AddCatch
Deeper 0 0: PlainType Literal Name This Break Continue Return
Deeper 1 0: AppliedType Prefix Postfix SuperCall Paren Run Call Field Applied Block Unset Expression Give Throw
Deeper 2 0: Binary Is As GenericCall Element Method Lambda Choice Branch Catch Local Assign While DoWhile For If Try Synchronized
Deeper 3 0: GenericMethod IfValue WhenChoices WhenBranches ForRange IfElse IfElseIf TryFinally
Deeper 0 1: Face ClassOf
Deeper 1 1: DottedApplied
Gone 0 1: Value Typed Body Property Init Constructor AddParam AddSuper AddCalledSuper Delegation
""".strip().split('\n'):
    how, names = line.split(': ')
    for n in names.split():
        assert n in A, n
        LEVELS[n] = how.split()

# ---- writing


def put(crate, path, text):
    path = os.path.join(CRATES, crate, path)
    os.makedirs(os.path.dirname(path), exist_ok=True)
    open(path, 'w').write(text)


def paren(s):
    return s if re.fullmatch(r'[\w.]+|\[\]', s) else f'({s})'


GRAMMAR = 'Rattle.kotlin_grammar'
TREE = 'Rattle.kotlin_tree.specs.declared'


def tree_uses(text):
    r = ''
    for n in sorted(HOME):
        if re.search(r'\b' + n + r'\b', text):
            r += f'use {TREE}.{HOME[n]}.{n}.{{{n}}}\n'
    return r


# the parts that wait
rs = '''// The parts that wait for what is built of them.

use grammar::Stack;
use kotlin_tree::{
'''
types = sorted(set(w for _, _, c in PARTS.values() for w in re.findall(r'K\w+|Position', c)))
rs += '    ' + ', '.join(types + ['KClassWord']) + ',\n};\nuse sqlite_items::{Boxed, Items};\n\n'
rs += '''/// The words of a class, and where `class` or `interface` stands.
#[derive(Clone, Copy)]
pub struct ClassHead {
    pub word: KClassWord,
    pub at: Position,
}

/// The parts of each type on a stack of its own, and of those that have a depth the depths on one more.
#[derive(Drop)]
pub struct Built {
    pub depths: Stack<usize>,
''' + ''.join(f'    pub {f}: Stack<{c}>,\n' for f, _, c in PARTS.values()) + '}\n'
put('kotlin_grammar', 'src/built.rt', rs)

spec_types = ' '.join(s for _, s, _ in PARTS.values())
an = '-- The last part of each type, and one more.\n'
an += 'use Rattle.std.specs.Prelude.{ℕ, Bool, true, false, if◌then◌else◌, List, [], ◌∷◌, Option, Some, None}\nuse Rattle.grammar.specs.Machine.{◌>>=◌}\n'
body = f'use {GRAMMAR}.specs.declared.built.Built.{{Built}}\nuse {GRAMMAR}.specs.declared.built.ClassHead.{{ClassHead}}\n'
body += '''
abbrev pub last : {A : Type 0} → List A → (List A → Built) → Option (A × Built)
last [] f = None
last (x ∷ xs) f = Some (x, f xs)

'''
for p, (f, sp, co) in PARTS.items():
    body += f'unfoldable pub last_{p} : Built → Option ({paren(sp)} × Built)\nlast_{p} b = last b.{f} (λ xs. record b {{ {f} = xs }})\n\n'
    body += f'unfoldable pub with_{p} : {sp} → Built → Built\nwith_{p} x b = record b {{ {f} = x ∷ b.{f} }}\n\n'
body += '''-- an opening and a closing bracket
abbrev pub last_brackets : Built → Option (Brackets × Built)
last_brackets b = do
  closes ← last_place b
  opens ← last_place closes.1
  Some (record { opens = opens.0; closes = closes.0 }, opens.1)

-- a word, `(` and `)`
abbrev pub last_head : Built → Option (KHeadAt × Built)
last_head b = do
  round ← last_brackets b
  word ← last_place round.1
  Some (record { word = word.0; round = round.0 }, word.1)

-- nothing
unfoldable pub empty : Built
empty = record { depths = []; ''' + '; '.join(f'{f} = []' for f, _, _ in PARTS.values()) + ' }\n'
an += tree_uses(body) + body
put('kotlin_grammar', 'specs/Parts.antt', an)


def spec_term(text, names):
    for n in names:
        text = re.sub(r'(?<![\w.])' + n + r'(?![\w])(?! =)', f'{n}.0', text)
    return text


COPIED = {'place', 'brackets', 'head', 'class_word', 'setter'}


def no(held, answer='Ok(false)'):
    # what is owned is let go by calls
    if not held:
        return f'return {answer}'
    return '{\n' + ''.join(f'            let_go({h});\n' for h in held) + f'            return {answer};\n        }}'


asks_spec = {'literal_of': 't.0.kind', 'postfix_of': 't.0.kind', 'prefix_of': 't.0.kind', 'binary_of': 't.0.kind', 'chain': 'x.0', 'variability_of': 't.0.kind',
             'modifier_of': 't.0.kind', 'annotation_of': 't', 'class_word_of': 't.0.kind', 'fun_class_word_of': 'fun_at t', 'called_of': 't.0.kind'}
an = '-- What each action builds of the last parts.\n'
an += 'use Rattle.std.specs.Prelude.{◌≡◌, ℕ, Bool, true, false, if◌then◌else◌, List, [], ◌∷◌, ◌++◌, Option, Some, None}\nuse Rattle.grammar.specs.Machine.{◌>>=◌}\n'
body = f'use {GRAMMAR}.specs.declared.letters.Act.{{Act}}\nuse {GRAMMAR}.specs.declared.letters.Act.TheVariants as a\n'
body += f'use {TREE}.expressions.KExpr.TheVariants as e\nuse {TREE}.members.KMember.TheVariants as mb\nuse {TREE}.types.KType.TheVariants as ty\n'
body += f'use {GRAMMAR}.specs.declared.built.Built.{{Built}}\n'
body += f'use {GRAMMAR}.specs.Parts.{{' + ', '.join(f'last_{p}, with_{p}' for p in PARTS) + ', last_brackets, last_head}\n'
body += f'use {GRAMMAR}.specs.Meaning.{{asked, literal_of, postfix_of, prefix_of, binary_of, chain, is_target, variability_of, modifier_of, annotation_of, class_word_of, fun_class_word_of, called_of}}\n'
body += '\nunfoldable pub build : Act → Built → Option Built\n'
code = {}
for a in T.ACTS:
    pops, pushes, asks, crate = A[a]
    pops = [p.split() for p in pops]
    names = [n for _, n in pops]
    cur = 'b'
    lines, guard = [], None
    ask_by = {}
    for q in asks:
        w = q.split()
        if w[0] == 'is_target':
            guard = 'is_target x.0'
            continue
        ask_by.setdefault(w[-1], []).append(w)
    for p, n in pops:
        lines.append(f'{n} ← last_{p} {cur}')
        cur = n + '.1'
        for w in ask_by.get(n, []):
            arg = {'chain': f'{n}.0', 'fun_class_word_of': f'fun_at.0 {n}.0.kind', 'annotation_of': f'{n}.0'}.get(w[1], f'{n}.0.kind')
            lines.append(f'{w[0]} ← {w[1]} {arg}')
    out = cur
    for p, v in pushes:
        if v[0] == '+':
            item = v[2]
            s = f'{v[1]} ++ {paren(item[0]) if not item[0].startswith("record") else item[0]} ∷ []'
        else:
            s = v[0]
        s = spec_term(s, names)
        out = f'with_{p} {paren(s)} {paren(out)}'
    final = f'if {guard} then Some ({out}) else None' if guard else f'Some ({out})'
    if not pops:
        body += f'build a.{a} b = {final}\n'
    else:
        body += f'build a.{a} b = do\n' + ''.join(f'  {l}\n' for l in lines) + f'  {final}\n'
    # code
    needs = any(p in ALLOC for p, _ in pushes) or any('alloc' in (v[2][1] if v[0] == '+' else v[1]) for _, v in pushes) or any('chain' in q for q in asks)
    c = ''
    held = []
    for p, n in pops:
        special = any(v[0] == '+' and v[1] == n for _, v in pushes) or (n == 'q' and a == 'AddDotted') or (n == 'xs' and a in ('AddName', 'AddNameComma'))
        mut = 'mut ' if special else ''
        c += f'    let {mut}{n} = match pop_{p}(built) {{\n        Some({n}) => {n},\n        None => {no(held)},\n    }};\n'
        if p not in COPIED:
            held.append(n)
        if p == 'token' and any('t.position' in str(v) for _, v in pushes):
            c += '    let at = t.position;\n'
        for w in ask_by.get(n, []):
            target = ('mut ' if w[0] == 'q' else '') + w[0]
            call = {'chain': f'chain(alloc, {n}.get())?', 'fun_class_word_of': f'fun_class_word_of(fun_at, {n})'}.get(w[1], f'{w[1]}({n})')
            if w[1] != 'chain' and n in held:
                held.remove(n)
            if w[1] == 'chain':
                c += f'    let found = match chain(alloc, {n}.get()) {{\n        Ok(found) => found,\n        Err(error) => {no(held, "Err(error)")},\n    }};\n    let_go({n});\n'
                held.remove(n)
                call = 'found'
            c += f'    let {target} = match {call} {{\n        Some({w[0]}) => {w[0]},\n        None => {no(held)},\n    }};\n'
            if w[0] in ('literal', 'q', 'name'):
                held.append(w[0])
    if guard:
        c += '    if !is_target(x.get()) {\n' + ''.join(f'        let_go({h});\n' for h in held) + '        return Ok(false);\n    }\n'
    for p, v in pushes:
        g = 'alloc, ' if p in ALLOC else ''
        if v[0] == '+':
            c += f'    {v[1]}.push({v[2][1]})?;\n    push_{p}(built, {v[1]})?;\n'
        elif v[1] == 'DOTTED':
            c += '    q.rest.push(KDotted { dot, name })?;\n    push_qualified(built, q)?;\n'
        elif v[1] == 'DOTTED_APPLIED':
            c += '    q.rest.push(KDotted { dot, name })?;\n    let kind = KType::Applied {\n        name: q,\n        angles: a.angles,\n        arguments: a.items,\n        commas: a.commas,\n        question: None,\n    };\n    push_kind(built, kind)?;\n'
        elif v[1] == 'ADD_NAME':
            c += '    xs.items.push(x)?;\n    push_lambda_names(built, xs)?;\n'
        elif v[1] == 'ADD_NAME_COMMA':
            c += '    xs.commas.push(x)?;\n    push_lambda_names(built, xs)?;\n'
        else:
            c += f'    push_{p}({g}built, {v[1]})?;\n'
    c += '    Ok(true)\n'
    fn = 'act_' + T.snake(a).lstrip('_')
    code[a] = (crate, fn, needs, f'#[tactic(auto, unfolding(kotlin_grammar::specs::Build::build))]\npub fn {fn}({"alloc: Global, " if needs else ""}built: &mut Built) -> Result<bool, NoMemory>\n    ensures {{ IfOk result (Builds a.{a} built.old built.new) }}\n{{\n{c}}}\n\n')
an += tree_uses(body) + body
put('kotlin_grammar', 'specs/Build.antt', an)

an = '-- How deep the parts are. A type, an expression, a statement, a block, a line of a `when` and a `catch` are one deeper than the deepest of\n-- their parts; a list is as deep as the deepest of its items.\n'
an += 'use Rattle.std.specs.Prelude.{ℕ, suc, max, nat_lt, Bool, true, false, if◌then◌else◌, List, [], ◌∷◌, Option, Some, None}\nuse Rattle.grammar.specs.Machine.{◌>>=◌}\n'
an += f'use {GRAMMAR}.specs.declared.letters.Act.{{Act}}\nuse {GRAMMAR}.specs.declared.letters.Act.TheVariants as a\nuse {GRAMMAR}.specs.declared.built.Built.{{Built}}\n'
for n, al in (('Levels', None), ('Level', 'v'), ('Parts', 'n')):
    an += f'use {GRAMMAR}.specs.declared.levels.{n}.{{{n}}}\n' + (f'use {GRAMMAR}.specs.declared.levels.{n}.TheVariants as {al}\n' if al else '')
an += f'use {GRAMMAR}.specs.Build.{{build}}\n'
NUMBER = ['Zero', 'One', 'Two', 'Three']
an += """
abbrev pub levels_by : Parts → Parts → Level → Levels
levels_by parts under level = record { parts = parts; under = under; level = level }

-- of how many parts the depth counts, of how many below them it doesn't, and what is made of them
unfoldable pub levels : Act → Levels
""" + ''.join(f'levels a.{a} = levels_by n.{NUMBER[int(LEVELS[a][1])]} n.{NUMBER[int(LEVELS[a][2])]} v.{LEVELS[a][0]}\n' for a in T.ACTS if a in LEVELS) + """levels _ = levels_by n.Zero n.Zero v.Gone

-- the deepest tree that is read
abbrev pub max_depth : ℕ
max_depth = 1600

abbrev pub last_depth : List ℕ → Option (ℕ × List ℕ)
last_depth [] = None
last_depth (d ∷ ds) = Some (d, ds)

-- the depth of the deepest of so many
unfoldable pub deepest : Parts → List ℕ → Option (ℕ × List ℕ)
deepest n.Zero ds = Some (0, ds)
deepest n.One ds = last_depth ds
deepest n.Two ds = do
  x ← last_depth ds
  y ← last_depth x.1
  Some (max x.0 y.0, y.1)
deepest n.Three ds = do
  x ← last_depth ds
  y ← last_depth x.1
  z ← last_depth y.1
  Some (max (max x.0 y.0) z.0, z.1)

abbrev pub leveled : Level → ℕ → List ℕ → Option (List ℕ)
leveled v.Same d ds = Some (d ∷ ds)
leveled v.Deeper d ds = if nat_lt d max_depth then Some (suc d ∷ ds) else None
leveled v.Gone d ds = Some ds

abbrev pub measured : Levels → List ℕ → Option (List ℕ)
measured l ds = do
  depth ← deepest l.parts ds
  under ← deepest l.under depth.1
  leveled l.level depth.0 under.1

-- What an action builds, where its parts are those that it wants and no deeper tree than is read.
unfoldable pub acts : Act → Built → Option Built
acts a b = do
  ds ← measured (levels a) b.depths
  build a (record b { depths = ds })
"""
put('kotlin_grammar', 'specs/Depth.antt', an)
put('kotlin_grammar', 'src/levels.rt', """// How deep what an action builds is.

/// How many parts.
#[derive(Clone, Copy)]
pub enum Parts {
    Zero,
    One,
    Two,
    Three,
}

/// What is made of the depth of parts.
#[derive(Clone, Copy)]
pub enum Level {
    /// It is as deep as they are.
    Same,
    /// It is one deeper.
    Deeper,
    /// It has no depth.
    Gone,
}

/// Of so many parts the depth counts, of so many below them it doesn't.
#[derive(Clone, Copy)]
pub struct Levels {
    pub parts: Parts,
    pub under: Parts,
    pub level: Level,
}
""")

# ---- the code of the parts
rs = '// The last part of each type, and one more.\n\nghost use Rattle.std.specs.Prelude.{OnOk, ◌≡◌};\nghost use Rattle.kotlin_grammar.specs.Parts as b;\nghost use Rattle.kotlin_actions.specs.Popping.{Pops};\n\nuse kotlin_grammar::{Built, ClassHead};\nuse kotlin_tree::{Brackets, KHeadAt, '
rs += ', '.join(sorted(set(types) | {'KExpr', 'KStmt', 'KMember'})) + '};\nuse sqlite_items::{Boxed, Items};\nuse std::alloc::{AllocError, Global};\n\n'
for p, (f, sp, co) in PARTS.items():
    rs += f'#[tactic(auto, unfolding(kotlin_grammar::specs::Parts::last_{p}))]\npub fn pop_{p}(built: &mut Built) -> Option<{co}>\n    ensures {{ Pops b.last_{p} built.old built.new result }}\n{{\n    built.{f}.pop()\n}}\n\n'
    if p in BOXED:
        rs += f'#[tactic(auto, unfolding(kotlin_grammar::specs::Parts::with_{p}))]\npub fn push_{p}(alloc: Global, built: &mut Built, part: {sp}) -> Result<(), AllocError>\n    ensures {{ OnOk result (built.new ≡ b.with_{p} part built.old) }}\n{{\n    built.{f}.push(Boxed::new(alloc, part)?)\n}}\n\n'
    else:
        rs += f'#[tactic(auto, unfolding(kotlin_grammar::specs::Parts::with_{p}))]\npub fn push_{p}(built: &mut Built, part: {co}) -> Result<(), AllocError>\n    ensures {{ OnOk result (built.new ≡ b.with_{p} part built.old) }}\n{{\n    built.{f}.push(part)\n}}\n\n'
rs += '''/// Lets go of a part, by a call.
pub fn let_go<T: Drop>(_part: T) {}

/// An opening and a closing bracket.
pub fn pop_brackets(built: &mut Built) -> Option<Brackets>
    ensures { Pops b.last_brackets built.old built.new result }
{
    let closes = pop_place(built)?;
    let opens = pop_place(built)?;
    Some(Brackets { opens, closes })
}

/// A word, `(` and `)`.
pub fn pop_head(built: &mut Built) -> Option<KHeadAt>
    ensures { Pops b.last_head built.old built.new result }
{
    let round = pop_brackets(built)?;
    let word = pop_place(built)?;
    Some(KHeadAt { word, round })
}
'''
put('kotlin_actions', 'src/stacks.rt', rs)
for crate, name, doc in (('e', 'expressions', 'names, types and expressions'), ('s', 'statements', 'statements and blocks'), ('m', 'members', 'members, classes and files')):
    body = ''.join(code[a][3] for a in T.ACTS if code[a][0] == crate)
    pops = sorted(set(re.findall(r'\b(?:pop|push)_\w+', body)))
    helpers = sorted(set(h for h in ('asked', 'literal_of', 'postfix_of', 'prefix_of', 'binary_of', 'chain', 'is_target', 'variability_of', 'modifier_of', 'annotation_of', 'class_word_of', 'fun_class_word_of', 'called_of') if re.search(r'\b' + h + r'\(', body)))
    trees = sorted(n for n in HOME if re.search(r'\b' + n + r' \{|\b' + n + '::', body))
    rs = f'// What is built of the parts of {doc}.\n\nghost use Rattle.std.specs.Prelude.{{IfOk}};\nghost use Rattle.kotlin_grammar.specs.declared.letters.Act.TheVariants as a;\nghost use Rattle.kotlin_actions.specs.Popping.{{Builds}};\n\nuse crate::meanings::{{' + ', '.join(helpers) + '};\nuse crate::stacks::{' + ', '.join(['let_go'] + pops) + f'}};\nuse j2k_base::NoMemory;\nuse kotlin_grammar::{{Built{", ClassHead" if "ClassHead {" in body else ""}}};\nuse kotlin_tree::{{' + ', '.join(trees) + '};\n'
    rs += 'use sqlite_items::Items;\n' if 'Items::' in body else ''
    rs += 'use std::alloc::Global;\n\n' + body.rstrip('\n') + '\n'
    put('kotlin_actions', f'src/{name}.rt', rs)
rs = '// What an action builds.\n\nghost use Rattle.std.specs.Prelude.{IfOk};\nghost use Rattle.kotlin_actions.specs.Popping.{Builds};\n\n'
for crate, name in (('e', 'expressions'), ('m', 'members'), ('s', 'statements')):
    rs += f'use crate::{name}::{{' + ', '.join(code[a][1] for a in T.ACTS if code[a][0] == crate) + '};\n'
rs += 'use j2k_base::NoMemory;\nuse kotlin_grammar::{Act, Built};\nuse std::alloc::Global;\n'
rs += '\n/// Builds, and answers whether the parts are those that the action wants. Where they aren\'t, what is left is of no use.\n#[tactic(auto, unfolding(kotlin_grammar::specs::Build::build))]\npub fn build(alloc: Global, act: Act, built: &mut Built) -> Result<bool, NoMemory>\n    ensures { IfOk result (Builds act built.old built.new) }\n{\n    match act {\n'
for a in T.ACTS:
    rs += f'        Act::{a} => {code[a][1]}({"alloc, " if code[a][2] else ""}built),\n'
rs += '    }\n}\n'
put('kotlin_actions', 'src/building.rt', rs)
rs = '/// How deep what the action builds is.\n#[tactic(auto, unfolding(kotlin_grammar::specs::Depth::levels))]\nfn levels(act: Act) -> Levels\n    ensures { result ≡ levels_of act }\n{\n    match act {\n'
for a in T.ACTS:
    if a in LEVELS:
        rs += f'        Act::{a} => levels_by(Parts::{NUMBER[int(LEVELS[a][1])]}, Parts::{NUMBER[int(LEVELS[a][2])]}, Level::{LEVELS[a][0]}),\n'
rs += '        _ => levels_by(Parts::Zero, Parts::Zero, Level::Gone),\n    }\n}\n'
levels_code = rs

rs = "// What an action does.\n\nghost use Rattle.std.specs.Prelude.{◌≡◌, IfOk};\nghost use Rattle.kotlin_grammar.specs.Depth.{levels as levels_of};\nghost use Rattle.kotlin_machine.specs.Steps.{Acts};\n\nuse crate::depths::{levels_by, measure};\nuse j2k_base::NoMemory;\nuse kotlin_actions::build;\nuse kotlin_grammar::{Act, Built, Level, Levels, Parts};\nuse std::alloc::Global;\n\n" + levels_code + """
/// Measures and builds, and answers whether the action may.
#[tactic(auto, unfolding(kotlin_grammar::specs::Depth::acts))]
pub fn act(alloc: Global, act: Act, built: &mut Built) -> Result<bool, NoMemory>
    ensures { IfOk result (Acts act built.old built.new) }
{
    if measure(built, levels(act))? {
        build(alloc, act, built)
    } else {
        Ok(false)
    }
}
"""
put('kotlin_machine', 'src/acting.rt', rs)

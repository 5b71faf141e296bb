#!/usr/bin/env python3
"""Writes the uniform parts of the crates vf_syntax and vf_resolved: the recursive tree types, and the keywords.

    tools/gen_syntax.py            run at the top of the repository

For each recursive type it writes, from the tables `CYCLES` and `RESOLVED` below,

* `src/MODULE.rt`: the struct round an enum, its lists, and the view that contracts have of them;
* `specs/XTree.antt`: the same as pure data, without pointers, with the places;
* `specs/XCodes.antt`: how the logic stores that data;
* `specs/XShown.antt`: which pure data a value of the code stands for;

and from `KEYWORDS` the file `src/keyword.rt` with `specs/Keywords.antt`. A kind of field is one of

    number, byte      u64, u8
    text              a text
    terms             terms in a row
    size, flag        usize, bool
    own:X             X, a type that leads back to nothing here, declared in a module of this crate or another
    tree:X            a tree of an earlier cycle, by value, or of a crate below (`FOREIGN`)
    box:X             a tree of this cycle, in a box
    in:X              a tree of this cycle, by value (in a struct)
    list:X            a list of trees of this cycle
    maybe:X           a tree of this cycle in a box, or none: two constructors of the pure data
    option:K          K or none, where K leads back to nothing here
    seq:K             a sequence of K
"""
import os

CRATE = 'vf_syntax'
ROOT = 'crates/vf_syntax'
SPECS = 'Rattle.vf_syntax.specs'
RUST_HEAD = '// Written by tools/gen_syntax.py: change it there.\n'
ANTT_HEAD = '-- Written by tools/gen_syntax.py: change it there.\n'

# Types that lead back to nothing: where Rust and the logic find them.
LEAVES = {
    'IntType': ('vf_base', 'int_type', 'IntType'),
    'Place': ('vf_base', 'place', 'Place'),
    'Name': ('vf_syntax', 'written', 'Name'),
    'CType': ('vf_syntax', 'written', 'CType'),
    'UnaryOperator': ('vf_syntax', 'operator', 'UnaryOperator'),
    'BinaryOperator': ('vf_syntax', 'operator', 'BinaryOperator'),
    'Level': ('vf_syntax', 'operator', 'Level'),
    'Pattern': ('vf_syntax', 'pattern', 'Pattern'),
    'CasePattern': ('vf_syntax', 'pattern', 'CasePattern'),
    'Share': ('vf_syntax', 'pattern', 'Share'),
    'Simple': ('vf_syntax', 'simple', 'Simple'),
    'First': ('vf_syntax', 'simple', 'First'),
    'Contract': ('vf_syntax', 'contract', 'Contract'),
    'Claim': ('vf_syntax', 'contract', 'Claim'),
    'Invariant': ('vf_syntax', 'contract', 'Invariant'),
}

# The leaves of resolved trees.
RESOLVED_LEAVES = {
    'Place': ('vf_base', 'place', 'Place'),
    'Comparison': ('vf_core', 'words', 'Comparison'),
    'Slot': ('vf_resolved', 'pattern', 'Slot'),
    'Share': ('vf_resolved', 'pattern', 'Share'),
    'Argument': ('vf_resolved', 'pattern', 'Argument'),
    'Pattern': ('vf_resolved', 'pattern', 'Pattern'),
    'Head': ('vf_resolved', 'head', 'Head'),
    'CellField': ('vf_resolved', 'head', 'CellField'),
}

# Trees of crates below: their crate, the file and the name of their pure data, and the file of its code.
FOREIGN = {
    'Term': ('vf_formula', 'Rattle.vf_closure.specs.Terms', 'Term', 'Rattle.vf_formula.specs.Codes'),
}

# Types of trees in front of which no place stands, and of which there are no lists.
PLACELESS = {'Truth'}
LISTLESS = {'Truth'}

# The recursive types of resolved trees.
RESOLVED = [
    ('truth', 'Truth', 'truth values', [
        ('Truth', 'A truth value, whose connectives and comparisons are told apart.', [
            ('Value', 'A value, which is no more told apart.', [('value', 'tree:Term')]),
            ('Comparison', 'A comparison, and whether both sides are truth values; each side is a value or a comparison.', [('comparison', 'own:Comparison'), ('of_truths', 'flag'), ('left', 'box:Truth'), ('right', 'box:Truth')]),
            ('Not', '`!a`', [('inner', 'box:Truth')]),
            ('And', '`a && b`', [('left', 'box:Truth'), ('right', 'box:Truth')]),
            ('Or', '`a || b`', [('left', 'box:Truth'), ('right', 'box:Truth')]),
            ('Choice', '`(c ? a : b)`', [('test', 'box:Truth'), ('yes', 'box:Truth'), ('no', 'box:Truth')]),
        ]),
    ]),
    ('assertion', 'Assertion', 'assertions', [
        ('Part', 'A part of an assertion, and the place of its first token.', [
            ('Pure', 'A truth value.', [('truth', 'tree:Truth')]),
            ('Empty', '`emp`', []),
            ('Group', '`(A)`', [('inner', 'list:Part')]),
            ('Conditional', '`c ? A : B`', [('test', 'tree:Truth'), ('yes', 'list:Part'), ('no', 'list:Part')]),
            ('Switch', '`switch (e) { .. }`', [('value', 'tree:Term'), ('branches', 'list:Branch')]),
            ('Cell', '`[s]e->f |-> v`', [('share', 'option:own:Share'), ('pointer', 'tree:Term'), ('field', 'own:CellField'), ('content', 'own:Pattern')]),
            ('Chunk', '`[s]p(..)`', [('share', 'option:own:Share'), ('head', 'own:Head'), ('arguments', 'seq:own:Pattern')]),
        ]),
        ('Branch', 'A case of a `switch`, and the place of its `case`: the identity of its constructor, the place of that among the constructors of the datatype, counted from 0, and the names of its arguments.', [
            (None, '', [('constructor', 'text'), ('number', 'size'), ('names', 'seq:own:Slot'), ('body', 'list:Part')]),
        ]),
    ]),
    ('command', 'Command', 'ghost commands', [
        ('Command', 'A ghost command, and the place of its first token.', [
            ('Open', '`open [s]p(..);`', [('share', 'option:own:Share'), ('head', 'own:Head'), ('arguments', 'seq:own:Pattern')]),
            ('Close', '`close [s]p(..);`', [('share', 'option:own:Share'), ('head', 'own:Head'), ('arguments', 'seq:own:Argument')]),
            ('Leak', '`leak A;`', [('parts', 'parts')]),
            ('Assert', '`assert A;`', [('parts', 'parts')]),
            ('Set', 'A value for a ghost local, by its symbol, which is declared here or assigned.', [('name', 'tree:Term'), ('value', 'tree:Term')]),
            ('Call', 'A call of a lemma.', [('lemma', 'text'), ('arguments', 'terms')]),
            ('CallReal', 'A call of a function of C, which is refused.', []),
            ('If', '`if (e) { .. } else { .. }`', [('test', 'tree:Truth'), ('yes', 'list:Command'), ('no', 'list:Command')]),
            ('Switch', '`switch (e) { .. }`', [('value', 'tree:Term'), ('branches', 'list:CommandBranch')]),
            ('Block', '`{ .. }`', [('commands', 'list:Command')]),
        ]),
        ('CommandBranch', 'A case of a `switch` among ghost commands, and the place of its `case`, as a branch of an assertion has it.', [
            (None, '', [('constructor', 'text'), ('number', 'size'), ('names', 'seq:own:Slot'), ('commands', 'list:Command')]),
        ]),
    ]),
]

# A type: (name, what it is, [(variant, what it is, [(field, kind)])]), or with one unnamed variant for a struct.
CYCLES = [
    ('sort', 'Sort', 'sorts', [
        ('Sort', 'A sort of ghost text, and the place of its first token.', [
            ('Real', '`real`', []),
            ('Any', '`any`', []),
            ('Type', 'A type of C.', [('written', 'own:CType')]),
            ('Name', 'A datatype with its arguments, or a type parameter.', [('name', 'text'), ('arguments', 'list:Sort')]),
            ('Predicate', '`predicate(..)`', [('arguments', 'list:Sort')]),
        ]),
    ]),
    ('expr', 'Expr', 'expressions of real text', [
        ('Expr', 'An expression of real text, and the place of its first token (C11 6.5).', [
            ('Number', 'A number and its type.', [('value', 'number'), ('int_type', 'own:IntType')]),
            ('Character', 'A character constant, by the value of its byte.', [('value', 'byte')]),
            ('True', '`true`', []),
            ('False', '`false`', []),
            ('Name', 'A local or a function.', [('name', 'text')]),
            ('Parenthesized', '`( .. )`', [('inner', 'box:Expr')]),
            ('Malloc', '`malloc(sizeof(struct S))`', [('tag', 'own:Name')]),
            ('MallocInts', '`malloc(n * sizeof(int))`: n and the place of the `*`.', [('length', 'box:Expr'), ('star', 'own:Place')]),
            ('Postfix', 'A primary expression and what stands behind it: field reads, array reads and calls, one at least.', [('first', 'box:Expr'), ('parts', 'list:Postfix')]),
            ('Unary', '`-` or `!`', [('operator', 'own:UnaryOperator'), ('operand', 'box:Expr')]),
            ('Cast', '`(type)`', [('target', 'own:CType'), ('operand', 'box:Expr')]),
            ('Chain', 'Operands joined by operators of one level, from left to right, with one operator at least.', [('level', 'own:Level'), ('first', 'box:Expr'), ('links', 'list:Link')]),
            ('Conditional', '`c ? a : b`', [('test', 'box:Expr'), ('yes', 'box:Expr'), ('no', 'box:Expr')]),
        ]),
        ('Link', 'An operator, its place, and the operand behind it.', [
            (None, '', [('operator', 'own:BinaryOperator'), ('operand', 'in:Expr')]),
        ]),
        ('Postfix', 'What stands behind an operand, and the place of its `->`, `[` or `(`.', [
            ('Field', 'A field read, `->` and the name.', [('name', 'own:Name')]),
            ('Index', 'An array read, `[ .. ]`.', [('index', 'in:Expr')]),
            ('Call', 'A call, `( .. )`.', [('arguments', 'list:Expr')]),
        ]),
    ]),
    ('ghost_expr', 'GhostExpr', 'expressions of ghost text', [
        ('GhostExpr', 'An expression of ghost text, and the place of its first token.', [
            ('Number', 'A number and its type.', [('value', 'number'), ('int_type', 'own:IntType')]),
            ('True', '`true`', []),
            ('False', '`false`', []),
            ('Result', '`result`', []),
            ('This', '`this`', []),
            ('CurrentThread', '`currentThread`', []),
            ('Name', 'A name.', [('name', 'text')]),
            ('Application', 'A name applied to arguments.', [('name', 'text'), ('arguments', 'list:GhostExpr')]),
            ('Parenthesized', '`( .. )`', [('inner', 'box:GhostExpr')]),
            ('Conditional', '`(c ? a : b)`', [('test', 'box:GhostExpr'), ('yes', 'box:GhostExpr'), ('no', 'box:GhostExpr')]),
            ('Unary', '`-` or `!`', [('operator', 'own:UnaryOperator'), ('operand', 'box:GhostExpr')]),
            ('Chain', 'Operands joined by operators of one level, from left to right, with one operator at least.', [('level', 'own:Level'), ('first', 'box:GhostExpr'), ('links', 'list:GhostLink')]),
        ]),
        ('GhostLink', 'An operator, its place, and the operand behind it.', [
            (None, '', [('operator', 'own:BinaryOperator'), ('operand', 'in:GhostExpr')]),
        ]),
    ]),
    ('assertion', 'Assertion', 'assertions', [
        ('Part', 'A part of an assertion, and the place of its first token.', [
            ('Conditional', '`c ? A : B`', [('test', 'tree:GhostExpr'), ('yes', 'list:Part'), ('no', 'list:Part')]),
            ('Switch', '`switch (e) { .. }`', [('scrutinee', 'tree:GhostExpr'), ('cases', 'list:AssertionCase')]),
            ('Cell', '`[s]e->f |-> v`', [('share', 'option:own:Share'), ('pointer', 'tree:GhostExpr'), ('field', 'own:Name'), ('content', 'own:Pattern')]),
            ('Chunk', '`[s]p(..)` or `[s]p(..)(..)`', [('share', 'option:own:Share'), ('name', 'own:Name'), ('first', 'seq:own:Pattern'), ('second', 'option:seq:own:Pattern')]),
            ('Empty', '`emp`', []),
            ('Pure', 'An expression that is no application.', [('truth', 'tree:GhostExpr')]),
            ('Group', '`(A)`, where A is no expression.', [('inner', 'list:Part')]),
        ]),
        ('AssertionCase', 'A case of a `switch` in an assertion, and the place of its `case`.', [
            (None, '', [('pattern', 'own:CasePattern'), ('body', 'list:Part')]),
        ]),
    ]),
    ('ghost_command', 'GhostCommand', 'ghost commands', [
        ('GhostCommand', 'A ghost command, and the place of its first token.', [
            ('Open', '`open [s]p(..)(..);`', [('share', 'option:own:Share'), ('name', 'own:Name'), ('first', 'seq:own:Pattern'), ('second', 'option:seq:own:Pattern')]),
            ('Close', '`close [s]p(..)(..);`', [('share', 'option:own:Share'), ('name', 'own:Name'), ('first', 'seq:own:Pattern'), ('second', 'option:seq:own:Pattern')]),
            ('Leak', '`leak A;`', [('parts', 'parts')]),
            ('Assert', '`assert A;`', [('parts', 'parts')]),
            ('Declaration', '`sort x = e;`', [('sort', 'tree:Sort'), ('name', 'own:Name'), ('value', 'tree:GhostExpr')]),
            ('Assignment', '`x = e;`', [('name', 'text'), ('value', 'tree:GhostExpr')]),
            ('Call', '`f(..);`', [('name', 'text'), ('arguments', 'ghosts')]),
            ('If', '`if (e) { .. }`', [('test', 'tree:GhostExpr'), ('yes', 'list:GhostCommand')]),
            ('IfElse', '`if (e) { .. } else { .. }`', [('test', 'tree:GhostExpr'), ('yes', 'list:GhostCommand'), ('no', 'list:GhostCommand')]),
            ('Switch', '`switch (e) { .. }`', [('scrutinee', 'tree:GhostExpr'), ('cases', 'list:CommandCase')]),
            ('Block', '`{ .. }`', [('commands', 'list:GhostCommand')]),
        ]),
        ('CommandCase', 'A case of a `switch` among ghost commands, and the place of its `case`.', [
            (None, '', [('pattern', 'own:CasePattern'), ('commands', 'list:GhostCommand')]),
        ]),
    ]),
    ('stmt', 'Stmt', 'statements', [
        ('Stmt', 'A statement, and the place of its first token (C11 6.8).', [
            ('Declaration', '`type x;` or `type x = e;`, and the place of its `;`.', [('written', 'own:CType'), ('name', 'own:Name'), ('value', 'option:tree:Expr'), ('last', 'own:Place')]),
            ('Simple', 'An assignment or a call, and the place of its `;`.', [('simple', 'own:Simple'), ('last', 'own:Place')]),
            ('If', '`if (c) S`', [('test', 'tree:Expr'), ('yes', 'box:Stmt')]),
            ('IfElse', '`if (c) S else T`', [('test', 'tree:Expr'), ('yes', 'box:Stmt'), ('no', 'box:Stmt')]),
            ('While', '`while (c) S`', [('test', 'tree:Expr'), ('invariant', 'option:own:Invariant'), ('body', 'box:Stmt')]),
            ('For', '`for (..; ..; ..) S`', [('first', 'option:own:First'), ('test', 'option:tree:Expr'), ('step', 'option:own:Simple'), ('invariant', 'option:own:Invariant'), ('body', 'box:Stmt')]),
            ('Return', '`return;` or `return e;`, and the place of its `;`.', [('value', 'option:tree:Expr'), ('last', 'own:Place')]),
            ('Block', '`{ .. }`, and the place of its `}`.', [('statements', 'list:Stmt'), ('last', 'own:Place')]),
            ('Empty', '`;`', []),
            ('Ghost', 'A ghost command, which stands in a block alone.', [('command', 'tree:GhostCommand')]),
        ]),
    ]),
]

REAL_WORDS = 'struct typedef void bool signed unsigned char short int long if else while for return true false malloc sizeof'
GHOST_WORDS = ('requires ensures invariant inductive fixpoint switch case predicate predicate_family '
               'predicate_family_instance predicate_ctor lemma real any emp result this currentThread open close leak assert')
BARRED_WORDS = ('auto break const continue default do double enum extern float goto inline register restrict static union volatile')

# which cycle a tree type stands in, and the name of its list
HOME = {t[0]: c for c in CYCLES for t in c[3]}
LIST = {'Branch': 'BranchList', 'Command': 'CommandList', 'CommandBranch': 'CommandBranchList', 'Sort': 'SortList', 'Expr': 'ExprList', 'Link': 'LinkList', 'Postfix': 'PostfixList', 'GhostExpr': 'GhostExprList',
        'GhostLink': 'GhostLinkList', 'Part': 'Assertion', 'AssertionCase': 'AssertionCaseList', 'GhostCommand': 'GhostCommandList',
        'CommandCase': 'CommandCaseList', 'Stmt': 'StmtList'}
LIST_DOC = {'Part': 'An assertion: its parts, which `&*&` joins.'}


def snake(name):
    out = ''
    for i, c in enumerate(name):
        out += ('_' if c.isupper() and i else '') + c.lower()
    return out


def base(t):
    """The stem of the names that the pure data of a type has."""
    return snake(t)


def alias(leaf):
    return snake(leaf) + '_row'


# --- kinds -------------------------------------------------------------------------------------------------

def rust(k):
    head, _, rest = k.partition(':')
    return {'number': lambda: 'u64', 'size': lambda: 'usize', 'flag': lambda: 'bool', 'byte': lambda: 'u8', 'text': lambda: 'Text', 'parts': lambda: 'Assertion',
            'ghosts': lambda: 'GhostExprList', 'terms': lambda: 'TermList', 'own': lambda: rest, 'tree': lambda: rest, 'in': lambda: rest,
            'box': lambda: f'Box<{rest}>', 'list': lambda: LIST[rest], 'option': lambda: f'Option<{rust(rest)}>',
            'seq': lambda: f'Sequence<{rust(rest)}>'}[head]()


def pure(k):
    head, _, rest = k.partition(':')
    return {'number': lambda: 'ℕ', 'size': lambda: 'ℕ', 'flag': lambda: 'Bool', 'byte': lambda: 'ℕ', 'text': lambda: 'List ℕ', 'parts': lambda: 'List PartTree',
            'ghosts': lambda: 'List GhostExprTree', 'terms': lambda: 'List Term', 'own': lambda: rest, 'tree': lambda: pure_tree(rest), 'in': lambda: rest + 'Tree',
            'box': lambda: rest + 'Tree', 'list': lambda: rest + 'Trees', 'option': lambda: f'Option {paren(pure(rest))}',
            'seq': lambda: f'List {paren(pure(rest))}'}[head]()


def pure_tree(x):
    return FOREIGN[x][2] if x in FOREIGN else x + 'Tree'


def use_tree(x):
    return f'use {FOREIGN[x][1]}.{{{FOREIGN[x][2]}}}\n' if x in FOREIGN else f'use {SPECS}.{module_of(x)}.{{{x}Tree}}\n'


def use_code(x):
    return f'use {FOREIGN[x][3]}.{{coded_{base(x)}}}\n' if x in FOREIGN else f'use {SPECS}.{HOME[x][1]}Codes.{{coded_{base(x)}}}\n'


def places_in(types):
    return {'Place'} if any(has_place(t) for t in types) else set()


def has_place(t):
    return t[0] not in PLACELESS


def place_of(t):
    """The place in front of the parts of a type's pure data."""
    return ['Place'] if has_place(t) else []


def has_list(t):
    return t[0] not in LISTLESS


def listed(types):
    return [t for t in types if has_list(t)]


def front(t):
    return 'p' if has_place(t) else ''


def front_kinds(t):
    return ['own:Place'] if has_place(t) else []


def paren(s):
    return f'({s})' if ' ' in s else s


def coded(k):
    """The code of a kind that leads back to nothing here."""
    head, _, rest = k.partition(':')
    return {'number': lambda: 'coded_ℕ', 'size': lambda: 'coded_ℕ', 'flag': lambda: 'coded_bool', 'byte': lambda: 'coded_ℕ', 'text': lambda: '(coded_list coded_ℕ)',
            'parts': lambda: '(coded_list coded_part)', 'ghosts': lambda: '(coded_list coded_ghost_expr)', 'terms': lambda: '(coded_list coded_term)',
            'own': lambda: f'{alias(rest)}.the_row.coded', 'tree': lambda: f'coded_{base(rest)}',
            'option': lambda: f'(coded_option {coded(rest)})', 'seq': lambda: f'(coded_list {coded(rest)})'}[head]()


def is_child(k):
    return k.split(':')[0] in ('box', 'in', 'list')


def child_of(k):
    return k.split(':')[1]


def code(k, x):
    head, _, rest = k.partition(':')
    if head in ('box', 'in'):
        return f'({base(rest)}_code {x})'
    if head == 'list':
        return f'({base(rest)}_codes {x})'
    return f'({coded(k)}.code {x})'


def inj(k, x, y, path):
    head, _, rest = k.partition(':')
    g = f'(ap (λ g. {path}) e)'
    if head in ('box', 'in'):
        return f'({base(rest)}_inj {x} {y} {g} i)'
    if head == 'list':
        return f'({base(rest)}_injs {x} {y} {g} i)'
    return f'({coded(k)}.inj {x} {y} {g} i)'


def shown(k, x):
    head, _, rest = k.partition(':')
    if head == 'box':
        return f'{x}.value'
    if head == 'list':
        return f'({base(rest)}_list {x})'
    return x


def leaves_in(k):
    head, _, rest = k.partition(':')
    if head == 'own':
        return {rest}
    if head in ('option', 'seq'):
        return leaves_in(rest)
    return set()


def trees_in(k):
    head, _, rest = k.partition(':')
    if head == 'tree':
        return {rest}
    if head == 'parts':
        return {'Part'}
    if head == 'ghosts':
        return {'GhostExpr'}
    if head == 'terms':
        return {'Term'}
    if head in ('option', 'seq'):
        return trees_in(rest)
    return set()


def kinds(cycle):
    return [k for t in cycle[3] for v in t[2] for _, k in v[2]]


def constructor(t, v):
    return base(t[0]) if v[0] is None else snake(v[0]) + ('_' if snake(v[0]) in RESERVED else '')


RESERVED = {'not', 'and', 'or', 'real', 'any', 'type', 'name', 'open', 'data', 'record', 'if', 'switch', 'predicate', 'leak', 'assert', 'return', 'true', 'false', 'this', 'in', 'let', 'where', 'index', 'else', 'while', 'for', 'empty', 'unit', 'case', 'close', 'field', 'call'}


def module_of(t):
    """The file of pure data in which a type's cycle stands."""
    return HOME[t][1] + 'Tree'


def params(v):
    return 'abcdfhjk'[:len(v[2])]


# --- the logic's side --------------------------------------------------------------------------------------

def leaf_use(leaf, contracts):
    crate, module, name = LEAVES[leaf]
    if contracts:
        return f'use Rattle.{crate}.specs.contracts.{module}.{name} as {alias(leaf)}\n'
    return f'use Rattle.{crate}.specs.declared.{module}.{name}.{{{name}}}\n'


def tree_file(cycle):
    module, stem, what, types = cycle
    ks = kinds(cycle)
    leaves = sorted(places_in(types) | {l for k in ks for l in leaves_in(k)})
    trees = sorted({x for k in ks for x in trees_in(k)})
    s = ANTT_HEAD + f'-- Pure data of {what}: no pointers{", and in front of each the place of its first token" if places_in(types) else ""}.\n'
    s += f'use Rattle.std.specs.Prelude.{{ℕ, ◌+◌, ◌≤◌, {"Bool, " if "flag" in ks else ""}List, [], ◌∷◌, Option}}\n'
    s += 'use Rattle.std.proofs.Common.{arith}\nuse denote.Param.Weighed.{most}\n'
    for l in leaves:
        s += leaf_use(l, False)
    for x in trees:
        s += use_tree(x)
    s += '\nmutual\n'
    for t in types:
        s += f'  -- {t[1]}\n  pub data {t[0]}Tree : Type 0 where\n'
        for v in t[2]:
            s += f'    {constructor(t, v)} : ' + ' → '.join(place_of(t) + [pure(k) for _, k in v[2]] + [t[0] + 'Tree']) + '\n'
        s += '\n'
        if not has_list(t):
            continue
        s += f'  -- a list of these\n  pub data {t[0]}Trees : Type 0 where\n    no_{base(t[0])} : {t[0]}Trees\n    more_{base(t[0])} : {t[0]}Tree → {t[0]}Trees → {t[0]}Trees\n\n'
    for t in listed(types):
        b = base(t[0])
        s += f'-- the pure data of a list\nabbrev pub {b}_list : List {t[0]}Tree → {t[0]}Trees\n{b}_list [] = no_{b}\n{b}_list (x ∷ xs) = more_{b} x ({b}_list xs)\n\n'
    s += 'abbrev mutual\n'
    for t in types:
        b = base(t[0])
        s += f'  -- how many nodes it has\n  pub {b}_nodes : {t[0]}Tree → ℕ\n'
        for v in t[2]:
            ps = params(v)
            size = []
            for x, (_, k) in zip(ps, v[2]):
                if k.split(':')[0] in ('box', 'in'):
                    size.append(f'{base(child_of(k))}_nodes {x}')
                if k.startswith('list:'):
                    size.append(f'{base(child_of(k))}_nodes_all {x}')
            s += f'  {b}_nodes ({constructor(t, v)}{"".join(" " + x for x in front(t) + ps)}) = ' + ' + '.join(size + ['1']) + '\n'
        s += '\n'
        if not has_list(t):
            continue
        s += f'  -- how many nodes a list of these has\n  pub {b}_nodes_all : {t[0]}Trees → ℕ\n  {b}_nodes_all no_{b} = 0\n  {b}_nodes_all (more_{b} x xs) = {b}_nodes x + {b}_nodes_all xs + 1\n\n'
    for t in listed(types):
        b = base(t[0])
        s += (f'-- each item of a list has fewer nodes than the list\npub most_le-{b}_nodes_all : (xs : List {t[0]}Tree) → most (λ x. {b}_nodes x + 1) xs ≤ {b}_nodes_all ({b}_list xs)\n'
              f'most_le-{b}_nodes_all [] = omega arith\nmost_le-{b}_nodes_all (x ∷ xs) = omega (arith, most_le-{b}_nodes_all xs)\n\n')
    return s


def all_constructors(cycle):
    return [constructor(t, v) for t in cycle[3] for v in t[2]]


def codes_file(cycle):
    module, stem, what, types = cycle
    ks = kinds(cycle)
    leaves = sorted(places_in(types) | {l for k in ks for l in leaves_in(k)})
    trees = sorted({x for k in ks for x in trees_in(k)})
    s = ANTT_HEAD + f'-- How the logic stores {what}.\n'
    s += ('use Rattle.std.proofs.Common.{◌≡◌, ℕ, List, ap, refl, arith}\n'
          f'use Rattle.std.specs.Coded.{{Coded, coded_ℕ, {"coded_bool, " if "flag" in ks else ""}coded_list, coded_option}}\n'
          'use base.Stored.{Gv, gnil, gnum, gcons, num as number_in}\n')
    for l in leaves:
        s += leaf_use(l, True)
    for x in trees:
        s += use_code(x)
    names = []
    for t in types:
        b = base(t[0])
        names += [f'{t[0]}Tree'] + ([f'{t[0]}Trees', f'no_{b}', f'more_{b}'] if has_list(t) else [])
    s += f'use {SPECS}.{stem}Tree.{{{", ".join(names)}}}\nuse {SPECS}.{stem}Tree as tree\nuse {SPECS}.Stores.{{head, tail, tag}}\n\nabbrev mutual\n'
    for t in types:
        b = base(t[0])
        s += f'  -- how it is stored\n  pub {b}_code : {t[0]}Tree → Gv\n'
        for n, v in enumerate(t[2]):
            ps = params(v)
            e = 'gnil'
            for x, k in reversed(list(zip(front(t) + ps, front_kinds(t) + [k for _, k in v[2]]))):
                e = f'(gcons {code(k, x)} {e})'
            s += f'  {b}_code (tree.{constructor(t, v)}{"".join(" " + x for x in front(t) + ps)}) = gcons (gnum {n}) {e}\n'
        s += '\n'
        if not has_list(t):
            continue
        s += f'  -- how a list of these is stored\n  pub {b}_codes : {t[0]}Trees → Gv\n  {b}_codes no_{b} = gnil\n  {b}_codes (more_{b} x xs) = gcons ({b}_code x) ({b}_codes xs)\n\n'
    s += 'mutual\n'
    for t in types:
        b = base(t[0])
        s += f'  -- what is stored alike is the same\n  pub {b}_inj : (x y : {t[0]}Tree) → {b}_code x ≡ {b}_code y → x ≡ y\n'
        for v in t[2]:
            ps = params(v)
            parts = []
            rest = 'tail g'
            for x, k in zip(front(t) + ps, front_kinds(t) + [k for _, k in v[2]]):
                parts.append(inj(k, x, x + "'", f'head ({rest})'))
                rest = f'tail ({rest})'
            a = ''.join(' ' + x for x in front(t) + ps)
            c = ''.join(' ' + x + "'" for x in front(t) + ps)
            s += f'  {b}_inj (tree.{constructor(t, v)}{a}) (tree.{constructor(t, v)}{c}) e = λ i. tree.{constructor(t, v)} ' + ' '.join(parts) + '\n'
        if len(t[2]) > 1:
            s += f'  {b}_inj x y e = absurd (omega (arith, ap tag e))\n'
        s += '\n'
        if not has_list(t):
            continue
        s += (f'  -- lists that are stored alike are the same\n  pub {b}_injs : (x y : {t[0]}Trees) → {b}_codes x ≡ {b}_codes y → x ≡ y\n'
              f'  {b}_injs (more_{b} x xs) (more_{b} y ys) e = λ i. more_{b} ({b}_inj x y (ap head e) i) ({b}_injs xs ys (ap tail e) i)\n'
              f'  {b}_injs no_{b} no_{b} e = refl\n  {b}_injs x y e = cc\n\n')
    for t in types:
        b = base(t[0])
        s += f'-- its code\nabbrev pub coded_{b} : Coded {t[0]}Tree\ncoded_{b} = record {{ code = {b}_code; inj = {b}_inj }}\n\n'
        if has_list(t):
            s += f'-- the code of lists of these\nabbrev pub coded_{b}_list : Coded (List {t[0]}Tree)\ncoded_{b}_list = coded_list coded_{b}\n\n'
    return s


def node(t):
    return t[0] + 'Node'


def is_struct(t):
    return t[2][0][0] is None


def shown_file(cycle):
    module, stem, what, types = cycle
    enums = [t for t in types if not is_struct(t)]
    s = ANTT_HEAD + f'-- What the code has of {what}, as pure data.\n'
    names = []
    for t in types:
        names += [f'{t[0]}Tree'] + ([f'{base(t[0])}_list'] if has_list(t) else [])
    s += f'use {SPECS}.{stem}Tree.{{{", ".join(names)}}}\nuse {SPECS}.{stem}Tree as tree\n' + ''.join(leaf_use(l, False) for l in places_in(types))
    for t in enums:
        s += f'use {SPECS}.declared.{module}.{node(t)}.{{{node(t)}}}\nuse {SPECS}.declared.{module}.{node(t)}.TheVariants as {base(t[0])}_nodes\n'
    s += '\n'
    for t in enums:
        b = base(t[0])
        s += f'-- what a node stands for\nabbrev pub {b}_of : {"".join(x + " → " for x in place_of(t))}{node(t)} → {t[0]}Tree\n'
        for v in t[2]:
            ps = params(v)
            left = f'({b}_nodes.{v[0]}{"".join(" " + x for x in ps)})' if ps else f'{b}_nodes.{v[0]}'
            s += f'{b}_of{"".join(" " + x for x in front(t))} {left} = tree.{constructor(t, v)}{"".join(" " + x for x in front(t))}{"".join(" " + shown(k, x) for x, (_, k) in zip(ps, v[2]))}\n'
        s += '\n'
    return s


# --- Rust's side -------------------------------------------------------------------------------------------

def rust_file(cycle):
    module, stem, what, types = cycle
    ks = kinds(cycle)
    leaves = sorted({l for k in ks for l in leaves_in(k)} | places_in(types))
    trees = sorted({x for k in ks for x in trees_in(k)})
    names = ({'Memory'} if listed(types) else set()) | places_in(types)
    uses = set()
    for l in leaves:
        crate, mod, name = LEAVES[l]
        if crate == 'vf_base':
            names.add(name)
        elif crate == CRATE:
            uses.add(f'crate::{mod}::{name}')
        else:
            uses.add(f'{crate}::{name}')
    for k in ks:
        for w in ('Sequence', 'Text', 'Assertion', 'GhostExprList', 'TermList'):
            if w in rust(k).replace('<', ' ').replace('>', ' ').split():
                if w == 'Assertion' and module != 'assertion':
                    uses.add('crate::assertion::Assertion')
                elif w == 'GhostExprList' and module != 'ghost_expr':
                    uses.add('crate::ghost_expr::GhostExprList')
                elif w == 'TermList':
                    uses.add('vf_formula::TermList')
                elif w in ('Sequence', 'Text'):
                    names.add(w)
    for k in ks:
        for x in trees_in(k):
            if k.split(':')[0] in ('parts', 'ghosts'):
                continue
            uses.add(f'{FOREIGN[x][0]}::{x}' if x in FOREIGN else f'crate::{HOME[x][0]}::{x}')
    s = RUST_HEAD + f'//! {what[0].upper() + what[1:]}.\n\n'
    if listed(types):
        s += 'ghost use Rattle.std.specs.Prelude.{◌≡◌, [], ◌∷◌, ◌++◌, length, slice_get, OnOk};\nghost use Rattle.std.specs.Option.{option_copied};\n\n'
    byc = {}
    for u in uses:
        m, _, n = u.rpartition('::')
        byc.setdefault(m, []).append(n)
    def uses_of(m):
        ns = sorted(byc[m])
        return f'use {m}::' + (ns[0] if len(ns) == 1 else '{' + ', '.join(ns) + '}') + ';\n'
    s += ''.join(uses_of(m) for m in sorted(byc) if m.startswith('crate'))
    s += ('use std::alloc::Global;\n' if listed(types) else '') + 'use std::marker::Model;\n'
    if names:
        s += 'use vf_base::' + ('{' + ', '.join(sorted(names)) + '}' if len(names) > 1 else min(names)) + ';\n'
    s += ''.join(uses_of(m) for m in sorted(byc) if not m.startswith('crate')) + '\n'
    for t in types:
        s += rust_type(cycle, t)
    for t in listed(types):
        s += rust_list(cycle, t)
    return s


def rust_type(cycle, t):
    module, stem, what, types = cycle
    b = base(t[0])
    s = f'/// {t[1]}\n#[cycle({module})]\n#[derive(Drop)]\npub struct {t[0]} {{\n' + ('    pub place: Place,\n' if has_place(t) else '')
    if is_struct(t):
        for f, k in t[2][0][2]:
            s += f'    pub {f}: {rust(k)},\n'
        s += '}\n\n'
        view = f'tree.{b} x.place ' + ' '.join(shown(k, f'x.{f}') for f, k in t[2][0][2])
        lists = sorted({f'{base(child_of(k))}_list' for _, k in t[2][0][2] if k.startswith('list:')})
        use = f'    ghost use {SPECS}.{stem}Tree as tree;\n'
        if lists:
            use += f'    ghost use {SPECS}.{stem}Tree.{{{", ".join(lists)}}};\n'
    else:
        s += f'    pub node: {node(t)},\n}}\n\n'
        s += f'#[cycle({module})]\n#[derive(Drop)]\npub enum {node(t)} {{\n'
        for v in t[2]:
            s += f'    /// {v[1]}\n    {v[0]}' + (f'({", ".join(rust(k) for _, k in v[2])})' if v[2] else '') + ',\n'
        s += '}\n\n'
        view = f'{b}_of x.place x.node' if has_place(t) else f'{b}_of x.node'
        use = f'    ghost use {SPECS}.{stem}Shown.{{{b}_of}};\n'
    s += f'''impl Model for {t[0]} {{
    ghost use {SPECS}.{stem}Tree.{{{t[0]}Tree}};
    ghost use {SPECS}.{stem}Codes.{{coded_{b}}};

    ghost Value = {{ {t[0]}Tree }};

    ghost coded = {{ coded_{b} }};

    ghost use {SPECS}.{stem}Tree.{{{b}_nodes}};
{use}
    ghost view = {{ λ x. {view} }};

    ghost size = {{ {b}_nodes }};
}}

'''
    return s


def rust_list(cycle, t):
    module, stem, what, types = cycle
    b = base(t[0])
    l = LIST[t[0]]
    doc = LIST_DOC.get(t[0], f'A list of these: [`{t[0]}`].')
    return f'''/// {doc}
#[cycle({module})]
#[derive(Drop)]
pub struct {l} {{
    items: Vec<{t[0]}>,
}}

impl Model for {l} {{
    ghost use Rattle.std.specs.Prelude.{{List}};
    ghost use {SPECS}.{stem}Tree.{{{t[0]}Tree}};
    ghost use {SPECS}.{stem}Codes.{{coded_{b}_list}};

    ghost Value = {{ List {t[0]}Tree }};

    ghost coded = {{ coded_{b}_list }};

    ghost view = {{ λ l. l.items.items }};

    ghost use {SPECS}.{stem}Tree.{{{b}_nodes_all, {b}_list}};

    ghost size = {{ λ xs. {b}_nodes_all ({b}_list xs) }};

    ghost use Rattle.std.proofs.Common.{{arith}};
    ghost use {SPECS}.{stem}Tree.{{most_le-{b}_nodes_all}};

    ghost size_decreases = {{ λ l h. Prim.omega (arith, most_le-{b}_nodes_all l.items.items) }};
}}

impl {l} {{
    /// The empty list, which takes no memory.
    pub fn new(alloc: Global) -> {l}
        ensures {{ result ≡ [] }}
    {{
        {l} {{
            items: Vec::new(alloc),
        }}
    }}

    /// Puts an item at the end.
    pub fn push(&mut self, item: {t[0]}) -> Result<(), Memory>
        ensures {{ OnOk result (self.new ≡ self.old ++ item ∷ []) }}
    {{
        self.items.push(item)?;
        Ok(())
    }}

    /// How many items it has.
    pub fn len(&self) -> usize
        ensures {{ result ≡ length self.now }}
    {{
        self.items.len()
    }}

    /// The item at an index, counted from 0.
    pub fn get(&self, at: usize) -> Option<&{t[0]}>
        ensures {{ option_copied result ≡ slice_get self.now at }}
    {{
        self.items.get(at)
    }}
}}

'''


def keyword_files():
    words = [(w, 'real') for w in REAL_WORDS.split()] + [(w, 'ghost') for w in GHOST_WORDS.split()] + [(w, 'barred') for w in BARRED_WORDS.split()]
    def variant(w):
        return ''.join(p[0].upper() + p[1:] for p in w.split('_'))
    s = RUST_HEAD + '''//! Keywords.

ghost use Rattle.std.specs.Prelude.{◌≡◌};
ghost use Rattle.std.specs.List.{list_any};
ghost use Rattle.vf_syntax.specs.Keywords.{spelling, is_spelled, is_keyword};

/// A word that is no name, in real and in ghost text (C11 6.4.1, and the words of annotations).
#[derive(Clone, Copy, Debug, PartialEq, Eq)]
pub enum Keyword {
'''
    for w, _ in words:
        s += f'    /// `{w}`\n    {variant(w)},\n'
    s += '}\n\n/// All keywords.\nconst KEYWORDS: [Keyword; ' + str(len(words)) + '] = [\n'
    for w, _ in words:
        s += f'    Keyword::{variant(w)},\n'
    s += '''];

impl Keyword {
    /// How it is written.
    pub fn spelling(self) -> &'static [u8]
        ensures { result.now ≡ spelling self }
    {
        match self {
'''
    for w, _ in words:
        s += f'            Keyword::{variant(w)} => b"{w}",\n'
    s += '''        }
    }
}

/// Whether a word is a keyword.
#[tactic(auto, unfolding(crate::specs::Keywords::is_keyword))]
pub fn is_keyword(word: &[u8]) -> bool
    ensures { result ≡ is_keyword word.now }
{
    is_spelled(&KEYWORDS, word)
}

fn is_spelled(keywords: &[Keyword], word: &[u8]) -> bool
    ensures { result ≡ list_any (is_spelled word.now) keywords.now }
{
    for keyword in keywords {
        if word == keyword.spelling() {
            return true;
        }
    }
    false
}
'''
    a = ANTT_HEAD + f'''-- Keywords, and how they are written.
use Rattle.std.specs.Prelude.{{Bool, List, [], ◌∷◌, ℕ, codes}}
use Rattle.std.specs.List.{{list_any}}
use Rattle.std.specs.Str.{{bytes_eq}}
use {SPECS}.declared.keyword.Keyword.{{Keyword}}
use {SPECS}.declared.keyword.Keyword.TheVariants as keywords

-- how a keyword is written
abbrev pub spelling : Keyword → List ℕ
'''
    for w, _ in words:
        a += f'spelling keywords.{variant(w)} = codes "{w}"\n'
    a += '\n-- all keywords\nabbrev pub keywords_of_all : List Keyword\nkeywords_of_all = ' + ' ∷ '.join(f'keywords.{variant(w)}' for w, _ in words) + ' ∷ []\n'
    a += '''
-- a word is that of a keyword
abbrev pub is_spelled : List ℕ → Keyword → Bool
is_spelled word k = bytes_eq word (spelling k)

-- a word is a keyword
unfoldable pub is_keyword : List ℕ → Bool
is_keyword word = list_any (is_spelled word) keywords_of_all
'''
    return s, a


def write(path, text):
    os.makedirs(os.path.dirname(path), exist_ok=True)
    with open(path, 'w') as f:
        f.write(text.rstrip('\n') + '\n')


def of_resolved_trees():
    """Everything below is of the crate of resolved trees from here on."""
    global CRATE, ROOT, SPECS, LEAVES, HOME
    CRATE, ROOT, SPECS, LEAVES = 'vf_resolved', 'crates/vf_resolved', 'Rattle.vf_resolved.specs', RESOLVED_LEAVES
    HOME = {t[0]: c for c in RESOLVED for t in c[3]}


def write_cycles(cycles):
    for cycle in cycles:
        write(f'{ROOT}/src/{cycle[0]}.rt', rust_file(cycle))
        write(f'{ROOT}/specs/{cycle[1]}Tree.antt', tree_file(cycle))
        write(f'{ROOT}/specs/{cycle[1]}Codes.antt', codes_file(cycle))
        write(f'{ROOT}/specs/{cycle[1]}Shown.antt', shown_file(cycle))


def main():
    write_cycles(CYCLES)
    k, a = keyword_files()
    write(f'{ROOT}/src/keyword.rt', k)
    write(f'{ROOT}/specs/Keywords.antt', a)
    of_resolved_trees()
    write_cycles(RESOLVED)


if __name__ == '__main__':
    main()

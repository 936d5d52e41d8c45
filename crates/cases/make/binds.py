#!/usr/bin/env python3
"""Writes the lists of programs that are bound with libraries, and their files.

    python3 crates/cases/make/binds.py

This file has each answer, which was determined by hand from the rules and agrees with `binder.py`, the second
reading. `WRONG` has readings that break one rule each. For each of them, some case has to give another answer.
"""

import struct
from itertools import product

import rules
from binder import Binder
from make import BASE, DATA, Case, u8, u32, u64, write_list
from samples import (
    ABSOLUTE, DEFAULT, DEFINED, FUNC, GLOBAL, HIDDEN, INTERNAL, LOCAL, NOTYPE, OBJECT, PROTECTED, R_64, R_GLOB_DAT,
    R_JUMP_SLOT, R_NONE, R_RELATIVE, UNDEFINED, WEAK, Object, Symbol, build, program_header)
from wrong_binders import WRONG

ASKED = []  # each call with an answer in this file: its name, its arguments, and the answer
HIGHEST = 0x7ffffffff000


class Bind:
    """A program at a base with preloads and libraries; a library is a file, or a file and a name."""

    def __init__(self, program, libraries=(), preloads=(), base=BASE):
        self.program, self.preloads, self.base = program, [n.encode() for n in preloads], base
        self.libraries = [x if isinstance(x, tuple) else (x, None) for x in libraries]

    def __str__(self):
        words = f'{self.program} 0x{self.base:x}'
        if self.preloads:
            words += ' preload ' + ' '.join(n.decode() for n in self.preloads)
        for file, name in self.libraries:
            words += f' + {file}' + ('' if name is None else f' as {spelt_name(name)}')
        return words

    def arguments(self):
        libraries = []
        for file, name in self.libraries:
            data = file.bytes()
            if name is None:
                assert rules.library_refusal(data) is None, str(file)
                name = rules.Elf(data).string(rules.Elf(data).value(rules.SONAME))
            libraries.append((name, data))
        return self.program.bytes(), self.base, libraries, self.preloads


def spelt_name(name):
    return name.decode() if name and all(0x21 <= b <= 0x7e for b in name) else 'bytes=' + name.hex()


def kept(name, o):
    """Writes the file of an object to the folder."""
    (DATA / name).write_bytes(build(o)[0])
    return Case(name)


def near(case, o):
    """Returns the file of an object, described as changes of a file of the folder with the same length."""
    old, new = (DATA / case.name).read_bytes(), build(o)[0]
    assert len(old) == len(new), (case.name, len(old), len(new))
    changes, k = [], 0
    while k < len(new):
        end = k
        while end < len(new) and old[end] != new[end]:
            end += 1
        if end > k:
            changes.append((k, new[k:end]))
        k = end + 1
    return Case(case.name, *changes)


def places(o):
    return build(o)[1]


def asked(what, arguments, wanted):
    answer = getattr(Binder(), what)(*arguments)
    assert answer == wanted, (what, wanted, answer)
    ASKED.append((what, arguments, wanted))


def order(bind, *names, bases=None, refused=None):
    """Returns a case of `order`: the names after `/program`. Without given bases, each object is one page after the
    object before it."""
    names = ('/program',) + names
    bases = bases or [bind.base + 0x1000 * i for i in range(len(names))]
    wanted = f'refused {refused}' if refused else 'objects' + ''.join(f' 0x{b:016x} {n}' for b, n in zip(bases, names))
    assert refused or len(bases) == len(names)
    asked('order', bind.arguments(), wanted)
    return f'order {bind} => {wanted}'


def refused(bind, wanted):
    """Returns a case of `bind` that is refused."""
    asked('text', bind.arguments(), f'refused {wanted}\n')
    return f'bind {bind} => refused {wanted}'


def word(bind, address, wanted):
    """Returns a case of `word`: a number, the line of a refusal, or none."""
    wanted = f'0x{wanted:x}' if isinstance(wanted, int) else wanted
    asked('word', (address,) + bind.arguments(), wanted)
    return f'word 0x{address:x} {bind} => {wanted}'


def text(bind, file, *lines):
    """Returns a case of `bind` with its whole text. The given lines of the text were determined by hand."""
    whole = Binder().text(*bind.arguments())
    assert all(f'{line}\n' in whole for line in lines), (file, lines)
    (DATA / file).write_text(whole)
    ASKED.append(('text', bind.arguments(), whole))
    return f'bind {bind} => file {file}'


# Objects without symbols that need up to three libraries. The names of these libraries, and of a library itself,
# are letters.
def needing_library(name, needed):
    return Object(name.encode(), [n.encode() for n in needed])


def needing_program(needed):
    return Object(None, [n.encode() for n in needed])


def prepare():
    for i, names in enumerate(('', 'b', 'bc', 'bcd')):
        kept(f'needs-{i}.so', needing_library('a', names))
        kept(f'program-{i}.so', needing_program(names))


def lib(name, needed=''):
    return near(Case(f'needs-{len(needed)}.so'), needing_library(name, needed))


def prog(needed=''):
    return near(Case(f'program-{len(needed)}.so'), needing_program(needed))


def load_orders():
    seven = dict(p=lib('p', 'c'), a=lib('a', 'cd'), b=lib('b', 'de'), c=lib('c'), d=lib('d'), e=lib('e'))
    def of(letters):
        return [seven[n] for n in letters]
    levels = Bind(prog('ab'), of('pabcde'), ['p'])
    rings = [lib('a', 'b'), lib('b', 'ab')]
    deep = [lib('a', 'c'), lib('b', 'd'), lib('c', 'd'), lib('d')]
    last = dict(a=lib('a', 'x'), b=lib('b', 'y'), p=lib('p', 'z'), c=lib('c', 'x'))
    many = kept('needs-1000-times.so', Object(needed=[b'a'], entries=[(1, 1)] * 999))
    sixteen = 'abcdefghijklmnop'
    wide = kept('needs-16.so', Object(needed=[n.encode() for n in sixteen]))
    chain = [lib(n, m) for n, m in zip(sixteen, sixteen[1:])] + [lib('p')]
    hundred = [f'l{i:02}' for i in range(100)]
    kept('needs-one-of-100.so', Object(b'l00', [b'l01']))
    ring = [near(Case('needs-one-of-100.so'), Object(n.encode(), [m.encode()])) for n, m in zip(hundred, hundred[1:] + hundred[:1])]
    first = kept('program-of-100.so', Object(needed=[b'l00']))
    long = b'n' * 241
    needs_long = kept('needs-241.so', Object(needed=[long]))
    kept('needs-both-long.so', Object(b'm' * 240, [long]))
    asks_long = kept('needs-240.so', Object(needed=[b'm' * 240]))
    named = kept('program-named.so', Object(b'p', [b'p']))
    write_list('binds-order.txt', [
        ('The program comes first, then the preloads, and then, level by level, what these need. The program needs a and b, the preload '
         'p\n'
         'needs c, a needs c and d, b needs d and e. Each order of installation gives the same load order and the same whole text.', [
             order(levels, *'pabcde'), text(levels, 'levels.image'),
             order(Bind(prog('ab'), of('edcbap'), ['p']), *'pabcde'), order(Bind(prog('ab'), of('dbpeca'), ['p']), *'pabcde')]),
        ('A library needs two libraries that come before it. Each of them is loaded once.', [order(Bind(prog('a'), rings), *'ab')]),
        ('The order goes level by level. It does not go to the needs of one library first: a needs c, b needs d, c needs d.', [
            order(Bind(prog('ab'), deep), *'abcd'), order(Bind(prog('ba'), deep), *'badc')]),
        ('The needed libraries come in the order of the entries, and only the first occurrence of a name counts.', [
            order(Bind(prog('ba'), of('abcde')), *'badec'), order(Bind(prog('aa'), of('acd')), *'acd'),
            order(Bind(prog('aba'), of('abcde')), *'abcde'), order(Bind(prog('bab'), of('abcde')), *'badec')]),
        ('A library that nobody needs isn\'t loaded.', [
            order(Bind(prog(''), of('abcde'))), order(Bind(prog('c'), of('abcde')), 'c')]),
        ('Preloads come before what the program needs, in their own order. They are loaded even if no object needs them.', [
            order(Bind(prog('a'), of('acdp'), ['p']), *'pacd'), order(Bind(prog(''), of('ce'), ['e', 'c']), *'ec'),
            order(Bind(prog(''), of('ce'), ['c', 'e']), *'ce'), order(Bind(prog('c'), of('ced'), ['e', 'd']), *'edc')]),
        ('A preload that is also needed comes among the preloads.', [
            order(Bind(prog('ab'), of('abcde'), ['b']), *'badec'), order(Bind(prog('ab'), of('abcde'), ['d']), *'dabce'),
            order(Bind(prog('a'), [lib('a', 'x'), lib('x', 'a')], ['x']), *'xa'),
            order(Bind(prog('a'), [lib('a', 'x'), lib('x', 'a')], ['a', 'x']), *'ax'),
            order(Bind(prog('abc'), of('abcde'), ['c', 'b', 'a']), *'cbade')]),
        ('What preloads need comes in the order of the level, after what the program needs.', [
            order(Bind(prog('b'), [lib('b'), lib('p', 'c'), lib('c')], ['p']), *'pbc')]),
        ('Circles: a library that needs itself; two libraries, and three, that need each other; and libraries all of which need all.', [
            order(Bind(prog('a'), [lib('a', 'a')]), 'a'), order(Bind(prog('a'), [lib('a', 'b'), lib('b', 'a')]), *'ab'),
            order(Bind(prog('a'), [lib('c', 'a'), lib('b', 'c'), lib('a', 'b')]), *'abc'),
            order(Bind(prog('c'), [lib('a', 'abc'), lib('b', 'abc'), lib('c', 'abc')]), *'cab'),
            order(Bind(prog(''), [lib('a', 'a')], ['a']), 'a')]),
        ('A name that is needed a thousand times.', [
            order(Bind(many, [lib('a')]), 'a', bases=[0x10000, 0x14000]), order(Bind(many, []), refused='B3 Missing /program a')]),
        ("The refusal names the first name that isn't installed: by the load order of the objects that need it, and then by their "
         'entries.', [
            refused(Bind(prog('a')), 'B3 Missing /program a'), refused(Bind(prog('ab'), [lib('a')]), 'B3 Missing /program b'),
            refused(Bind(prog('xay'), [last['a']]), 'B3 Missing /program x'),
            refused(Bind(prog('ab'), [last['b'], last['a']]), 'B3 Missing a x'),
            refused(Bind(prog('ba'), [last['b'], last['a']]), 'B3 Missing b y'),
            refused(Bind(prog('a'), [last['a'], last['p']], ['p']), 'B3 Missing p z'),
            refused(Bind(prog('q'), [last['p']], ['p']), 'B3 Missing /program q'),
            refused(Bind(prog('ab'), [lib('a', 'c'), last['b'], last['c']]), 'B3 Missing b y'),
            refused(Bind(prog('ab'), [lib('a', 'cx'), last['b'], last['c']]), 'B3 Missing a x'),
            refused(Bind(prog(''), [lib('b', 'ay')], ['b']), 'B3 Missing b a')]),
        ('Seventeen objects: a program that needs sixteen libraries; a program that needs the first of a chain of sixteen, which are\n'
         'installed in their order and in another; and sixteen preloads. Then a program and a hundred libraries, each of which needs the\n'
         'next.', [
            order(Bind(wide, [lib(n) for n in sixteen]), *sixteen),
            order(Bind(prog('a'), chain), *sixteen), order(Bind(prog('a'), chain[::-1]), *sixteen),
            order(Bind(prog(''), [lib(n) for n in sixteen], list(sixteen[::-1])), *sixteen[::-1]),
            refused(Bind(wide, [lib(n) for n in sixteen[:-1]]), 'B3 Missing /program p'),
            refused(Bind(prog('a'), chain[:-1]), 'B3 Missing o p'),
            order(Bind(first, ring), *hundred), refused(Bind(first, ring[:-1]), 'B3 Missing l98 l99')]),
        ('A needed name of 241 bytes, which no library has; and the name of a library of 240 bytes, which is found and needs the name of\n'
         '241 bytes.', [
            refused(Bind(needs_long), 'B3 Missing /program ' + 'n' * 241),
            refused(Bind(asks_long), 'B3 Missing /program ' + 'm' * 240),
            refused(Bind(asks_long, [Case('needs-both-long.so')]), 'B3 Missing ' + 'm' * 240 + ' ' + 'n' * 241)]),
        ("If a library isn't loaded, what it needs doesn't count as missing.", [order(Bind(prog('c'), [lib('c'), last['a']]), 'c')]),
        ("The program isn't found by its own SONAME. A library of this name is another object, here with the same bytes.", [
            refused(Bind(named), 'B3 Missing /program p'), order(Bind(named, [named]), 'p'),
            order(Bind(named, [named], ['p']), 'p'), order(Bind(prog('a'), [lib('a', 'a')]), 'a')]),
        ('Names are bytes: the empty name, a name with a slash, with a blank, or with other bytes, and a part of a name.', [
            refused(Bind(kept('needs-empty.so', Object(needed=[b''])), [lib('a')]), 'B3 Missing /program \\e'),
            refused(Bind(kept('needs-slash.so', Object(needed=[b'a/b'])), [lib('a'), lib('b')]), 'B3 Missing /program a/b'),
            refused(Bind(near(Case('needs-slash.so'), Object(needed=[b'a b'])), [lib('a'), lib('b')]), 'B3 Missing /program a\\x20b'),
            refused(Bind(near(Case('needs-slash.so'), Object(needed=[b'\xff\\\x7f'])), []), 'B3 Missing /program \\xff\\x5c\\x7f'),
            refused(Bind(near(Case('needs-slash.so'), Object(needed=[b'./a'])), [lib('a')]), 'B3 Missing /program ./a'),
            refused(Bind(near(Case('needs-slash.so'), Object(needed=[b'aa\n'])), [lib('a')]), 'B3 Missing /program aa\\x0a'),
            refused(Bind(prog('A'), [lib('a')]), 'B3 Missing /program A'),
            refused(Bind(kept('needs-itself.so', Object(needed=[b'/program'])), [lib('a')]), 'B3 Missing /program /program')]),
        ('A library is found by the name under which the case installs it, whatever its SONAME is.', [
            order(Bind(prog('b'), [(lib('a'), b'b')]), 'b'), refused(Bind(prog('a'), [(lib('a'), b'b')]), 'B3 Missing /program a'),
            order(Bind(prog('ab'), [(lib('a', 'b'), b'b'), (lib('a', 'b'), b'a')]), *'ab'),
            order(Bind(Case('needs-empty.so'), [(lib('a'), b'')]), '\\e'),
            order(Bind(near(Case('needs-slash.so'), Object(needed=[b'\xff\\\x7f'])), [(lib('a'), b'\xff\\\x7f')]), '\\xff\\x5c\\x7f')]),
    ])


# The library a with a weak function f, the library b with a strong f, and the program that needs both and writes f's
# value into its data.
A = Object(b'a', symbols=[Symbol(b'f', WEAK, FUNC, DEFINED)])
B = Object(b'b', symbols=[Symbol(b'f', GLOBAL, FUNC, DEFINED)])
P = Object(needed=[b'a', b'b'], symbols=[Symbol(b'f')], relocations=[(R_64, 0, 1, 0)])
# A protected function of a library, and the library's own word of this function.
OWN = Object(b'b', symbols=[Symbol(b'f', GLOBAL, FUNC, DEFINED, 8, PROTECTED)], relocations=[(R_GLOB_DAT, 0, 1, 0)], data=16)
P_WORD = 0x101c8


def one_symbol(soname, relocations=None, **fields):
    """Returns the library a or b with another f, or, if it has relocations, the program."""
    fields = dict(dict(name=b'f', binding=GLOBAL, kind=FUNC, section=DEFINED), **fields)
    return Object(soname, symbols=[Symbol(**fields)])


def a_with(**fields):
    return near(Case('first.so'), one_symbol(b'a', **fields))


def b_with(**fields):
    return near(Case('first.so'), one_symbol(b'b', **fields))


def p_with(kind=R_64, addend=0, **fields):
    fields = dict(dict(name=b'f'), **fields)
    return near(Case('asking.so'), Object(needed=[b'a', b'b'], symbols=[Symbol(**fields)], relocations=[(kind, 0, 1, addend)]))


def prepare_values():
    kept('first.so', A)
    kept('asking.so', P)
    kept('protected.so', OWN)
    assert (places(A)['data'], places(P)['data'], places(OWN)['data']) == (0x170, 0x1c8, 0x1b8)


def word_of(program, wanted, a=None, b=None):
    return word(Bind(program, [a or a_with(binding=WEAK), b or b_with()]), P_WORD, wanted)


def first_definitions():
    a, b, p = a_with(binding=WEAK), b_with(), p_with()
    both = Bind(p, [a, b])
    own = Case('protected.so')
    alone = Object(symbols=[Symbol(b'f', WEAK)], relocations=[(R_64, 0, 1, -8)])
    alone_at = places(alone)['data']
    weak = kept('weak-alone.so', alone)
    strong = near(weak, Object(symbols=[Symbol(b'f')], relocations=[(R_64, 0, 1, -8)]))
    colliding = kept('collides.so', Object(b'a', symbols=[Symbol(b'bR', GLOBAL, FUNC, DEFINED)]))
    other = near(colliding, Object(b'b', symbols=[Symbol(b'ab', GLOBAL, FUNC, DEFINED)]))
    asking = kept('asks-ab.so', Object(needed=[b'a', b'b'], symbols=[Symbol(b'ab')], relocations=[(R_64, 0, 1, 0)]))
    assert rules.elf_hash(b'bR') == rules.elf_hash(b'ab') == 0x672
    asking_at, colliding_at = places(Object(needed=[b'a', b'b'], symbols=[Symbol(b'ab')], relocations=[(R_64, 0, 1, 0)]))['data'], 0x170
    return [
        ("The first definition in load order is taken, even if it is weak: a's f at 0x11170, although b's f is strong.", [
            word(both, P_WORD, 0x11170), text(both, 'first.image'),
            word(Bind(p, [b, a]), P_WORD, 0x11170), word_of(p, 0x11170, a_with(), b_with(binding=WEAK)),
            word_of(p, 0x11170, a_with(), b_with()), word_of(p, 0x11170, a_with(binding=WEAK), b_with(binding=WEAK)),
            word(Bind(p, [a, b], ['b']), P_WORD, 0x11170), word(Bind(p, [b_with(), a_with(at=4)], ['a']), P_WORD, 0x11174)]),
        ("64 adds the addend; GLOB_DAT and JUMP_SLOT don't.", [
            word_of(p_with(R_64, 5), 0x11175), word_of(p_with(R_GLOB_DAT, 5), 0x11170), word_of(p_with(R_JUMP_SLOT, 5), 0x11170),
            word_of(p_with(R_64, -0x11171), 0xffffffffffffffff), word_of(p_with(R_64, -0x11170), 0)]),
        ('NONE writes nothing, and RELATIVE reads no symbol.', [
            word_of(p_with(R_NONE, 5), 0), word_of(p_with(R_RELATIVE, 5), 0x10005)]),
        ('The program comes before its libraries, so all objects take its definition.', [
            word(Bind(near(Case('asking.so'), Object(needed=[b'a', b'b'], symbols=[Symbol(b'f', WEAK, FUNC, DEFINED)],
                                                     relocations=[(R_64, 0, 1, 0)])), [a, own]), P_WORD, 0x101c8)]),
        ("An object takes its own protected function: b's word has the address of b's f, and the program's word that of a's f.", [
            word(Bind(p, [a, own]), P_WORD, 0x11170), word(Bind(p, [a, own]), 0x121b8, 0x121c0), text(Bind(p, [a, own]), 'protected.image')]),
        ('No base is added to an absolute symbol.', [
            word_of(p, 0x1234, a_with(section=ABSOLUTE, at=0x1234)), word_of(p_with(R_64, 5), 0x1239, a_with(section=ABSOLUTE, at=0x1234)),
            word_of(p_with(R_64, 2), 1, a_with(section=ABSOLUTE, at=2**64 - 1)), word_of(p, 0, a_with(section=ABSOLUTE, at=0)),
            word_of(p, 0x1234, a_with(section=ABSOLUTE, at=0x1234, visibility=PROTECTED))]),
        ('Sums are modulo 2^64. The value of a symbol may lie outside its object, and may be 0.', [
            word_of(p, 0x10fff, a_with(section=2, at=2**64 - 1)), word_of(p_with(R_64, -0x10fff), 0, a_with(section=2, at=2**64 - 1)),
            word_of(p, 0x11000, a_with(section=2, at=0))]),
        ("Another object doesn't find a hidden, internal or local symbol: b's f is found instead. Without b's f, the symbol is undefined.", [
            word_of(p, 0x12170, a_with(visibility=HIDDEN)), word_of(p, 0x12170, a_with(visibility=INTERNAL)),
            word_of(p, 0x12170, a_with(binding=LOCAL)), word_of(p, 0x11170, a_with(visibility=PROTECTED)),
            word_of(p, 'refused B5 Undefined /program f', a_with(visibility=HIDDEN), b_with(binding=LOCAL)),
            word_of(p_with(binding=WEAK), 0, a_with(visibility=HIDDEN), b_with(binding=LOCAL))]),
        ('A weak symbol that no object defines is 0, and the addend is added. A strong symbol that no object defines is undefined.', [
            word(Bind(weak), BASE + alone_at, 0xfffffffffffffff8), refused(Bind(strong), 'B5 Undefined /program f')]),
        ('An undefined symbol that is hidden isn\'t looked up; a protected one is.', [
            word_of(p_with(binding=WEAK, visibility=HIDDEN), 0), word_of(p_with(binding=WEAK, visibility=INTERNAL), 0),
            word_of(p_with(visibility=HIDDEN), 'refused B5 Undefined /program f'), word_of(p_with(visibility=PROTECTED), 0x11170)]),
        ('An undefined symbol with a value is no definition.', [
            word_of(p, 0x12170, a_with(section=UNDEFINED, at=0x170))]),
        ('Two names with the same hash are different names.', [word(Bind(asking, [colliding, other]), BASE + asking_at, 0x12000 + colliding_at)]),
    ]


# The value of a symbol of b, by its binding, its visibility and whether b defines it: if a, which comes before b,
# exports its name; if only b can export it; and if c, which comes after b, exports it.
OF_OTHER, OF_OWN, OF_LATER, ZERO, NOTHING, AT_BASE = 'a', 'b', 'c', '0', 'undefined', 'base of b'
VALUES = {
    (LOCAL, DEFAULT, True): (OF_OWN, OF_OWN, OF_OWN), (LOCAL, INTERNAL, True): (OF_OWN, OF_OWN, OF_OWN),
    (LOCAL, HIDDEN, True): (OF_OWN, OF_OWN, OF_OWN), (LOCAL, PROTECTED, True): (OF_OWN, OF_OWN, OF_OWN),
    (LOCAL, DEFAULT, False): (AT_BASE, AT_BASE, AT_BASE), (LOCAL, INTERNAL, False): (AT_BASE, AT_BASE, AT_BASE),
    (LOCAL, HIDDEN, False): (AT_BASE, AT_BASE, AT_BASE), (LOCAL, PROTECTED, False): (AT_BASE, AT_BASE, AT_BASE),
    (GLOBAL, DEFAULT, True): (OF_OTHER, OF_OWN, OF_OWN), (GLOBAL, INTERNAL, True): (OF_OWN, OF_OWN, OF_OWN),
    (GLOBAL, HIDDEN, True): (OF_OWN, OF_OWN, OF_OWN), (GLOBAL, PROTECTED, True): (OF_OWN, OF_OWN, OF_OWN),
    (GLOBAL, DEFAULT, False): (OF_OTHER, NOTHING, OF_LATER), (GLOBAL, INTERNAL, False): (NOTHING, NOTHING, NOTHING),
    (GLOBAL, HIDDEN, False): (NOTHING, NOTHING, NOTHING), (GLOBAL, PROTECTED, False): (OF_OTHER, NOTHING, OF_LATER),
    (WEAK, DEFAULT, True): (OF_OTHER, OF_OWN, OF_OWN), (WEAK, INTERNAL, True): (OF_OWN, OF_OWN, OF_OWN),
    (WEAK, HIDDEN, True): (OF_OWN, OF_OWN, OF_OWN), (WEAK, PROTECTED, True): (OF_OWN, OF_OWN, OF_OWN),
    (WEAK, DEFAULT, False): (OF_OTHER, ZERO, OF_LATER), (WEAK, INTERNAL, False): (ZERO, ZERO, ZERO),
    (WEAK, HIDDEN, False): (ZERO, ZERO, ZERO), (WEAK, PROTECTED, False): (OF_OTHER, ZERO, OF_LATER),
}
NAMES = {LOCAL: 'LOCAL', GLOBAL: 'GLOBAL', WEAK: 'WEAK'}
SEEN = {DEFAULT: 'DEFAULT', INTERNAL: 'INTERNAL', HIDDEN: 'HIDDEN', PROTECTED: 'PROTECTED'}


def three_words(binding, visibility, section, kind=FUNC):
    """Returns b with a symbol f, and with a word of f by each type of relocation, each with the addend 0x30."""
    at = 24 if section == DEFINED else 0
    return Object(b'b', symbols=[Symbol(b'f', binding, kind, section, at, visibility)],
                  relocations=[(R_64, 0, 1, 0x30), (R_GLOB_DAT, 8, 1, 0x30), (R_JUMP_SLOT, 16, 1, 0x30)], data=32)


def values_of(first, o, result):
    """Returns the three words of b, which is at 0x12000, after a and before c."""
    data = places(o)['data']
    defining = a_with(binding=WEAK) if first == 'a' else a_with(binding=LOCAL)
    later = near(Case('first.so'), one_symbol(b'c', binding=GLOBAL if first == 'c' else LOCAL))
    program = prog('abc')
    value = {OF_OTHER: 0x11170, OF_OWN: 0x12000 + data + 24, OF_LATER: 0x13170, ZERO: 0, AT_BASE: 0x12000}.get(result)
    bind = Bind(program, [defining, near(Case('three-words.so'), o), later])
    if value is None:
        return [refused(bind, 'B5 Undefined b f')]
    return [word(bind, 0x12000 + data + 8 * i, value + (0x30 if i == 0 else 0)) for i in range(3)]


def table_of_values():
    kept('three-words.so', three_words(GLOBAL, DEFAULT, DEFINED))
    parts = []
    for (binding, visibility, defined), results in VALUES.items():
        o = three_words(binding, visibility, DEFINED if defined else UNDEFINED)
        lines = [line for first, result in zip(('a', '', 'c'), results) for line in values_of(first, o, result)]
        parts.append((f'A symbol {NAMES[binding]}, {SEEN[visibility]}, {"defined" if defined else "undefined"} in the object whose relocation '
                      f'names it.\nAn earlier object defines the name{" too" if defined else ""}, no {"other " if defined else ""}object does, '
                      'or a later one does; relocations 64, GLOB_DAT and JUMP_SLOT.', lines))
    return parts


def types_that_ask():
    """Types of the symbol that a relocation names: they matter only if the symbol may be its own definition."""
    undefined, own = [], []
    for kind, binding in product((0, 1, 2, 3, 4, 7, 15), (GLOBAL, WEAK)):
        o = three_words(binding, DEFAULT, UNDEFINED, kind)
        undefined += values_of('a', o, OF_OTHER)[:1] + values_of('', o, NOTHING if binding == GLOBAL else ZERO)[:1]
        o = three_words(binding, DEFAULT, DEFINED, kind)
        itself = OF_OWN if kind in (0, 1, 2) else NOTHING if binding == GLOBAL else ZERO
        own += values_of('a', o, OF_OTHER)[:1] + values_of('', o, itself)[:1] + values_of('c', o, OF_OWN if kind in (0, 1, 2) else OF_LATER)[:1]
    return [('The type of an undefined symbol doesn\'t count.', undefined),
            ("A symbol with a type that isn't exported is looked up like any other, and isn't its own definition.", own)]


def definitions_of_every_kind():
    """a's f of each binding, visibility, type and section, and b's f after it."""
    parts = []
    for binding, visibility in product((LOCAL, GLOBAL, WEAK), (DEFAULT, INTERNAL, HIDDEN, PROTECTED)):
        lines = []
        for kind, section in product((0, 1, 2, 3, 4, 15), (UNDEFINED, DEFINED, ABSOLUTE, 0xff00)):
            at = 0 if section == DEFINED else 0x170
            exported = binding != LOCAL and visibility in (DEFAULT, PROTECTED) and section != UNDEFINED and kind in (0, 1, 2)
            wanted = 0x12170 if not exported else 0x170 if section == ABSOLUTE else 0x11170
            lines.append(word_of(p_with(), wanted, a_with(binding=binding, visibility=visibility, kind=kind, section=section, at=at)))
        parts.append((f'A symbol {NAMES[binding]}, {SEEN[visibility]} of the first library, with the types 0 to 4 and 15: each undefined, in a '
                      'section, absolute,\nand in a section with a reserved number. If the symbol isn\'t exported, the second library\'s is '
                      'taken.', lines))
    return parts


def with_jmprel(o, first):
    """Returns an object whose relocations up to `first` are in DT_JMPREL, and the others in DT_RELA."""
    o.entries = [(23, 0), (2, 24 * first), (20, 7)]
    table = build(o)[1]['relocations']
    o.entries[0] = (23, table)
    file, at = build(o)
    file = bytearray(file)
    entries = {file[k]: k + 8 for k in range(at['dynamic'], at['data'], 16)}
    file[entries[7]:entries[7] + 8] = u64(table + 24 * first)
    file[entries[8]:entries[8] + 8] = u64(24 * (len(o.relocations) - first))
    return bytes(file), at


def written(name, made):
    (DATA / name).write_bytes(made[0])
    return Case(name), made[1]


def undefined_and_overlapping():
    two = Object(needed=[b'a'], symbols=[Symbol(b'f'), Symbol(b'g')], relocations=[(R_64, 0, 2, 0), (R_64, 8, 1, 0)], data=16)
    first, at = written('two-undefined.so', build(two))
    f = a_with()
    swapped = near(first, Object(needed=[b'a'], symbols=[Symbol(b'f'), Symbol(b'g')], relocations=[(R_64, 8, 1, 0), (R_64, 0, 2, 0)], data=16))
    slots, _ = written('slots-first.so', with_jmprel(Object(
        symbols=[Symbol(b'f'), Symbol(b'g')], relocations=[(R_JUMP_SLOT, 0, 1, 0), (R_GLOB_DAT, 8, 2, 0)], data=16), 1))
    none = near(first, Object(needed=[b'a'], symbols=[Symbol(b'f'), Symbol(b'g')], relocations=[(R_NONE, 0, 2, 0), (R_64, 8, 1, 0)], data=16))
    relative = near(first, Object(needed=[b'a'], symbols=[Symbol(b'f'), Symbol(b'g')], relocations=[(R_RELATIVE, 0, 99, 4), (R_64, 8, 1, 0)], data=16))
    asks = Object(b'a', symbols=[Symbol(b'f'), Symbol(b'g')], relocations=[(R_64, 0, 1, 0)])
    asking = kept('asks-for-f.so', asks)
    a_asks = asking
    b_asks = near(asking, Object(b'b', symbols=[Symbol(b'f'), Symbol(b'g')], relocations=[(R_64, 0, 2, 0)]))
    empty = kept('nameless.so', Object(needed=[b'a'], symbols=[Symbol(b'')], relocations=[(R_64, 0, 1, 0)]))
    empty_at = places(Object(needed=[b'a'], symbols=[Symbol(b'')], relocations=[(R_64, 0, 1, 0)]))['data']
    empty_found = kept('nameless-export.so', Object(b'a', symbols=[Symbol(b'', GLOBAL, FUNC, DEFINED)]))
    empty_found_at = places(Object(b'a', symbols=[Symbol(b'', GLOBAL, FUNC, DEFINED)]))['data']
    over, over_at = written('overlapping-slots.so', with_jmprel(Object(
        b'a', symbols=[Symbol(b'f', GLOBAL, FUNC, DEFINED)], relocations=[(R_JUMP_SLOT, 4, 1, 0), (R_GLOB_DAT, 0, 1, 0)], data=24), 1))
    held = 0x11000 + over_at['data']
    return [
        ('B5 (Undefined) names the first entry: by load order, then in DT_RELA, then in DT_JMPREL, each in its own order.', [
            refused(Bind(first, [a_with(binding=LOCAL)]), 'B5 Undefined /program g'), refused(Bind(swapped, [a_with(binding=LOCAL)]), 'B5 Undefined /program f'),
            refused(Bind(first, [f]), 'B5 Undefined /program g'), refused(Bind(slots), 'B5 Undefined /program g'),
            refused(Bind(prog('ab'), [a_asks, b_asks]), 'B5 Undefined a f'), refused(Bind(prog('ba'), [a_asks, b_asks]), 'B5 Undefined b g'),
            refused(Bind(prog(''), [a_asks, b_asks], ['b', 'a']), 'B5 Undefined b g'),
            refused(Bind(first, [a_asks]), 'B5 Undefined /program g')]),
        ('A symbol that no relocation names, or only NONE or RELATIVE, is never undefined.', [
            word(Bind(none, [f]), BASE + at['data'], 0), word(Bind(none, [f]), BASE + at['data'] + 8, 0x11170),
            word(Bind(relative, [f]), BASE + at['data'], 0x10004)]),
        ('The empty name is a name.', [
            refused(Bind(empty, [lib('a')]), 'B5 Undefined /program \\e'),
            word(Bind(empty, [empty_found]), BASE + empty_at, 0x11000 + empty_found_at)]),
        ('If two places overlap, the later entry determines the bytes that both have. DT_JMPREL comes after DT_RELA, also in a library.', [
            word(Bind(prog('a'), [over]), held, (0x11000 + over_at['data'] & 0xffffffff) << 32 | (0x11000 + over_at['data'] & 0xffffffff)),
            word(Bind(prog('a'), [over]), held + 4, 0x11000 + over_at['data']), word(Bind(prog('a'), [over]), held + 8, 0)]),
    ]


def index_zero():
    o = Object(b'a', symbols=[Symbol(b'f', GLOBAL, FUNC, DEFINED)],
               relocations=[(R_64, 0, 0, 0x55), (R_GLOB_DAT, 8, 0, 0x55), (R_JUMP_SLOT, 16, 0, 0x55)], data=24)
    file, at = written('index-0.so', build(o))
    # Symbol 0 as a strong function at 0x170 with the name of f.
    filled = Case('index-0.so', (at['symbols'], u32(3) + u8(0x12, 0, 1, 0) + u64(0x170)))
    hidden = Case('index-0.so', (at['symbols'], u32(3) + u8(0x10, 2, 0, 0)))
    data = 0x11000 + at['data']
    return [('Symbol 0 has the value 0, whatever the table has there; 64 adds its addend.', [
        word(Bind(prog('a'), [case]), data + 8 * i, 0x55 if i == 0 else 0) for case in (file, filled, hidden) for i in range(3)])]


def same_bytes():
    """A program and a library of the same bytes. They define f as protected, and have a word of f and a word of g."""
    o = Object(b'p', [b'p'], [Symbol(b'f', GLOBAL, FUNC, DEFINED, 16, PROTECTED), Symbol(b'g', GLOBAL, OBJECT, DEFINED, 20)],
               [(R_64, 0, 1, 0), (R_64, 8, 2, 0)], data=24)
    both, at = written('twin.so', build(o))
    d = at['data']
    twins = Bind(both, [both])
    three = Bind(both, [both, (both, b'q')], ['q'])
    return [("Objects with the same bytes are different objects: each takes its own protected symbol, and all take the program's other "
             'symbol.', [
        order(twins, 'p'), word(twins, 0x10000 + d, 0x10000 + d + 16), word(twins, 0x11000 + d, 0x11000 + d + 16),
        word(twins, 0x10008 + d, 0x10000 + d + 20), word(twins, 0x11008 + d, 0x10000 + d + 20),
        order(three, 'q', 'p'), word(three, 0x11000 + d, 0x11000 + d + 16), word(three, 0x12000 + d, 0x12000 + d + 16),
        word(three, 0x12008 + d, 0x10000 + d + 20)])]


def values():
    prepare_values()
    write_list('binds-values.txt', first_definitions() + undefined_and_overlapping() + index_zero() + same_bytes())
    write_list('binds-table.txt', table_of_values() + types_that_ask() + definitions_of_every_kind())


ALIGN_AT, MEMORY_AT = 0x70, 0x68


def aligned(case, alignment):
    return Case(case.name, *case.changes, (ALIGN_AT, u64(alignment)))


def reaching(case, memory):
    return Case(case.name, *case.changes, (MEMORY_AT, u64(memory)))


def bases_and_limits():
    two, a, b, c = prog('a'), lib('a'), lib('b'), lib('c')
    chain = [lib('a', 'b'), lib('b', 'c'), lib('c')]
    w = Case('w.so')
    near_bases = {12: 0x11000, 13: 0x12000, 14: 0x14000, 15: 0x18000, 16: 0x20000}
    steps = [order(Bind(two, [aligned(a, 1 << power)]), 'a', bases=[0x10000, near_bases.get(power, 1 << power)]) for power in range(12, 27)]
    return [
        ('A library lies at the least multiple of its unit that is at or above the end of the object before it. The unit is a page, or '
         'the\n'
         'greatest alignment of the library. This list tries alignments up to 2^26.', steps),
        ('A chain of libraries with alignments: each object has its own unit.', [
            order(Bind(two, [aligned(chain[0], 1 << 26), chain[1], aligned(chain[2], 1 << 26)]), *'abc',
                  bases=[0x10000, 0x4000000, 0x4001000, 0x8000000]),
            order(Bind(two, [aligned(chain[0], 1 << 20), aligned(chain[1], 1 << 24), aligned(chain[2], 1 << 21)]), *'abc',
                  bases=[0x10000, 0x100000, 0x1000000, 0x1200000]),
            order(Bind(two, [aligned(chain[0], 1 << 26), aligned(chain[1], 1 << 26), aligned(chain[2], 1 << 26)], base=0), *'abc',
                  bases=[0, 0x4000000, 0x8000000, 0xc000000]),
            order(Bind(aligned(two, 1 << 26), [a], base=0x4000000), 'a', bases=[0x4000000, 0x4001000]),
            refused(Bind(aligned(two, 1 << 26), [a], base=0x2000000), 'B2 BadBase')]),
        ('An alignment of 0, of 1 or of less than a page doesn\'t count.', [
            order(Bind(two, [aligned(a, n)]), 'a') for n in (0, 1, 16, 0x800)]),
        ('Memory that ends at the end of a page, one byte after it, and two pages after it.', [
            order(Bind(reaching(two, 0x1000), [a]), 'a'), order(Bind(reaching(two, 0x1001), [a]), 'a', bases=[0x10000, 0x12000]),
            order(Bind(reaching(two, 0x2fff), [a]), 'a', bases=[0x10000, 0x13000]),
            order(Bind(prog('ab'), [reaching(a, 0x1001), b]), *'ab', bases=[0x10000, 0x11000, 0x13000])]),
        ('A library of two segments (w): the program needs w and a.', [
            order(Bind(near(Case('program-2.so'), needing_program('wa')), [w, a]), *'wa', bases=[0x10000, 0x11000, 0x14000]),
            text(Bind(near(Case('program-2.so'), needing_program('wa')), [w, a]), 'two-segments.image', 'segment 0x0000000000013000 32 r-x')]),
        ('The last object has to end at or below 2^47 - 4,096: bases just below and above that limit, with one library and with two.', [
            order(Bind(two, [a], base=HIGHEST - 0x2000), 'a'), refused(Bind(two, [a], base=HIGHEST - 0x1000), 'B4 NoRoom'),
            refused(Bind(two, [a], base=HIGHEST), 'B4 NoRoom'),
            order(Bind(prog('ab'), [a, b], base=HIGHEST - 0x3000), *'ab'), refused(Bind(prog('ab'), [a, b], base=HIGHEST - 0x2000), 'B4 NoRoom'),
            order(Bind(prog(''), [a], ['a'], base=HIGHEST - 0x2000), 'a'), refused(Bind(prog(''), [a], ['a'], base=HIGHEST - 0x1000), 'B4 NoRoom')]),
        ('The last object ends at the limit, and one byte above it.', [
            word(Bind(two, [reaching(a, 0x1000)], base=HIGHEST - 0x2000), HIGHEST - 8, 0),
            word(Bind(two, [reaching(a, 0x1000)], base=HIGHEST - 0x2000), HIGHEST - 7, 'none'),
            refused(Bind(two, [reaching(a, 0x1001)], base=HIGHEST - 0x2000), 'B4 NoRoom')]),
        ('Alignments above 2^26: a library far above the program, at the limit, and above 2^64.', [
            order(Bind(two, [aligned(a, 1 << 40)]), 'a', bases=[0x10000, 1 << 40]),
            order(Bind(two, [aligned(a, 1 << 46)]), 'a', bases=[0x10000, 1 << 46]),
            refused(Bind(prog('ab'), [aligned(a, 1 << 46), aligned(b, 1 << 46)]), 'B4 NoRoom'),
            refused(Bind(two, [aligned(a, 1 << 47)]), 'B4 NoRoom'), refused(Bind(two, [aligned(a, 1 << 63)]), 'B4 NoRoom'),
            refused(Bind(prog('ab'), [aligned(a, 1 << 63), aligned(b, 1 << 63)]), 'B4 NoRoom'),
            refused(Bind(prog('abc'), [aligned(a, 1 << 63), aligned(b, 1 << 63), c]), 'B4 NoRoom'),
            refused(Bind(two, [a], base=0xfffffffffffff000), 'B4 NoRoom')]),
    ]


def order_of_tests():
    cut = [((0, 62), 'E1 TooShort'), ((64, 175), 'E10 BadProgramHeaders'), ((176, 463), 'E12 BadSegment')]
    p, f_local = p_with(), [a_with(binding=LOCAL), b_with(binding=LOCAL)]
    assert len(p.bytes()) == 464
    rows = [(63, 'E1 TooShort'), (64, 'E10 BadProgramHeaders'), (65, 'E10 BadProgramHeaders'), (463, 'E12 BadSegment')]
    high = HIGHEST - 0x1000
    for (first, last), name in cut:
        for length in range(first, last + 1):
            asked('text', Bind(Case('asking.so', ('cut', length))).arguments(), f'refused B1 {name}\n')
    return [
        ("The program's file is tested first: a file that is cut, with libraries and without.", [
            refused(Bind(Case('asking.so', *p.changes, ('cut', n)), libraries), f'B1 {name}')
            for n, name in rows for libraries in ([], [a_with(), b_with()])]),
        ('After the file come the base, the first name that is missing, the limit of memory, and the first symbol that is undefined.', [
            refused(Bind(Case('asking.so', ('cut', 63)), base=1), 'B1 E1 TooShort'), refused(Bind(p, base=1), 'B2 BadBase'),
            refused(Bind(p, base=high + 1), 'B2 BadBase'), refused(Bind(p, base=high), 'B3 Missing /program a'),
            refused(Bind(p, [a_with()], base=HIGHEST), 'B3 Missing /program b'),
            refused(Bind(p, f_local, base=high), 'B4 NoRoom'), refused(Bind(p, f_local), 'B5 Undefined /program f')]),
        ('A base that would be good for only the library is refused for the program.', [refused(Bind(p, f_local, base=0x10800), 'B2 BadBase')]),
    ]


def edges_of_segments():
    """A library whose data end with a segment that touches another segment, and a word in the last eight bytes of the
    first segment."""
    o = Object(b'a', symbols=[Symbol(b'f', GLOBAL, FUNC, DEFINED)], relocations=[(R_64, 8, 1, 0)], data=16, headers=[bytes(56)])
    end = places(o)['data'] + 16
    o.headers = [program_header(1, 6, 0, end, 0, 16, 0)]
    touching, at = written('touching.so', build(o))
    place, data = at['relocations'], 0x11000 + at['data']
    asks = lambda n: Case('touching.so', (place, u64(n)))
    bind = lambda n: Bind(prog('a'), [asks(n)])
    return [
        ('A place in the last eight bytes of a segment, and in the first eight bytes of the next segment, which touches it.', [
            word(bind(end - 8), data + 8, data), word(bind(end), data + 16, data), word(bind(end + 8), data + 24, data)]),
        ('A word that is read from the image may lie across two segments that touch.', [
            word(bind(end - 8), data + 12, data >> 32), word(bind(end), data + 12, (data & 0xffffffff) << 32)]),
        ('The place of a relocation may not lie across two segments, in a program and in a library.', [
            line for n in (end - 7, end - 4, end - 1, end + 9, end + 16, 0x1000000) for line in (
                refused(Bind(asks(n)), 'B1 E32 RelocationPlace'), f'library {asks(n)} => refused E32 RelocationPlace')]),
        ('No word can be read after the last byte of an object, even if another object follows.', [
            word(bind(end), data + 25, 'none'), word(bind(end), data + 32, 'none'), word(bind(end), 0x10fff, 'none'),
            word(bind(end), 0xffff, 'none'), word(bind(end), 0xfffffffffffffffc, 'none')]),
    ]


def layout():
    write_list('binds-places.txt', bases_and_limits() + order_of_tests() + edges_of_segments())


def wrong():
    both = Bind(p_with(), [a_with(binding=WEAK), b_with()])
    write_list('binds-wrong.txt', [
        ('These cases are wrong on purpose, and the runner has to notice each difference. Another word, no word, a refusal, and another\n'
         'form of the number.', [
            f'word 0x{P_WORD:x} {both} =/> {wanted}' for wanted in ('0x12170', '0x1117', 'none', 'refused B4 NoRoom', '70000', '0x011170')]),
        ('Another order, other bases, one object less, one object more.', [
            f'order {both} =/> objects 0x0000000000010000 /program 0x000000000001{rest}' for rest in (
                '1000 b 0x0000000000012000 a', '1000 a 0x0000000000013000 b', '1000 a', '1000 a 0x0000000000012000 b 0x0000000000013000 c')]),
        ('Another text, a text that is cut, and a refusal.', [
            f'bind {both} =/> file levels.image', f'bind {both} =/> file first.image cut={(DATA / "first.image").stat().st_size - 1}',
            f'bind {both} =/> file first.image 0x28=31', f'bind {both} =/> refused B5 Undefined /program f', f'bind {both} =/> nothing']),
        ('Another refusal, another object that needs the name, and another name.', [
            f'bind {Bind(p_with())} =/> refused {wanted}' for wanted in (
                'B3 Missing /program b', 'B3 Missing a a', 'B3 Missing /program', 'B5 Undefined /program a', 'B3 Missing /program a ')]),
        ('Other libraries, other preloads.', [
            f'word 0x{P_WORD:x} {Bind(p_with(), [a_with(visibility=HIDDEN), b_with()])} =/> 0x11170',
            f'order {Bind(prog("ab"), [lib("a"), lib("b")], ["b"])} =/> objects 0x0000000000010000 /program 0x0000000000011000 a 0x0000000000012000 b']),
    ])


def tells_wrong_readings():
    """Checks that every reading that breaks a rule gives another answer in some case."""
    for reading in WRONG:
        def differs(row):
            what, arguments, wanted = row
            return getattr(reading(), what)(*arguments) != wanted
        assert any(map(differs, ASKED)), reading.__name__


if __name__ == '__main__':
    prepare()
    load_orders()
    values()
    layout()
    wrong()
    tells_wrong_readings()

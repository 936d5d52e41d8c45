#!/usr/bin/env python3
"""Writes the list of symbolic objects, in which their own names are looked up first, and its files.

    python3 crates/cases/make/symbolic.py

It needs files that `binds.py` writes. This file has each answer, which was determined by hand from the rules and agrees
with `binder.py`, the second reading. `wrong_symbolic.py` has readings that break one rule of symbolic objects each. For
each of them, some case has to give another answer.
"""

from itertools import product

from binds import (
    ASKED, AT_BASE, HIGHEST, NAMES, NOTHING, OF_LATER, OF_OTHER, OF_OWN, P_WORD, SEEN, VALUES, ZERO, Bind, a_with, b_with, kept,
    lib, near, order, p_with, places, prog, refused, text, three_words, with_jmprel, word, written)
from make import BASE, Case, u64, write_list
from samples import (
    ABSOLUTE, DEFAULT, DEFINED, FUNC, GLOBAL, HIDDEN, INTERNAL, LOCAL, OBJECT, PROTECTED, R_64, R_GLOB_DAT, R_JUMP_SLOT,
    UNDEFINED, WEAK, Object, Symbol, build)
from wrong_symbolic import WRONG

SYMBOLIC, FLAGS, DEBUG, TEXTREL, BIND_NOW, FLAGS_1, GNU_HASH = 16, 30, 21, 22, 24, 0x6ffffffb, 0x6ffffef5
WHOLE = 1 << 64
IS_SYMBOLIC = [(SYMBOLIC, 0)]
B_WORD, B_OWN, A_F = 0x121c8, 0x121d0, 0x11170

# An extra entry of b, and whether it makes b symbolic: only the tag counts, and of the flags only the bit
# 2.
ENTRIES = [
    ((SYMBOLIC, 0), True), ((FLAGS, 0x2), True), ((FLAGS, 0xa), True), ((FLAGS, 0x0), False), ((FLAGS, 0x8), False),
    ((SYMBOLIC, 1), True), ((SYMBOLIC, 2), True), ((SYMBOLIC, WHOLE - 1), True), ((FLAGS, 0x3), True), ((FLAGS, 0x6), True),
    ((FLAGS, 0x12), True), ((FLAGS, 0x1f), True), ((FLAGS, 0x102), True), ((FLAGS, 1 << 63 | 2), True), ((FLAGS, WHOLE - 1), True),
    ((FLAGS, 0x1), False), ((FLAGS, 0x4), False), ((FLAGS, 0x10), False), ((FLAGS, 0x1d), False), ((FLAGS, 0x20), False),
    ((FLAGS, 0x200), False), ((FLAGS, 2 << 32), False), ((FLAGS, 2 << 56), False), ((FLAGS, WHOLE - 3), False),
]
OTHER_TAGS = [(FLAGS_1, 2), (FLAGS_1, 0x10), (DEBUG, 2), (TEXTREL, 2), (BIND_NOW, 2), (GNU_HASH, 2), (1 << 32 | SYMBOLIC, 0),
              (1 << 32 | FLAGS, 2), (1 << 63 | SYMBOLIC, 0), (15, 2), (31, 2), (0x1610, 2), (0x10000000, 2)]
# Two extra entries, in their order. Entries after the first NULL aren't read, and neither is NULL's own value.
PAIRS = [
    ([(SYMBOLIC, 0), (FLAGS, 0)], True), ([(FLAGS, 0), (SYMBOLIC, 0)], True), ([(SYMBOLIC, 0), (FLAGS, 2)], True),
    ([(FLAGS, 8), (SYMBOLIC, 0)], True), ([(FLAGS, 0xa), (DEBUG, 0)], True), ([(DEBUG, 0), (FLAGS, 2)], True),
    ([(FLAGS, 2), (FLAGS_1, 0)], True), ([(SYMBOLIC, 0), (0, 0)], True), ([(FLAGS, 2), (0, 0)], True),
    ([(FLAGS_1, 2), (FLAGS, 0)], False), ([(FLAGS, 8), (FLAGS_1, 2)], False), ([(DEBUG, 2), (FLAGS, 8)], False),
    ([(FLAGS, 8), (DEBUG, 2)], False), ([(DEBUG, 2), (DEBUG, 2)], False), ([(0, 0), (SYMBOLIC, 0)], False),
    ([(0, 0), (FLAGS, 2)], False), ([(0, 2), (SYMBOLIC, 0)], False), ([(0, 2), (DEBUG, 2)], False), ([(DEBUG, 0), (0, 2)], False),
    ([(FLAGS, 0), (0, 2)], False), ([(0, WHOLE - 1), (0, WHOLE - 1)], False),
]


def own_f(entries, soname=b'b', **fields):
    """A library with a function f after its data, and a word of f."""
    symbol = dict(dict(name=b'f', binding=GLOBAL, kind=FUNC, section=DEFINED, at=8), **fields)
    return Object(soname, symbols=[Symbol(**symbol)], relocations=[(R_GLOB_DAT, 0, 1, 0)], data=16, entries=list(entries))


def of_one_entry(*entry, **fields):
    return near(Case('symbolic-b.so'), own_f([entry], **fields))


def named(name, entries, **fields):
    """The same with a letter as its name: a separate library, with an entry that makes it symbolic or not."""
    return near(Case('symbolic-b.so'), own_f(entries, name.encode(), **fields))


PLAIN = [(DEBUG, 0)]  # an entry that isn't read, so that the file has the same length


def prepare():
    o = own_f(IS_SYMBOLIC)
    assert places(o)['data'] == 0x1c8
    kept('symbolic-b.so', o)
    kept('symbolic-pair.so', own_f([(SYMBOLIC, 0), (FLAGS, 0)]))
    kept('symbolic-words.so', words_of_f(GLOBAL, DEFAULT, DEFINED))


def two_words(b, own):
    """P with a and b: b's word has b's own f or a's f, and P's word has a's f."""
    bind = Bind(p_with(), [a_with(binding=WEAK), b])
    return [word(bind, B_WORD, B_OWN if own else A_F), word(bind, P_WORD, A_F)]


def rotated(case, o):
    """Returns the same file with its last entry moved to the front."""
    at, data = places(o), bytearray(case.bytes())
    assert data == build(o)[0]
    first, last = at['dynamic'], at['data'] - 32
    moved = data[last:last + 16] + data[first:last]
    return Case(case.name, *case.changes, (first, bytes(moved)))


def pair(entries):
    o = own_f(entries)
    return near(Case('symbolic-pair.so'), o)


def pair_words(entries, own):
    bind = Bind(p_with(), [a_with(binding=WEAK), pair(entries)])
    return [word(bind, B_WORD + 16, B_OWN + 16 if own else A_F), word(bind, P_WORD, A_F)]


def tags():
    rows, later = ENTRIES[:5], ENTRIES[5:]
    both = Bind(p_with(), [a_with(binding=WEAK), of_one_entry(SYMBOLIC, 0)])
    undefined = [of_one_entry(*entry, section=UNDEFINED, at=0) for entry, own in rows if own]
    return [
        ('The library b defines f, as an earlier library a does, and has a word with the address of f. One more entry of its dynamic\n'
         'section is SYMBOLIC 0, FLAGS 0x2 or FLAGS 0xa, which make it symbolic, so that its own f is found; or FLAGS 0x0 or 0x8, which\n'
         "don't. The program's word has a's f in all cases.", [
             line for entry, own in rows for line in two_words(of_one_entry(*entry), own)]),
        ("The whole text of the first case: b's word is d021010000000000.", [
            text(both, 'symbolic.image', '0' * 16 + 'd021010000000000', '0' * 16 + '7011010000000000')]),
        ("The f of the symbolic library is undefined: its word gets a's f.", [
            line for b in undefined for line in two_words(b, False)]),
        ('SYMBOLIC counts with any value. Of FLAGS only the bit 2 counts, whatever the other bits are.', [
            line for entry, own in later for line in two_words(of_one_entry(*entry), own)]),
        ("Other tags with this value, and tags with the same low 32 bits, don't make a library symbolic.", [
            line for entry in OTHER_TAGS for line in two_words(of_one_entry(*entry), False)]),
        ('Two entries: both tags, in either order; one of them together with another tag; and one of them after the first NULL, where it\n'
         "isn't read.", [
            line for entries, own in PAIRS for line in pair_words(entries, own)]),
        ('The entry is the first of all entries.', [
            line for entry, own in rows for line in two_words(rotated(of_one_entry(*entry), own_f([entry])), own)]),
        ("If there is no FLAGS, no other value counts as flags: the first entry is NEEDED with the value 3, and the library isn't\n"
         'symbolic.', absent_flags()),
    ]


def absent_flags():
    """Libraries that need c, whose name is at offset 3 of their strings, and that are symbolic or not."""
    lines = []
    for entries, own in ((PLAIN, False), ([(FLAGS, 8)], False), (IS_SYMBOLIC, True)):
        o = own_f(entries)
        o.needed = [b'c']
        b, at = written('symbolic-needing.so', build(o)) if entries is PLAIN else (near(Case('symbolic-needing.so'), o), places(o))
        bind = Bind(p_with(), [a_with(binding=WEAK), b, lib('c')])
        data = 0x12000 + at['data']
        lines += [word(bind, data, data + 8 if own else A_F), word(bind, P_WORD, A_F)]
    return lines


# The value of a symbol of a symbolic b, as in VALUES for other libraries: its own exports are found before
# a's.
SYMBOLIC_VALUES = {**VALUES, (GLOBAL, DEFAULT, True): (OF_OWN, OF_OWN, OF_OWN), (WEAK, DEFAULT, True): (OF_OWN, OF_OWN, OF_OWN)}


def words_of_f(binding, visibility, section, kind=FUNC, entries=IS_SYMBOLIC):
    o = three_words(binding, visibility, section, kind)
    o.entries = list(entries)
    return o


def values_of(first, o, result):
    """Returns the three words of a symbolic b, which is at 0x12000, after a and before c."""
    data = places(o)['data']
    a = a_with(binding=WEAK if first == 'a' else LOCAL)
    c = near(Case('first.so'), Object(b'c', symbols=[Symbol(b'f', GLOBAL if first == 'c' else LOCAL, FUNC, DEFINED)]))
    bind = Bind(prog('abc'), [a, near(Case('symbolic-words.so'), o), c])
    value = {OF_OTHER: A_F, OF_OWN: 0x12000 + data + 24, OF_LATER: 0x13170, ZERO: 0, AT_BASE: 0x12000}.get(result)
    if value is None:
        return [refused(bind, 'B5 Undefined b f')]
    return [word(bind, 0x12000 + data + 8 * i, value + (0x30 if i == 0 else 0)) for i in range(3)]


def table_of_values():
    parts = []
    for (binding, visibility, defined), results in SYMBOLIC_VALUES.items():
        lines = []
        for entries in (IS_SYMBOLIC, [(FLAGS, 2)]):
            o = words_of_f(binding, visibility, DEFINED if defined else UNDEFINED, entries=entries)
            lines += [line for first, result in zip(('a', '', 'c'), results) for line in values_of(first, o, result)]
        parts.append((f'A symbol {NAMES[binding]}, {SEEN[visibility]}, {"defined" if defined else "undefined"} in the symbolic object whose '
                      f'relocation names it.\nAn earlier object defines the name{" too" if defined else ""}, no {"other " if defined else ""}object '
                      'does, or a later one does; relocations 64, GLOB_DAT and JUMP_SLOT.', lines))
    return parts


def types_that_ask():
    """A symbol that isn't exported doesn't count in its own object either, and is looked up like any other."""
    undefined, own = [], []
    for kind, binding in product((0, 1, 2, 3, 4, 7, 15), (GLOBAL, WEAK)):
        o = words_of_f(binding, DEFAULT, UNDEFINED, kind)
        undefined += values_of('a', o, OF_OTHER)[:1] + values_of('', o, NOTHING if binding == GLOBAL else ZERO)[:1]
        o = words_of_f(binding, DEFAULT, DEFINED, kind)
        exported = kind in (0, 1, 2)
        nothing = NOTHING if binding == GLOBAL else ZERO
        own += values_of('a', o, OF_OWN if exported else OF_OTHER)[:1] + values_of('', o, OF_OWN if exported else nothing)[:1]
        own += values_of('c', o, OF_OWN if exported else OF_LATER)[:1]
    return [("The type of an undefined symbol of a symbolic object doesn't matter.", undefined),
            ("If the object's own symbol has a type that isn't exported, it is no definition, not even for the object itself.", own)]


def own_value(binding, visibility, kind, section, at):
    """Returns the word that a symbolic b at 0x12000 has for its f, whose value is `at`, if a, which comes before it,
    exports f too."""
    own = at if section == ABSOLUTE else 0x12000 + at
    if binding == LOCAL or (section != UNDEFINED and visibility != DEFAULT):
        return own
    if section == UNDEFINED and visibility in (HIDDEN, INTERNAL):
        return 0 if binding == WEAK else 'refused B5 Undefined b f'
    return own if section != UNDEFINED and kind in (0, 1, 2) else A_F


def definitions_of_every_kind():
    """b's own f of each binding, visibility, type and section."""
    parts = []
    for binding, visibility in product((LOCAL, GLOBAL, WEAK), (DEFAULT, INTERNAL, HIDDEN, PROTECTED)):
        lines = []
        for kind, section in product((0, 1, 2, 3, 15), (UNDEFINED, DEFINED, ABSOLUTE, 0xff00)):
            at = 0x1d0 if section == DEFINED else 0x170
            b = of_one_entry(SYMBOLIC, 0, binding=binding, visibility=visibility, kind=kind, section=section,
                             at=8 if section == DEFINED else 0x170)
            bind = Bind(prog('ab'), [a_with(binding=WEAK), b])
            lines.append(word(bind, B_WORD, own_value(binding, visibility, kind, section, at)))
        parts.append((f'A symbol {NAMES[binding]}, {SEEN[visibility]} of a symbolic library, with the types 0 to 3 and 15: each undefined, in a '
                      'section, absolute,\nand in a section with a reserved number. An earlier object exports the name.', lines))
    return parts


def own_definitions():
    """The same at one place, and values that a reader could mistake for none."""
    def b_word(wanted, **fields):
        return word(Bind(p_with(), [a_with(), of_one_entry(SYMBOLIC, 0, **fields)]), B_WORD, wanted)
    return [
        ("The library's own definition comes before a strong one elsewhere, even if its own is weak, protected, hidden or absolute.", [
            b_word(B_OWN, binding=WEAK), b_word(B_OWN, visibility=PROTECTED), b_word(B_OWN, visibility=HIDDEN),
            b_word(B_OWN, visibility=INTERNAL), b_word(B_OWN, binding=LOCAL), b_word(B_OWN, kind=OBJECT), b_word(B_OWN, kind=0),
            b_word(0x1234, section=ABSOLUTE, at=0x1234), b_word(0x1234, section=ABSOLUTE, at=0x1234, binding=WEAK)]),
        ('A symbol with the value 0 is a definition: its address is the base of the library, or 0 if it is absolute. A value may lie\n'
         'outside its object.', [
            b_word(0x12000, section=2, at=0), b_word(0, section=ABSOLUTE, at=0), b_word(0x12000, section=2, at=0, binding=WEAK),
            b_word(0x11fff, section=2, at=WHOLE - 1), b_word(WHOLE - 1, section=ABSOLUTE, at=WHOLE - 1)]),
        ('An undefined symbol with a value is no definition, not even for its own object.', [
            b_word(A_F, section=UNDEFINED, at=0x1d0), b_word(A_F, section=UNDEFINED, at=0x1d0, binding=WEAK)]),
    ]


def two_symbols(first, second, entries=IS_SYMBOLIC):
    """A library with a word of its first symbol, and with a second symbol of the same name."""
    symbols = [Symbol(b'f', **dict(dict(kind=FUNC), **fields)) for fields in (first, second)]
    return Object(b'b', symbols=symbols, relocations=[(R_64, 0, 1, 0)], data=16, entries=list(entries))


def names_twice():
    asks, exports = dict(), dict(section=DEFINED, at=8)
    o = two_symbols(asks, exports)
    file, data = kept('symbolic-twice.so', o), 0x12000 + places(o)['data']

    def b_word(first, second, wanted, entries=IS_SYMBOLIC):
        b = near(file, two_symbols(first, second, entries))
        return word(Bind(p_with(), [a_with(binding=WEAK), b]), data, wanted)
    hidden, local = dict(exports, visibility=HIDDEN), dict(exports, binding=LOCAL)
    return [
        ('A relocation of a symbolic library names an undefined symbol, but the library exports this name by another symbol: that export\n'
         "is taken. In the last two cases the library isn't symbolic.", [
             b_word(asks, exports, data + 8), b_word(dict(binding=WEAK), exports, data + 8),
             b_word(dict(visibility=PROTECTED), exports, data + 8),
             b_word(asks, dict(exports, binding=WEAK), data + 8), b_word(asks, dict(exports, visibility=PROTECTED), data + 8),
             b_word(asks, exports, A_F, PLAIN), b_word(asks, exports, A_F, [(FLAGS, 8)])]),
        ("That other symbol isn't exported: a's f is taken, because a hidden, internal or local symbol defines no name for others.", [
            b_word(asks, hidden, A_F), b_word(asks, dict(hidden, visibility=INTERNAL), A_F), b_word(asks, local, A_F),
            b_word(asks, dict(exports, kind=3), A_F), b_word(dict(visibility=PROTECTED), hidden, A_F)]),
        ("An undefined symbol that is hidden isn't looked up, not even in its own library.", [
            b_word(dict(visibility=HIDDEN), exports, 'refused B5 Undefined b f'),
            b_word(dict(visibility=INTERNAL, binding=WEAK), exports, 0)]),
        ("A symbol isn't exported, but another symbol exports its name: the exported symbol is taken.", [
            b_word(dict(section=DEFINED, at=0, kind=3), exports, data + 8), b_word(dict(section=DEFINED, at=0, kind=3), hidden, A_F)]),
    ]


def programs():
    """Symbolic programs and others, with libraries that each have a word of f."""
    defining = Object(needed=[b'a', b'b'], symbols=[Symbol(b'f', WEAK, FUNC, DEFINED, 8)], relocations=[(R_64, 0, 1, 0)], data=16,
                      entries=list(IS_SYMBOLIC))
    program = kept('symbolic-program.so', defining)
    asking = Object(needed=[b'a', b'b'], symbols=[Symbol(b'f')], relocations=[(R_64, 0, 1, 0)], data=16, entries=list(IS_SYMBOLIC))
    asks = near(program, asking)
    at = 0x10000 + places(defining)['data']
    a, b = named('a', PLAIN), named('b', PLAIN)
    a_at, b_at, a_f = 0x111c8, 0x121c8, 0x111d0
    lone = Object(symbols=[Symbol(b'f', GLOBAL, FUNC, DEFINED, 8)], relocations=[(R_64, 0, 1, 1)], data=16, entries=list(IS_SYMBOLIC))
    alone, lone_at = kept('symbolic-alone.so', lone), 0x10000 + places(lone)['data']
    undefined = near(alone, Object(symbols=[Symbol(b'f', WEAK)], relocations=[(R_64, 0, 1, 1)], data=16, entries=[(FLAGS, 2)]))
    missing = near(alone, Object(symbols=[Symbol(b'f')], relocations=[(R_64, 0, 1, 1)], data=16, entries=[(FLAGS, 2)]))
    hidden = near(program, Object(needed=[b'a', b'b'], symbols=[Symbol(b'f', GLOBAL, FUNC, DEFINED, 8, HIDDEN)],
                                  relocations=[(R_64, 0, 1, 0)], data=16, entries=list(IS_SYMBOLIC)))
    return [
        ('A symbolic program that defines f: all objects take its f, as they would without the tag. But a symbolic library takes its own.', [
            line for libraries, b_wanted in (([a, b], at + 8), ([a, named('b', IS_SYMBOLIC)], b_at + 8)) for line in (
                word(Bind(program, libraries), at, at + 8), word(Bind(program, libraries), a_at, at + 8),
                word(Bind(program, libraries), b_at, b_wanted))]),
        ("A symbolic program that doesn't define f: all objects take the first library's f, because the program's tag doesn't make the\n"
         'libraries symbolic.', [
            word(Bind(asks, [a, b]), at, a_f), word(Bind(asks, [a, b]), a_at, a_f), word(Bind(asks, [a, b]), b_at, a_f),
            word(Bind(asks, [a, named('b', [(FLAGS, 0xa)])]), b_at, b_at + 8),
            word(Bind(asks, [a, named('b', [(FLAGS, 0xa)])]), at, a_f)]),
        ('Only a symbolic program itself takes its own hidden f.', [
            word(Bind(hidden, [a, b]), at, at + 8), word(Bind(hidden, [a, b]), a_at, a_f), word(Bind(hidden, [a, b]), b_at, a_f)]),
        ('A symbolic program without libraries: its own f, at any base; a weak f that is undefined; and a strong f that is undefined.', [
            word(Bind(alone), lone_at, lone_at + 9),
            word(Bind(alone, base=HIGHEST - 0x1000), HIGHEST - 0x11000 + lone_at, HIGHEST - 0x11000 + lone_at + 9),
            word(Bind(undefined), lone_at, 1), refused(Bind(missing), 'B5 Undefined /program f')]),
        ('The refusals of a bind are the same: the base, a name that is missing, and the limit of memory.', [
            refused(Bind(asks, [a, b], base=0x10800), 'B2 BadBase'), refused(Bind(asks, [a]), 'B3 Missing /program b'),
            refused(Bind(asks, [a, b], base=HIGHEST), 'B4 NoRoom')]),
    ]


def several():
    plain, symbolic = (lambda n: named(n, PLAIN)), (lambda n: named(n, IS_SYMBOLIC))
    flagged = lambda n: named(n, [(FLAGS, 2)])
    def words(libraries, wanted, preloads=()):
        """The word of each object in load order, given as the name of the object that defines its f."""
        names = [n for n, _ in wanted]
        bind = Bind(prog(''.join(n for n in names if n not in preloads)), libraries, preloads)
        at = {n: 0x111c8 + 0x1000 * i for i, n in enumerate(names)}
        return [order(bind, *names)] + [word(bind, at[n], at[own] + 8) for n, own in wanted]
    return [
        ('The first library is symbolic: its definition is the first one for all objects.', [
            *words([symbolic('a'), plain('b'), plain('c')], ['aa', 'ba', 'ca'])]),
        ('The symbolic library comes in the middle, and last: only the library itself takes its f. It occurs once in load order.', [
            *words([plain('a'), symbolic('b'), plain('c')], ['aa', 'bb', 'ca']),
            *words([plain('a'), plain('b'), symbolic('c')], ['aa', 'ba', 'cc'])]),
        ("Two symbolic libraries that both define f: each takes its own, and a third library takes the first one's.", [
            *words([symbolic('a'), symbolic('b'), plain('c')], ['aa', 'bb', 'ca']),
            *words([plain('a'), symbolic('b'), flagged('c')], ['aa', 'bb', 'cc']),
            *words([symbolic('a'), plain('b'), flagged('c')], ['aa', 'ba', 'cc'])]),
        ('All libraries are symbolic.', words([flagged('a'), symbolic('b'), flagged('c')], ['aa', 'bb', 'cc'])),
        ('A symbolic preload, which comes before what the program needs: all objects take its f. If it comes after another preload, only\n'
         'the preload itself takes its f.', [
            *words([symbolic('p'), plain('a')], ['pp', 'ap'], ['p']),
            *words([plain('p'), symbolic('q'), plain('a')], ['pp', 'qq', 'ap'], ['p', 'q']),
            *words([symbolic('p'), symbolic('q'), symbolic('a')], ['pp', 'qq', 'aa'], ['p', 'q'])]),
    ]


def needers():
    """A library n that needs the symbolic library s. Both have a word of f, and a, which comes before them, exports
    f."""
    o = Object(b'n', [b's'], [Symbol(b'f')], [(R_GLOB_DAT, 0, 1, 0)], data=16, entries=list(PLAIN))
    n_file, n_at = kept('symbolic-needer.so', o), 0x12000 + places(o)['data']
    n = near(n_file, o)
    s, s_at = named('s', IS_SYMBOLIC), 0x131c8
    symbolic_n = near(n_file, Object(b'n', [b's'], [Symbol(b'f')], [(R_GLOB_DAT, 0, 1, 0)], data=16, entries=list(IS_SYMBOLIC)))
    hidden_s = named('s', IS_SYMBOLIC, visibility=HIDDEN)
    weak_n = near(n_file, Object(b'n', [b's'], [Symbol(b'f', WEAK)], [(R_GLOB_DAT, 0, 1, 0)], data=16, entries=list(PLAIN)))
    no_f = a_with(binding=LOCAL)
    return [
        ('A symbolic library finds f in itself, and the library that needs it finds f elsewhere.', [
            order(Bind(prog('an'), [a_with(), n, s]), *'ans'), word(Bind(prog('an'), [a_with(), n, s]), n_at, A_F),
            word(Bind(prog('an'), [a_with(), n, s]), s_at, s_at + 8)]),
        ("A symbolic library needs it, and has no f of its own. The libraries that it needs aren't searched first.", [
            word(Bind(prog('an'), [a_with(), symbolic_n, s]), n_at, A_F), word(Bind(prog('an'), [no_f, symbolic_n, s]), n_at, s_at + 8)]),
        ("No earlier object defines f: the library that needs the symbolic library takes the latter's f, but not a hidden one.", [
            word(Bind(prog('an'), [no_f, n, s]), n_at, s_at + 8), refused(Bind(prog('an'), [no_f, n, hidden_s]), 'B5 Undefined n f'),
            word(Bind(prog('an'), [no_f, weak_n, hidden_s]), n_at, 0), word(Bind(prog('an'), [no_f, weak_n, hidden_s]), s_at, s_at + 8)]),
        ("The first library is symbolic, and its f is hidden, internal or local: the program doesn't find it, and takes a's f.", [
            word(Bind(near(Case('asking.so'), Object(needed=[b'b', b'a'], symbols=[Symbol(b'f')], relocations=[(R_64, 0, 1, 0)])),
                      [of_one_entry(SYMBOLIC, 0, **fields), a_with()]), P_WORD, 0x12170)
            for fields in (dict(visibility=HIDDEN), dict(visibility=INTERNAL), dict(binding=LOCAL), dict(kind=3))]),
        ("Nor does the program find an f that the symbolic library doesn't define.", [
            word(Bind(near(Case('asking.so'), Object(needed=[b'b', b'a'], symbols=[Symbol(b'f')], relocations=[(R_64, 0, 1, 0)])),
                      [of_one_entry(SYMBOLIC, 0, section=UNDEFINED, at=at), a_with()]), P_WORD, 0x12170) for at in (0, 0x1d0)]),
    ]


def others():
    hashed = Object(b'b', symbols=[Symbol(b'ab'), Symbol(b'bR', GLOBAL, FUNC, DEFINED, 8)], relocations=[(R_64, 0, 1, 0)], data=16,
                    entries=list(IS_SYMBOLIC))
    collides, at = kept('symbolic-collides.so', hashed), 0x12000 + places(hashed)['data']
    a = near(Case('collides.so'), Object(b'a', symbols=[Symbol(b'ab', GLOBAL, FUNC, DEFINED)]))
    slots = Object(b'b', symbols=[Symbol(b'f', GLOBAL, FUNC, DEFINED, 16)], relocations=[(R_JUMP_SLOT, 8, 1, 9), (R_64, 0, 1, -1)], data=24)
    slots.entries = list(IS_SYMBOLIC)
    table, slots_at = written('symbolic-slots.so', symbolic_slots(slots))
    held = 0x12000 + slots_at['data']
    bind = Bind(prog('ab'), [a_with(), table])
    twin = Object(b'p', [b'p'], [Symbol(b'f', GLOBAL, FUNC, DEFINED, 16), Symbol(b'g')], [(R_64, 0, 1, 0), (R_64, 8, 2, 0)], data=24,
                  entries=list(IS_SYMBOLIC))
    both, d = kept('symbolic-twin.so', twin), places(twin)['data']
    g = near(Case('first.so'), Object(b'a', symbols=[Symbol(b'g', GLOBAL, FUNC, DEFINED)]))
    three = Bind(both, [both, (both, b'q'), g], ['q', 'a'])
    return [
        ("A symbolic library's own export with the same hash but another name isn't taken.", [word(Bind(prog('ab'), [a, collides]), at, A_F)]),
        ('A slot of DT_JMPREL and a word of DT_RELA whose relocations name the same symbol.', [word(bind, held, held + 15), word(bind, held + 8, held + 16)]),
        ('Symbolic objects with the same bytes: each takes its own f, and all take the only g.', [
            order(three, 'q', 'a', 'p'), *[word(three, 0x10000 + 0x1000 * i + d, 0x10000 + 0x1000 * i + d + 16) for i in (0, 1, 3)],
            *[word(three, 0x10008 + 0x1000 * i + d, 0x12170) for i in (0, 1, 3)],
            refused(Bind(both, [both]), 'B5 Undefined /program g')]),
        ('B5 (Undefined) names the first entry in load order: one symbolic library comes before another, whose own f is found.', [
            refused(Bind(prog('ab'), [named('a', IS_SYMBOLIC, section=UNDEFINED, at=0), named('b', IS_SYMBOLIC, visibility=HIDDEN)]),
                    'B5 Undefined a f'),
            refused(Bind(prog('ab'), [named('a', IS_SYMBOLIC, visibility=HIDDEN), named('b', IS_SYMBOLIC, section=UNDEFINED, at=0)]),
                    'B5 Undefined b f')]),
    ]


def symbolic_slots(o):
    """Returns the file of an object with its first relocation in DT_JMPREL, and with the tag SYMBOLIC."""
    file, at = with_jmprel(Object(o.soname, symbols=o.symbols, relocations=o.relocations, data=o.data, nulls=2), 1)
    entry = at['data'] - 32
    assert file[entry:entry + 32] == bytes(32)
    return file[:entry] + u64(SYMBOLIC) + file[entry + 8:], at


def wrong():
    both = Bind(p_with(), [a_with(binding=WEAK), of_one_entry(SYMBOLIC, 0)])
    plain = Bind(p_with(), [a_with(binding=WEAK), of_one_entry(FLAGS, 8)])
    return [('These cases are wrong on purpose. The load order comes before a symbolic library itself; a library itself comes first '
             'although\n'
             "it isn't symbolic; the same for the program; and a refusal.", [
                 f'word 0x{B_WORD:x} {both} =/> 0x{A_F:x}', f'word 0x{B_WORD:x} {plain} =/> 0x{B_OWN:x}',
                 f'word 0x{P_WORD:x} {both} =/> 0x{B_OWN:x}', f'bind {both} =/> refused B1 E18 UnsupportedTag',
                 f'bind {plain} =/> file symbolic.image', f'library {of_one_entry(FLAGS, 2)} =/> refused E18 UnsupportedTag'])]


def tells_wrong_readings():
    """Checks that every reading that breaks a rule gives another answer in some case."""
    for reading in WRONG:
        def differs(row):
            what, arguments, wanted = row
            return getattr(reading(), what)(*arguments) != wanted
        assert any(map(differs, ASKED)), reading.__name__
    print(f'{len(WRONG)} wrong readings of symbolic objects are told apart')


if __name__ == '__main__':
    prepare()
    write_list('binds-symbolic.txt', tags() + own_definitions() + names_twice() + programs() + several() + needers() + others() + wrong())
    write_list('binds-symbolic-table.txt', table_of_values() + types_that_ask() + definitions_of_every_kind())
    tells_wrong_readings()

#!/usr/bin/env python3
"""Writes the lists of libraries and programs whose names are tails of a few long strings, and their files.

    python3 crates/cases/make/tails.py

The names have a lot of bytes, so a binder that looks up each name separately reads the strings many times. The texts
come from `binder.py`, the second reading. This file has the object that defines each word, and its place, which were
determined by hand. The texts agree with them.
"""

from dataclasses import dataclass

import binds
import samples
from admission import admit
from binder import Binder
from binds import Bind, refused, text, write_list
from samples import DEFINED, GLOBAL, OBJECT, R_64, R_GLOB_DAT, WEAK, Object, Symbol

LENGTH = 4000
STRING = bytes(97 + i * i * i // 97 % 26 for i in range(LENGTH))
LATE = 3000  # the offset at which another string differs, far from the first, the last and the middle bytes of its tails
OTHER = STRING[:LATE] + b'#' + STRING[LATE + 1:]
FRONT = range(24)  # the beginnings of tails that contain the difference
BACK = range(LATE + 1, LATE + 7)  # and of tails that begin after it
SYMBOLIC = [(16, 0)]


@dataclass
class Tail(Symbol):
    """A symbol whose name is the tail of a string of its object, which is given by its number."""
    string: int = 0


@dataclass
class Shared(Object):
    """An object whose symbols' names are tails of these strings."""
    strings: tuple = ()


def strings_of(o):
    if not isinstance(o, Shared):
        return separate(o)
    table, places, starts = b'\0', [], []
    for name in ([] if o.soname is None else [o.soname]) + o.needed:
        places.append(len(table))
        table += name + b'\0'
    for string in o.strings:
        starts.append(len(table))
        table += string + b'\0'
    return table, places + [starts[s.string] + len(o.strings[s.string]) - len(s.name) for s in o.symbols]


separate, samples.strings_of = samples.strings_of, strings_of


def asks(k, string=0, binding=GLOBAL):
    return Tail(STRING[k:], binding, string=string)


def gives(k, at, string=0, of=STRING):
    return Tail(of[k:], GLOBAL, OBJECT, DEFINED, at, string=string)


def asking(symbols, soname=None, needed=(), strings=(STRING,), entries=(), room=0):
    """An object that refers to its first symbols, those that aren't defined. It refers to each twice: in their order,
    and again."""
    asked = [i for i, s in enumerate(symbols) if s.section != DEFINED]
    relocations = [(kind, 8 * (n * len(asked) + i), s + 1, 0) for n, kind in enumerate((R_64, R_GLOB_DAT)) for i, s in enumerate(asked)]
    return Shared(soname, list(needed), symbols, relocations, 16 * len(asked) + room, entries=list(entries), strings=tuple(strings))


def giving(soname, symbols, strings=(STRING,), needed=()):
    return Shared(soname, list(needed), symbols, data=8 * (1 + len(symbols)), strings=tuple(strings))


DATA_OF = {}  # the offset of the data of each file


def kept(name, o):
    DATA_OF[name] = samples.build(o)[1]['data']
    return binds.kept(name, o)


def mixed(tails):
    """Returns some tails in an order that differs from the order of their places."""
    return sorted(tails, key=lambda k: (k * 7) % 31)


def asker(name, needed, tails):
    return kept(name, asking([asks(k) for k in mixed(tails)], needed=needed))


def bound(bind, file, asker, words):
    """A case of `bind` with its whole text. The words of the object `asker`, given by its place in load order, were
    determined by hand: each is the place of the object that defines the name and the offset in that object's data,
    or None. The words come twice."""
    files = [bind.program.name] + [f.name for f, _ in bind.libraries]
    _, order = Binder().bind(*bind.arguments())
    held = Binder().memory(order)
    assert len(order) == len(files)
    for i, found in enumerate(words * 2):
        at = order[asker].base + DATA_OF[files[asker]] + 8 * i
        value = 0 if found is None else order[found[0]].base + DATA_OF[files[found[0]]] + found[1]
        assert bytes(held[at + k] for k in range(8)) == value.to_bytes(8, 'little'), (file, i)
    return text(bind, file)


def libraries():
    """Libraries that export tails of strings that are equal in all but one byte. The tails that begin after this byte
    are equal."""
    def exporting(name, *exports):
        strings = tuple(of for _, of in exports)
        return kept(name, giving(b'a', [gives(k, 0, n, of) for n, (tails, of) in enumerate(exports) for k in tails], strings))
    bad, late = 'E28 DuplicateDefinition', BACK[0]
    write_list('admission-tails.txt', [
        ('Two strings differ in one byte. The exports are the tails that have this byte, and all of these differ. A tail that begins '
         'after\n'
         'this byte is the same in both strings, which is refused if both tails are exported.', [
             admit(exporting('tails-apart.so', (FRONT, STRING), (FRONT, OTHER)), ''),
             admit(exporting('tails-behind.so', (FRONT, STRING), ([*FRONT, late], OTHER)), ''),
             admit(exporting('tails-behind-both.so', ([*FRONT, late], STRING), ([*FRONT, late + 1], OTHER)), ''),
             admit(exporting('tails-equal.so', ([*FRONT, late], STRING), ([*FRONT, late], OTHER)), bad)]),
        ('The exports are tails of two equal strings in turn. Then one tail is exported from both strings.', [
            admit(exporting('tails-in-turn.so', (FRONT[::2], STRING), (FRONT[1::2], STRING)), ''),
            admit(exporting('tails-in-turn-equal.so', (FRONT[::2], STRING), ([*FRONT[1::2], 8], STRING)), bad)]),
        ('A third string differs in one byte from two equal strings. The same tail is exported from the first and the last, and from all\n'
         'three.', [
             admit(exporting('tails-between.so', (FRONT[::2], STRING), (FRONT, OTHER), (FRONT[1::2], STRING)), ''),
             admit(exporting('tails-around.so', ([*FRONT[::2], late], STRING), (FRONT, OTHER), ([*FRONT[1::2], late], STRING)), bad),
             admit(exporting('tails-all-three.so', (FRONT[::2], STRING), ([*FRONT, late + 2], OTHER), ([*FRONT[1::2], late + 2], STRING)), bad)]),
    ])


def lists():
    all_tails = [*FRONT, *BACK]
    at = {k: 8 * i for i, k in enumerate(all_tails)}
    program = asker('tails-asking.so', [b'a'], FRONT)
    both = asker('tails-asking-both.so', [b'a', b'b'], all_tails)
    two = kept('tails-of-two.so', giving(b'a', [gives(k, at[k], k % 2) for k in FRONT], (STRING, STRING)))
    late = kept('tails-late.so', giving(b'a', [gives(k, at[k], 0, OTHER) for k in all_tails], (OTHER,)))
    whole = kept('tails-whole.so', giving(b'b', [gives(k, at[k]) for k in all_tails]))
    odd = kept('tails-odd.so', giving(b'a', [gives(k, at[k]) for k in all_tails if k % 2], needed=[]))
    weak = kept('tails-weak.so', asking([asks(k, 0, WEAK) for k in FRONT], needed=[b'a']))
    some = kept('tails-some.so', giving(b'a', [gives(k, at[k]) for k in FRONT if k % 3]))
    last = mixed(FRONT)[-1]
    most = kept('tails-most.so', giving(b'a', [gives(k, at[k]) for k in FRONT if k != last]))
    # A library that refers to each of the names, and exports the names at odd places itself, by another
    # string.
    def itself(name, entries):
        symbols = [asks(k) for k in mixed(FRONT)] + [gives(k, 16 * 24 + at[k], 1) for k in FRONT if k % 2]
        return kept(name, asking(symbols, b'c', strings=(STRING, STRING), entries=entries, room=8 * 24))
    symbolic, plain = itself('tails-symbolic.so', SYMBOLIC), itself('tails-plain.so', [(24, 0)])
    definer = kept('tails-program.so', Shared(None, [b'c'], [gives(k, at[k]) for k in FRONT], data=8 * 24, strings=(STRING,)))
    write_list('binds-tails.txt', [
        ('A program has two relocations for each of 24 tails of a string of 4,000 bytes. The library exports them as tails of two equal\n'
         'strings in turn.', [bound(Bind(program, [two]), 'tails-of-two.image', 0, [(1, at[k]) for k in mixed(FRONT)])]),
        ("The names that a exports differ from the names of the program's relocations in one byte, far from the beginning. Only tails "
         'that\n'
         'begin after this byte are the same. The other names are found in b.', [
             bound(Bind(both, [late, whole]), 'tails-late.image', 0, [(1 if k in BACK else 2, at[k]) for k in mixed(all_tails)])]),
        ('The library a exports every other name, and b all names: the first definition in load order is taken. If a exports all names\n'
         'too, its definitions are taken.', [
            bound(Bind(both, [odd, whole]), 'tails-odd.image', 0, [(1 if k % 2 else 2, at[k]) for k in mixed(all_tails)]),
            bound(Bind(both, [(whole, b'a'), whole]), 'tails-twice.image', 0, [(1, at[k]) for k in mixed(all_tails)])]),
        ('Weak symbols: every third name is missing, and its value is 0. Then the name of the last relocation is undefined.', [
            bound(Bind(weak, [some]), 'tails-weak.image', 0, [(1, at[k]) if k % 3 else None for k in FRONT]),
            refused(Bind(program, [most]), f'B5 Undefined /program {STRING[last:].decode()}')]),
        ('The relocations of a library name symbols that the program exports, and the library itself exports every other one of these. A\n'
         'symbolic library takes its own definitions.', [
            bound(Bind(definer, [symbolic]), 'tails-symbolic.image', 1, [(1, 16 * 24 + at[k]) if k % 2 else (0, at[k]) for k in mixed(FRONT)]),
            bound(Bind(definer, [plain]), 'tails-plain.image', 1, [(0, at[k]) for k in mixed(FRONT)])]),
    ])


if __name__ == '__main__':
    libraries()
    lists()

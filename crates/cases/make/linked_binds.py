#!/usr/bin/env python3
"""Links libraries and a program with the machine's linkers, and writes the list `binds-linked.txt` of their words.

    python3 crates/cases/make/linked_binds.py

It needs gcc, GNU ld, gold, lld and readelf. The script determines load order, bases and the words of all relocations
from the output of `readelf -lrdsW`, including the addends, and reads nothing from the files themselves. It compares all
of this with `binder.py`.
"""

import re
import subprocess
import tempfile
from pathlib import Path

from binder import Binder
from binds import Bind
from make import BASE, DATA, Case, write_list

SOURCES = Path(__file__).resolve().parent / 'linked'
COMPILED = '-O1 -fPIC -fno-asynchronous-unwind-tables -fno-stack-protector -fcf-protection=none'
PLAIN = '-nostdlib -s -Wl,--build-id=none,--hash-style=sysv'
SMALL = PLAIN + ',-z,noseparate-code,-z,norelro'
WHOLE = 1 << 64

# The commands in their order. Libraries are linked with the libraries that they need.
COMMANDS = [
    ('base', f'gcc {COMPILED} -shared {SMALL},-soname,base.so -o base.so base.c'),
    ('middle', f'gcc {COMPILED} -shared -fuse-ld=gold {PLAIN},-soname,middle.so -o middle.so middle.c base.so'),
    ('top', f'gcc {COMPILED} -shared -fuse-ld=lld {PLAIN},-soname,top.so -o top.so top.c middle.so base.so'),
    ('functions', f'gcc {COMPILED} -shared {SMALL},-Bsymbolic-functions,-soname,functions.so -o functions.so functions.c'),
    ('front', f'gcc {COMPILED} -shared {SMALL},-soname,front.so -o front.so front.c'),
    ('program', f'gcc {COMPILED} -pie {SMALL},-z,lazy,-E,-e,_start -o program program.c top.so functions.so middle.so base.so'),
]


def printed(path):
    return subprocess.run(['readelf', '-lrdW', '--dyn-syms', path], check=True, capture_output=True, text=True).stdout


class Printed:
    """An object, as readelf prints it."""

    def __init__(self, name, path):
        text = printed(path)
        loads = re.findall(r'^  LOAD +\S+ (\S+) \S+ \S+ (\S+) .{3} (\S+)$', text, re.M)
        self.name, self.base = name, None
        self.end = max(int(address, 16) + int(memory, 16) for address, memory, _ in loads)
        self.unit = max([4096] + [int(alignment, 16) for _, _, alignment in loads])
        self.is_symbolic = re.search(r'\(SYMBOLIC\)|\(FLAGS\) .*\bSYMBOLIC\b', text) is not None
        self.needed = re.findall(r'\(NEEDED\) +Shared library: \[(.*)\]', text)
        self.symbols = [row.groups() for row in re.finditer(
            r'^ *\d+: ([0-9a-f]{16}) +\S+ (\S+) +(\S+) +(\S+) +(\S+)(?: (.*))?$', text, re.M)]
        self.relocations = [row.groups() for row in re.finditer(
            r'^([0-9a-f]{16})  [0-9a-f]{16} R_X86_64_(\S+) +(.*)$', text, re.M)]
        assert loads and len(self.relocations) == sum(map(int, re.findall(r'^Relocation .* contains (\d+) entr', text, re.M)))

    def exports(self, name):
        """Returns the address or the absolute value of a name that others can use."""
        for value, kind, binding, visibility, section, own in self.symbols:
            if (own == name and binding in ('GLOBAL', 'WEAK') and section != 'UND' and kind in ('NOTYPE', 'OBJECT', 'FUNC')
                    and visibility in ('DEFAULT', 'PROTECTED')):
                return int(value, 16) + (0 if section == 'ABS' else self.base)
        return None

    def symbol(self, name):
        return next(s for s in self.symbols if s[5] == name)


def signed(text):
    return int(text.replace(' ', ''), 16)


def value_of(order, o, name):
    """Returns the value of a symbol of an object, or None if the symbol is undefined."""
    value, _, binding, visibility, section, _ = o.symbol(name)
    if binding == 'LOCAL' or (section != 'UND' and visibility != 'DEFAULT'):
        return int(value, 16) + (0 if section == 'ABS' else o.base)
    if section != 'UND' or visibility in ('DEFAULT', 'PROTECTED'):
        scope = [o] + order if o.is_symbolic else order
        found = [a for a in (p.exports(name) for p in scope) if a is not None]
        if found:
            return found[0]
    return 0 if binding == 'WEAK' else None


def word_of(order, o, kind, rest):
    """Returns the word that a relocation writes. The relocation's line has `VALUE NAME + ADDEND` or `ADDEND`."""
    if kind == 'RELATIVE':
        return (o.base + signed(rest)) % WHOLE
    name, sign, addend = re.fullmatch(r'[0-9a-f]{16} (\S+) ([+-]) ([0-9a-f]+)', rest).groups()
    value = value_of(order, o, name)
    if value is None:
        return None
    added = signed(addend) * (1 if sign == '+' else -1)
    return (value + (added if kind == '64' else 0)) % WHOLE


def load_order(program, libraries, preloads, base):
    """Returns the objects, level by level, at their bases."""
    order = [program] + [libraries[n] for n in preloads]
    for o in order:
        order += [libraries[n] for n in dict.fromkeys(o.needed) if libraries[n] not in order]
    end = base
    for o in order:
        o.base = (end + o.unit - 1) // o.unit * o.unit
        end = o.base + o.end
    return order


def bound(names, preloads=(), base=BASE):
    """Binds the program with the libraries of these names. Returns the cases of its order and of each relocation."""
    files = {f'{n}.so': Printed(f'{n}.so', DATA / f'linked-{n}.so') for n in names}
    program = Printed('/program', DATA / 'linked-program.so')
    bind = Bind(Case('linked-program.so'), [Case(f'linked-{n}.so') for n in names], preloads, base)
    order = load_order(program, files, preloads, base)
    answer = 'objects' + ''.join(f' 0x{o.base:016x} {o.name}' for o in order)
    assert answer == Binder().order(*bind.arguments()), answer
    lines = [f'order {bind} => {answer}']
    for o in order:
        for place, kind, rest in o.relocations:
            address, word = o.base + int(place, 16), word_of(order, o, kind, rest)
            assert Binder().word(address, *bind.arguments()) == f'0x{word:x}', (o.name, place, kind, rest, hex(word))
            lines.append(f'word 0x{address:x} {bind} => 0x{word:x}')
    return lines


def undefined(names):
    """Returns the undefined names of a library alone, read as a program: the program lacks names that the library
    calls."""
    lines = []
    for name in names:
        o = Printed('/program', DATA / f'linked-{name}.so')
        assert not o.needed
        o.base = BASE
        first = next(re.split(r' +', rest)[1] for _, kind, rest in o.relocations if kind != 'RELATIVE' and word_of([o], o, kind, rest) is None)
        bind = Bind(Case(f'linked-{name}.so'))
        assert Binder().text(*bind.arguments()) == f'refused B5 Undefined /program {first}\n'
        lines.append(f'bind {bind} => refused B5 Undefined /program {first}')
    return lines


def versions():
    tools = ['gcc', 'ld', 'ld.gold', 'ld.lld', 'readelf']
    first = [subprocess.run([t, '--version'], check=True, capture_output=True, text=True).stdout.splitlines()[0] for t in tools]
    return 'Made by ' + '; '.join(first) + '.'


def make():
    with tempfile.TemporaryDirectory() as name:
        folder = Path(name)
        for source in SOURCES.iterdir():
            (folder / source.name).write_text(source.read_text())
        for made, command in COMMANDS:
            subprocess.run(command.split(), cwd=folder, check=True)
            output = 'program' if made == 'program' else f'{made}.so'
            (DATA / f'linked-{made}.so').write_bytes((folder / output).read_bytes())


def main():
    make()
    commands = '\n'.join(command for _, command in COMMANDS)
    tags = printed(DATA / 'linked-functions.so')
    assert 'SYMBOLIC' not in tags
    four = ['base', 'middle', 'top', 'functions']
    missing = Bind(Case('linked-program.so'), [Case(f'linked-{n}.so') for n in four if n != 'middle'])
    assert Binder().text(*missing.arguments()) == 'refused B3 Missing top.so middle.so\n'
    write_list('binds-linked.txt', [
        (f'{versions()}\nEach case is a word that a relocation writes. The option -Bsymbolic-functions leaves no tag in the library.\n{commands}', bound(four)),
        ('The same libraries in another order of installation, at another base.', bound(four[::-1], base=0x7f1234560000)),
        ('With a preload, whose definitions replace a function and a datum, even for the libraries that define them.', bound(four + ['front'], ['front.so'])),
        ('With two preloads. One of them is also needed, and comes before what the program needs.', bound(four + ['front'], ['functions.so', 'front.so'])),
        ('Without a library that is needed; and with a library that lacks the function that is called.',
         [f'bind {missing} => refused B3 Missing top.so middle.so'] + undefined(['front'])),
    ])


if __name__ == '__main__':
    main()

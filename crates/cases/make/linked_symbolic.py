#!/usr/bin/env python3
"""Links symbolic libraries and programs with the machine's linkers, and writes the list `binds-linked-symbolic.txt`.

    python3 crates/cases/make/linked_symbolic.py

It needs gcc, GNU ld, gold, lld and readelf, and `linked-base.so`, which `linked_binds.py` makes. Like that script, this
one determines the symbolic objects and the words of all relocations from the output of `readelf -lrdsW`, and reads
nothing from the files themselves. It compares all of this with `binder.py`.
"""

import subprocess
import tempfile
from pathlib import Path

from binder import Binder
from binds import Bind
from linked_binds import COMPILED, PLAIN, SMALL, Printed, load_order, printed, versions, word_of
from make import BASE, DATA, Case, u64, write_list

SOURCES = Path(__file__).resolve().parent / 'symbolic'
FIXED = '--defsym=fixed_datum=0x4321'
LEFT = '--dynamic-list=kept.map'
NONE, TAG, FLAG, BOTH = '', 'SYMBOLIC', 'FLAGS', 'SYMBOLIC and FLAGS'

# Libraries of own.c: the linker, its options, and the tags by which it makes the library symbolic. A list of names
# (kept.map) leaves some words of a symbolic library to the loader: those name symbols. The linker binds the others.
LIBRARIES = {
    'plain': ('bfd', '-z,now', NONE), 'bfd': ('bfd', '-Bsymbolic', BOTH), 'bfd-now': ('bfd', '-Bsymbolic,-z,now', BOTH),
    'bfd-tag': ('bfd', '-Bsymbolic,--disable-new-dtags', TAG), 'bfd-list': ('bfd', f'-Bsymbolic,{LEFT}', NONE),
    'bfd-functions': ('bfd', '-Bsymbolic-functions', NONE),
    'gold': ('gold', '-Bsymbolic', BOTH), 'gold-list': ('gold', f'-Bsymbolic,{LEFT}', NONE),
    'gold-functions': ('gold', '-Bsymbolic-functions', NONE),
    'lld': ('lld', '-Bsymbolic', FLAG), 'lld-list': ('lld', f'-Bsymbolic,{LEFT}', FLAG),
    'lld-now': ('lld', f'-Bsymbolic,{LEFT},-z,now', FLAG), 'lld-functions': ('lld', '-Bsymbolic-functions', NONE),
}
# Programs of program.c: the linker, the way of linking, and the libraries that the program needs: first base.so, and
# last the library of `work`.
PROGRAMS = {
    'program': ('bfd', '-pie', '', NONE), 'program-gold': ('gold', '-pie', ',-Bsymbolic', BOTH),
    'program-lld': ('lld', '-pie', f',-Bsymbolic,{LEFT}', FLAG), 'program-bfd': ('bfd', '-pie', ',-Bsymbolic', NONE),
    'program-shared': ('bfd', '-shared', ',-Bsymbolic', BOTH),
}
NEEDED = ['base', 'plain', 'lld-list']


def options(linker):
    return SMALL if linker == 'bfd' else PLAIN


def library_command(name):
    linker, how, _ = LIBRARIES[name]
    return (f'gcc {COMPILED} -shared -fuse-ld={linker} {options(linker)},{FIXED},{how},-soname,{name}.so -o {name}.so own.c base.so')


def program_command(name):
    linker, kind, how, _ = PROGRAMS[name]
    return (f'gcc {COMPILED} {kind} -fuse-ld={linker} {options(linker)},-E,--no-as-needed,-e,_start{how} -o {name} program.c '
            + ' '.join(f'{n}.so' for n in NEEDED))


def tags(text):
    """Returns the tags by which an object is symbolic, as readelf prints them."""
    own = '(SYMBOLIC)' in text
    flag = any('(FLAGS)' in line and 'SYMBOLIC' in line.split() for line in text.splitlines())
    return BOTH if own and flag else TAG if own else FLAG if flag else NONE


def make():
    with tempfile.TemporaryDirectory() as name:
        folder = Path(name)
        for source in SOURCES.iterdir():
            (folder / source.name).write_text(source.read_text())
        (folder / 'base.so').write_bytes((DATA / 'linked-base.so').read_bytes())
        for made, command, wanted in [(f'{n}.so', library_command(n), LIBRARIES[n][2]) for n in LIBRARIES] + [
                (n, program_command(n), PROGRAMS[n][3]) for n in PROGRAMS]:
            subprocess.run(command.split(), cwd=folder, check=True)
            assert tags(printed(folder / made)) == wanted, (made, tags(printed(folder / made)))
            file = file_of(made.removesuffix('.so'))
            (DATA / file).write_bytes((folder / made).read_bytes())


def file_of(name):
    return 'linked-base.so' if name == 'base' else f'own-{name}.so'


class Changed:
    """A library of the folder with a change."""

    def __init__(self, name, change):
        self.name, self.change = name, change

    def case(self):
        return Case(file_of(self.name), self.change)


def changed_flags(name, entry):
    """Returns a library whose FLAGS is 0x8, with another entry in place of FLAGS. The linker has left all words of the
    library's names to the loader."""
    data, text = (DATA / file_of(name)).read_bytes(), printed(DATA / file_of(name))
    assert any('(FLAGS)' in line and line.split()[2:] == ['BIND_NOW'] for line in text.splitlines())
    old = u64(30) + u64(8)
    assert data.count(old) == 1
    return Changed(name, (data.index(old), u64(entry[0]) + u64(entry[1])))


def printed_case(name, case):
    with tempfile.NamedTemporaryFile() as file:
        file.write(case.bytes())
        file.flush()
        return Printed(name, file.name)


def bound(program, libraries, preloads=(), base=BASE, alone=None):
    """Binds a program with these libraries. Returns the cases of its order and of each relocation, or only those of
    one object."""
    cases = {(n if isinstance(n, str) else n.name): (Case(file_of(n)) if isinstance(n, str) else n.case()) for n in libraries}
    objects = {f'{n}.so': printed_case(f'{n}.so', case) for n, case in cases.items()}
    bind = Bind(Case(file_of(program)), list(cases.values()), [f'{n}.so' for n in preloads], base)
    order = load_order(printed_case('/program', bind.program), objects, [f'{n}.so' for n in preloads], base)
    answer = 'objects' + ''.join(f' 0x{o.base:016x} {o.name}' for o in order)
    refusal, other = Binder().bind(*bind.arguments())
    assert refusal is None and answer == Binder().order(*bind.arguments()), (refusal, answer)
    held, lines = Binder().memory(other), [f'order {bind} => {answer}']
    for o in order:
        for place, kind, rest in o.relocations:
            if kind == 'NONE':
                continue
            address, wanted = o.base + int(place, 16), word_of(order, o, kind, rest)
            assert bytes(held[address + k] for k in range(8)) == wanted.to_bytes(8, 'little'), (o.name, place, kind, rest, hex(wanted))
            if alone in (None, o.name):
                lines.append(f'word 0x{address:x} {bind} => 0x{wanted:x}')
    return lines


def found_in(program, libraries, preloads, asker, name):
    """Returns the object in which a name is found for an object, as text for a comment."""
    objects = {f'{n}.so': Printed(f'{n}.so', DATA / file_of(n)) for n in libraries}
    order = load_order(Printed('/program', DATA / file_of(program)), objects, [f'{n}.so' for n in preloads], BASE)
    asks = next(o for o in order if o.name == asker)
    scope = [asks] + order if asks.is_symbolic else order
    return next(o.name for o in scope if o.exports(name) is not None)


LINKERS = {'bfd': 'GNU ld', 'gold': 'gold', 'lld': 'lld'}


def said(linker, how, by):
    """Returns a text with the way in which an object was linked, and the tags by which it is symbolic."""
    return f'{LINKERS[linker]} with {how}, ' + (f'symbolic by {by}.' if by else 'which isn\'t symbolic.')


def one_of_each():
    parts = [('The words of a library that comes after the preload base.so in load order: ' + said(*LIBRARIES[n]),
              bound('program', NEEDED + [n], ['base', n], alone=f'{n}.so')) for n in LIBRARIES if n not in NEEDED]
    for n, (linker, kind, how, by) in PROGRAMS.items():
        if n != 'program':
            parts.append(('A program: ' + said(linker, f'{kind} -Wl{how}', by), bound(n, NEEDED)))
    return parts


def main():
    make()
    commands = '\n'.join([library_command(n) for n in LIBRARIES] + [program_command(n) for n in PROGRAMS])
    assert found_in('program', NEEDED, [], 'lld-list.so', 'twice') == 'lld-list.so'
    assert found_in('program', NEEDED, [], 'plain.so', 'twice') == 'base.so'
    assert found_in('program', NEEDED, [], 'lld-list.so', 'in_base') == 'base.so'
    assert found_in('program', NEEDED, [], 'lld-list.so', 'report') == '/program'
    rest = [n for n in LIBRARIES if n not in NEEDED]
    write_list('binds-linked-symbolic.txt', [
        (f'{versions()}\nLibraries that define names which base.so defines too, and programs.\n{commands}\n'
         'Each case is a word that a relocation writes. The program needs base.so, a library that isn\'t symbolic, and a library that '
         'lld\nmade symbolic. The last one defines some of the names that were left to the loader.', bound('program', NEEDED)),
        ('The libraries in the reverse order, as preloads, at another base.', bound('program', NEEDED[::-1], ['lld-list', 'plain'], 0x7f1234560000)),
        ('All of the libraries as preloads, after base.so.', bound('program', NEEDED + rest, ['base'] + rest)),
        ('A library whose FLAGS is 0x8; the same with 0xa in its place, and with SYMBOLIC: then the library uses its own definitions of\n'
         'all names.', [
            line for entry in ((30, 10), (16, 8)) for line in bound('program', ['base', changed_flags('plain', entry), 'lld-list'])]),
    ] + one_of_each())


if __name__ == '__main__':
    main()

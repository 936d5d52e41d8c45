#!/usr/bin/env python3
"""Writes the list `data/scripts.txt`, and the scripts and outputs that it names.

    python3 crates/cases/make/scripts.py

Expected outputs come from `Model` below, a second reading of a registry that shares no code with the program, and from
`binder.py` for its binds; if a table has an output that was determined by hand, the two have to agree.
"""

import re

import rules
from binder import Binder
from flight import Flight
from make import BASE, DATA, write_list
from samples import ABSOLUTE, DEFINED, FUNC, GLOBAL, R_64, WEAK, Object, Symbol, build

MOST_LIBRARIES, MOST_PRELOADS, SLOTS, SECTOR, IN_CATALOGUE = 2048, 16, 8, 512, 64
HEX = re.compile(rb'(?:[0-9a-fA-F]{2})+')
NAME = re.compile(rb'[\x21-\x7e]+')
BASE_WORD = re.compile(rb'0x[0-9a-fA-F]{1,16}')
SLOT = re.compile(rb'[0-9]')


def are_distinct(values):
    return len(set(values)) == len(values)


def sectors_of(length):
    return (length + SECTOR - 1) // SECTOR


def catalogues_for(libraries):
    """Returns the number of catalogues that `libraries` libraries need."""
    return (libraries + IN_CATALOGUE - 1) // IN_CATALOGUE


class Model:
    """A registry on a number of sectors: its libraries in the order of installation, each as a new pair for each time
    that it was put; the names of its preloads; and for each slot a binder, or none."""

    def __init__(self, sectors):
        self.sectors, self.libraries, self.preloads, self.slots = sectors, [], [], [None] * SLOTS

    def names(self):
        return [name for name, _ in self.libraries]

    def versions(self):
        """Returns the libraries of the registry and of its binders, each version once."""
        held = self.libraries + [version for flight in self.slots if flight for version in flight.libraries]
        return {id(version): version for version in held}.values()

    def is_full(self, file, libraries):
        """Returns whether a file has no room in a list that then has `libraries` libraries. In addition to all files
        with their entries, each catalogue counts twice, because a change writes all catalogues again."""
        files = [data for _, data in self.versions()] + [file]
        return sum(sectors_of(len(data)) + 1 for data in files) + 2 * catalogues_for(libraries) > self.sectors - 2

    def install(self, file):
        refusal = rules.library_refusal(file)
        if refusal:
            return f'refused C1 {refusal}\n'
        name = soname(file)
        if name in self.names():
            return 'refused C2 AlreadyInstalled\n'
        if len(self.libraries) == MOST_LIBRARIES:
            return 'refused S9 TooMany\n'
        if self.is_full(file, len(self.libraries) + 1):
            return 'refused S7 Full\n'
        self.libraries.append((name, file))
        return 'ok\n'

    def replace(self, file):
        refusal = rules.library_refusal(file)
        if refusal:
            return f'refused C1 {refusal}\n'
        if soname(file) not in self.names():
            return 'refused C3 NotInstalled\n'
        if self.is_full(file, len(self.libraries)):
            return 'refused S7 Full\n'
        self.libraries[self.names().index(soname(file))] = (soname(file), file)
        return 'ok\n'

    def remove(self, name):
        if name not in self.names():
            return 'refused C3 NotInstalled\n'
        if name in self.preloads:
            return 'refused C4 InPreloads\n'
        del self.libraries[self.names().index(name)]
        return 'ok\n'

    def preload(self, names):
        if len(names) > MOST_PRELOADS:
            return 'refused C6 TooManyPreloads\n'
        if not are_distinct(names):
            return 'refused C5 RepeatedPreload\n'
        if any(name not in self.names() for name in names):
            return 'refused C3 NotInstalled\n'
        self.preloads = names
        return 'ok\n'

    def list(self):
        lines = [f'library {rules.printed_name(name)} {len(file)}\n' for name, file in self.libraries]
        return ''.join(lines + [f'preload {rules.printed_name(name)}\n' for name in self.preloads]) + 'end\n'

    def bind(self, base, program):
        return Binder().text(program, base, self.libraries, self.preloads)

    def begin(self, base, program):
        if None not in self.slots:
            return 'refused C7 NoSlot\n'
        slot = self.slots.index(None)
        self.slots[slot] = Flight(program, base, self.libraries, self.preloads)
        return f'slot {slot}\n'

    def advance(self, slot):
        if slot >= SLOTS or self.slots[slot] is None:
            return 'refused C8 NoSuchBinder\n'
        told, is_last = self.slots[slot].step()
        if is_last:
            self.slots[slot] = None
        return told

    def cancel(self, slot):
        if slot >= SLOTS or self.slots[slot] is None:
            return 'refused C8 NoSuchBinder\n'
        self.slots[slot] = None
        return 'ok\n'

    def answer(self, line):
        command, *words = line.split(b' ')
        if command in (b'install', b'replace') and len(words) == 1 and HEX.fullmatch(words[0]):
            file = bytes.fromhex(words[0].decode())
            return self.install(file) if command == b'install' else self.replace(file)
        if command == b'remove' and len(words) == 1 and NAME.fullmatch(words[0]):
            return self.remove(words[0])
        if command == b'preload' and all(NAME.fullmatch(word) for word in words):
            return self.preload(words)
        if command == b'list' and not words:
            return self.list()
        if command in (b'bind', b'begin') and len(words) == 2 and BASE_WORD.fullmatch(words[0]) and HEX.fullmatch(words[1]):
            base, program = int(words[0][2:], 16), bytes.fromhex(words[1].decode())
            return self.bind(base, program) if command == b'bind' else self.begin(base, program)
        if command in (b'advance', b'cancel') and len(words) == 1 and SLOT.fullmatch(words[0]):
            return self.advance(int(words[0])) if command == b'advance' else self.cancel(int(words[0]))
        return 'refused L1 BadLine\n'


def soname(file):
    elf = rules.Elf(file)
    return elf.string(elf.value(rules.SONAME))


def output(sectors, text):
    """Returns the number of lines, the number of refused lines, and the output."""
    model, answers = Model(sectors), []
    *whole, cut = text.split(b'\n')
    answers = [model.answer(line) for line in whole] + (['refused L2 CutLine\n'] if cut else [])
    return len(answers), sum(answer.startswith('refused') for answer in answers), ''.join(answers)


def library(name, **parts):
    return build(Object(soname=name, **parts))[0]


def padded(file, length):
    return file + bytes(length - len(file))


def spelt(file):
    return file.hex().encode()


def install(file):
    return b'install ' + spelt(file)


def replace(file):
    return b'replace ' + spelt(file)


def bind(file, base=BASE):
    return b'bind 0x%x %s' % (base, spelt(file))


def begin(file, base=BASE):
    return b'begin 0x%x %s' % (base, spelt(file))


def of_folder(name):
    return (DATA / name).read_bytes()


def image_lines(name):
    """Returns the lines of an image's text that another list has as an answer."""
    return (DATA / name).read_text().splitlines()


A, B, C, X, Y, Z = (library(name) for name in (b'a', b'b', b'c', b'x', b'y', b'z'))


def stored(name, sectors, lines, wanted=None, end=b'\n'):
    """A case of a script in a file. `wanted` is its output, if that was determined by hand."""
    text = b'\n'.join(lines) + end
    count, refused, answers = output(sectors, text)
    if wanted is not None:
        assert answers == ''.join(line + '\n' for line in wanted), (name, answers)
    (DATA / f'{name}.script').write_bytes(text)
    (DATA / f'{name}.output').write_text(answers)
    return f'script {sectors} {name}.script => {count} {refused} file {name}.output'


def short(text, wanted, sectors=64):
    """A case of a script that is written in the list. `wanted` is its output, which was determined by hand: at most
    one line."""
    count, refused, answers = output(sectors, text)
    assert answers == wanted + ('\n' if wanted else ''), (text, answers)
    return f'script {sectors} bytes={text.hex()} => {count} {refused} {wanted or "nothing"}'


def seen(name, sectors, lines, wanted, end=b'\n'):
    """A case of a script in a file. `wanted` has lines of its output in their order, which were determined by hand."""
    case = stored(name, sectors, lines, end=end)
    rest = iter((DATA / f'{name}.output').read_text().splitlines())
    for line in wanted:
        assert line in rest, (name, line)
    return case


def bad(*lines):
    return [short(line + b'\n', 'refused L1 BadLine') for line in lines]


def rows():
    first = [install(A), install(A), b'preload a', b'list', b'remove a', b'preload' + 17 * b' a', b'preload a a',
             b'preload z', b'preload', b'remove a', b'list']
    wanted = ['ok', 'refused C2 AlreadyInstalled', 'ok', 'library a 344', 'preload a', 'end', 'refused C4 InPreloads',
              'refused C6 TooManyPreloads', 'refused C5 RepeatedPreload', 'refused C3 NotInstalled', 'ok', 'ok', 'end']
    three = [install(X), install(Y), install(Z), b'preload z x', b'remove y', b'list']
    left = ['ok', 'ok', 'ok', 'ok', 'ok', 'library x 344', 'library z 344', 'preload z', 'preload x', 'end']
    assert len(A) == 344
    return [
        ('Each command of a registry, and most of its refusals.', [stored('script-commands', 64, first, wanted)]),
        ('The empty script; half a byte; an empty line; a last line without a newline.', [
            short(b'', ''), short(b'install 7f4\n', 'refused L1 BadLine'), short(b'\n', 'refused L1 BadLine'),
            stored('script-cut', 64, [b'remove a', b'list'], ['refused C3 NotInstalled', 'refused L2 CutLine'], end=b'')]),
        ('After a removal the list has no gap, and the preloads keep their names and their order.', [stored('script-remove', 64, three, left)]),
    ]


def long_line():
    """A line of 33 MiB of zeros, and a line after it."""
    length = 33 * 1024 * 1024
    count, refused, answers = output(8, bytes(length) + b'\nlist\n')
    assert answers == 'refused L1 BadLine\nend\n', answers
    return f'script 8 bytes= pad={length + 6} {length:#x}=0a6c6973740a => {count} {refused} file bytes={answers.encode().hex()}'


def bad_lines():
    name = b'x' * 241
    return [
        ('Two spaces, a space at the beginning, and a space at the end.', bad(
            b'remove  a', b'install  00', b'preload a  b', b'preload  a', b' list', b' remove a', b'list ', b'remove a ',
            b'preload ', b'preload a ', b'install 00 ', b' ', b'  ')),
        ('Tabs, and a carriage return before the newline.', bad(
            b'list\t', b'\tlist', b'remove\ta', b'preload\ta', b'install\t00', b'list\r', b'remove a\r', b'preload\r', b'install 00\r', b'\r')),
        ("A name with NUL, and names with bytes that aren't visible.", bad(
            b'remove \0', b'remove a\0', b'remove a\x7f', b'remove a\x80', b'remove \xc3\xa9', b'preload a \xff', b'preload \x01',
            b'preload a\tb', b'\0', b'list\0')),
        ('Words that are no command.', bad(
            b'List', b'LIST', b'INSTALL 00', b'Remove a', b'lists', b'lis', b'preloads', b'preloada', b'unload a', b'format 8', b'image a 0x0',
            b'script', b'#', b'ok')),
        ('No digits, half a byte, a space between digits, and characters that are no digits.', bad(
            b'install', b'install ', b'install 0', b'install 000', b'install 00 00', b'install 0 0', b'install 0g', b'install 0x00',
            b'install -0', b'replace', b'replace ', b'replace 0', b'replace 00 ', b'replace zz', b'install \xef\xbc\x90\xef\xbc\x90')),
        ('Commands with one word too few or too many.', bad(
            b'remove', b'remove ', b'remove a b', b'list a', b'list list', b'install00', b'removea')),
        ('A script of one byte, which is a newline; and a line that is cut.', [
            short(b'\n', 'refused L1 BadLine'), short(b'l', 'refused L2 CutLine'), short(b' ', 'refused L2 CutLine')]),
        ("A line that is cut isn't run, whatever it contains.", [
            short(b'list', 'refused L2 CutLine'), short(b'preload', 'refused L2 CutLine'), short(b'no line', 'refused L2 CutLine')]),
        ('A line of 33 MiB, and a line after it.', [long_line()]),
        ('Nothing follows the last newline.', [short(b'list\n', 'end'), short(b'preload\n', 'ok')]),
        ('A name in a line may have any length, and any visible bytes.', [
            short(b'remove ' + name + b'\n', 'refused C3 NotInstalled'),
            short(b'preload ' + name + b'\n', 'refused C3 NotInstalled'),
            short(b'remove /\n', 'refused C3 NotInstalled'), short(b'remove \\x41\n', 'refused C3 NotInstalled'),
            short(b'remove !~\n', 'refused C3 NotInstalled')]),
        ('Digits in either case.', [
            stored('script-digits', 64, [b'install ' + spelt(A).upper(), b'list'], ['ok', 'library a 344', 'end']),
            short(b'install aBcDeF\n', 'refused C1 E1 TooShort'), short(b'replace AbCdEf\n', 'refused C1 E1 TooShort')]),
    ]


def many_libraries():
    names = [bytes([ord('a') + k // 10, ord('0') + k % 10]) for k in range(101)]
    lines = [install(library(name)) for name in names] + [replace(library(names[99])), install(library(names[0])), b'list',
             b'remove ' + names[0], install(library(names[0])), b'list']
    listed = [f'library {name.decode()} 344' for name in names]
    wanted = ['ok'] * 102 + ['refused C2 AlreadyInstalled'] + listed + ['end', 'ok', 'ok'] + listed[1:] + listed[:1] + ['end']
    assert all(len(library(name)) == 344 for name in names)
    sixteen = b' '.join([b'preload'] + names[:16])
    preloads = [install(library(name)) for name in names[:17]] + [sixteen, sixteen + b' ' + names[16], b'list']
    told = ['ok'] * 18 + ['refused C6 TooManyPreloads'] + listed[:17] + [f'preload {n.decode()}' for n in names[:16]] + ['end']
    return [
        ('101 libraries, which is more than a disk of version 1 could have, in two catalogues.', [stored('script-hundred', 4096, lines, wanted)]),
        ('16 preloads and 17.', [stored('script-preloads', 64, preloads, told)]),
        ('The 65th library needs a second catalogue, and so four sectors besides its own two: 135 sectors are too few, and 136 are '
         'enough.\n'
         'A removal needs no second catalogue, and after it there is room for a copy of a library. The preloads keep their libraries.', catalogue_after_catalogue(names, listed)),
    ]


def catalogue_after_catalogue(names, listed):
    """64 libraries of two sectors each take 130 sectors with the two roots, and 132 with their catalogue twice."""
    lines = [install(library(name)) for name in names[:64]] + [b'preload ' + names[63], install(library(names[64])), b'list']
    full = ['ok'] * 65 + ['refused S7 Full'] + listed[:64] + ['preload g3', 'end']
    room = ['ok'] * 66 + listed[:65] + ['preload g3', 'end']
    copy = replace(library(names[63]))
    changed = [copy, b'remove ' + names[0], b'list', copy, b'remove ' + names[64], b'list', copy, b'remove ' + names[63]]
    told = (['refused S7 Full', 'ok'] + listed[1:65] + ['preload g3', 'end', 'ok', 'ok'] + listed[1:64]
            + ['preload g3', 'end', 'ok', 'refused C4 InPreloads'])
    assert names[63] == b'g3'
    return [stored('script-sixty-four', 135, lines, full), stored('script-sixty-five', 136, lines + changed, room + told)]


def sectors():
    full = [
        # Six sectors are free: three for the bytes, one for the entry, and two for the catalogue, which each change
        # writes again.
        stored('script-full', 8, [install(padded(A, 1537)), install(padded(A, 1536)), b'list', replace(A), install(B), b'remove a',
                                  install(A), install(B), b'list'],
               ['refused S7 Full', 'ok', 'library a 1536', 'end', 'refused S7 Full', 'refused S7 Full', 'ok', 'ok', 'ok', 'library a 344',
                'library b 344', 'end']),
        # The same with four more sectors.
        stored('script-fuller', 12, [install(padded(A, 3585)), install(padded(A, 3584)), b'list', replace(A), install(B), b'remove a',
                                     install(A), install(B), install(C), replace(padded(A, 1025)), replace(padded(A, 513)),
                                     replace(padded(A, 512)), b'remove b', b'list'],
               ['refused S7 Full', 'ok', 'library a 3584', 'end', 'refused S7 Full', 'refused S7 Full', 'ok', 'ok', 'ok', 'ok',
                'refused S7 Full', 'refused S7 Full', 'ok', 'ok', 'library a 512', 'library c 344', 'end'])]
    tight = [
        # The replaced file isn't free. Of 8 sectors, two are free without the file's two, the registry's two, and twice
        # the catalogue.
        stored('script-replace-full', 8, [install(A), replace(padded(A, 513)), replace(padded(A, 512)), b'list'],
               ['ok', 'refused S7 Full', 'ok', 'library a 512', 'end'])]
    return [
        ('A library that takes all free sectors, and a library of one byte more. A file that replaces it has no room.', full),
        ('A file may take all sectors that are free besides those of the file that it replaces, but not one more.', tight),
    ]


def refusals():
    changed = bytearray(A)
    changed[16] = 2
    pair = [Symbol(b'f', GLOBAL, FUNC, DEFINED), Symbol(b'f', GLOBAL, FUNC, DEFINED)]
    typed = build(Object(soname=b'a', relocations=[(37, 0, 0, 0)]))[0]
    lines = [b'install 7f', install(bytes(changed)), install(library(b'a', symbols=pair)), install(typed), install(library(b'a/b')),
             install(build(Object())[0]), replace(library(b'a', symbols=pair)), replace(bytes(changed)), install(A),
             install(library(b'a', symbols=pair)), replace(B), replace(A), b'remove b', b'preload b b', b'preload a b', b'preload a',
             b'remove a', b'list']
    wanted = ['refused C1 E1 TooShort', 'refused C1 E7 BadType', 'refused C1 E28 DuplicateDefinition',
              'refused C1 E30 RelocationType 37', 'refused C1 E33 BadSoname', 'refused C1 E33 BadSoname',
              'refused C1 E28 DuplicateDefinition', 'refused C1 E7 BadType', 'ok', 'refused C1 E28 DuplicateDefinition',
              'refused C3 NotInstalled', 'ok', 'refused C3 NotInstalled', 'refused C5 RepeatedPreload', 'refused C3 NotInstalled', 'ok',
              'refused C4 InPreloads', 'library a 344', 'preload a', 'end']
    order = [b'preload' + 17 * b' z', b'preload z z', b'preload z', b'remove z', install(A), b'preload a z z', b'preload z a']
    answers = ['refused C6 TooManyPreloads', 'refused C5 RepeatedPreload', 'refused C3 NotInstalled', 'refused C3 NotInstalled', 'ok',
               'refused C5 RepeatedPreload', 'refused C3 NotInstalled']
    names = [b'\\', b'!~', b'libc.so.6']
    spelt_names = [install(library(name)) for name in names] + [b'preload \\', b'list', b'remove \\x5c', b'preload', b'remove \\', b'list']
    told = ['ok'] * 4 + ['library \\x5c 344', 'library !~ 344', 'library libc.so.6 352', 'preload \\x5c', 'end', 'refused C3 NotInstalled',
                         'ok', 'ok', 'library !~ 344', 'library libc.so.6 352', 'end']
    return [
        ('Files that are no libraries, and each refusal of a name; the file is tested first.', [stored('script-refused', 64, lines, wanted)]),
        ("The order of the tests of preloads: first their number, then repeated names, then names that aren't installed.",
         [stored('script-order', 64, order, answers)]),
        ('Names are printed with a backslash as \\x5c, and read as they are.', [stored('script-names', 64, spelt_names, told)]),
        ('A replaced library keeps its place in the list. A script goes on after every refusal. The last line is cut.', [
            stored('script-places', 64, [install(A), install(B), install(C), b'', replace(padded(A, 400)), b'list all', b'list', b'remove b',
                                         install(B), b'list', b'lis'],
                   ['ok', 'ok', 'ok', 'refused L1 BadLine', 'ok', 'refused L1 BadLine', 'library a 400', 'library b 344', 'library c 344',
                    'end', 'ok', 'ok', 'library a 400', 'library c 344', 'library b 344', 'end', 'refused L2 CutLine'], end=b'')]),
    ]


# The libraries a and b with a function f each, a's being weak, and the program that needs both and writes f's value
# into its last eight bytes, at 0x1c8.
WEAK_F = library(b'a', symbols=[Symbol(b'f', WEAK, FUNC, DEFINED)])
LATER_F = library(b'a', symbols=[Symbol(b'f', WEAK, FUNC, DEFINED, 4)])
STRONG_F = library(b'b', symbols=[Symbol(b'f', GLOBAL, FUNC, DEFINED)])
ASKING = library(None, needed=[b'a', b'b'], symbols=[Symbol(b'f')], relocations=[(R_64, 0, 1, 0)])
START = ['object 0x0000000000010000 /program', 'segment 0x0000000000010000 464 rw-']


def with_f(address, *order):
    """The lines of the image of ASKING: f's address is in its last line, and the names follow it, one page each."""
    word = '0' * 16 + address.to_bytes(8, 'little').hex()
    return START + [word] + [f'object 0x{0x11000 + 0x1000 * i:016x} {name}' for i, name in enumerate(order)] + ['end']


def needing(name, *needed):
    return library(name, needed=list(needed))


def binds():
    minimal, alone = of_folder('minimal.so'), image_lines('minimal.image')
    seven = [needing(b'p', b'c'), needing(b'a', b'c', b'd'), needing(b'b', b'd', b'e'), C, library(b'd'), library(b'e')]
    levels = needing(None, b'a', b'b')
    assert WEAK_F == of_folder('first.so') and ASKING == of_folder('asking.so')
    return [
        ("Binds against an empty registry: a program without needs, with digits in either case. A bind doesn't install the program.", [
            stored('script-bind-alone', 64, [bind(minimal), b'bind 0x0000000000010000 ' + spelt(minimal).upper(), b'list',
                                             bind(of_folder('linked.so'), 0x7f0000000000), b'list'],
                   alone + alone + ['end'] + image_lines('linked.image') + ['end'])]),
        ('Binds against installed libraries: seven objects in load order after a preload, in another order of installation.', [
            stored('script-bind-levels', 64, [install(file) for file in reversed(seven)] + [b'preload p', bind(levels)],
                   ['ok'] * 7 + image_lines('levels.image'))]),
        ("Each bind uses the current libraries. The first definition is a's; after the preload b it is b's; after a is replaced, it is "
         'the\n'
         "new a's; without b there is none of b; and b, installed again, comes last. No bind changes the listing.", [
            seen('script-bind-state', 64, [
                install(WEAK_F), install(STRONG_F), bind(ASKING), b'list', b'preload b', bind(ASKING), b'preload', replace(LATER_F),
                bind(ASKING), b'remove b', bind(ASKING), install(STRONG_F), bind(ASKING), b'list'],
                ['ok', 'ok'] + image_lines('first.image') + ['library a 376', 'library b 376', 'end', 'ok']
                + with_f(0x11170, 'b', 'a') + ['ok', 'ok'] + with_f(0x11174, 'a', 'b') + ['ok', 'refused B3 Missing /program b', 'ok']
                + with_f(0x11174, 'a', 'b') + ['library a 376', 'library b 376', 'end'])]),
        ("A library of two segments, with header types that aren't read; and a library with symbol versions, which is refused.", [
            stored('script-bind-segments', 64, [
                install(of_folder('w.so')), install(A), bind(needing(None, b'w', b'a')), replace(of_folder('w-verneed.so')), b'list'],
                ['ok', 'ok'] + image_lines('two-segments.image') + ['refused C1 E17 SymbolVersions', 'library w 4112', 'library a 344',
                                                                    'end'])]),
        ('A protected function of a library: the library itself takes it.', [
            stored('script-bind-protected', 64, [install(WEAK_F), install(of_folder('protected.so')), bind(ASKING)],
                   ['ok', 'ok'] + image_lines('protected.image'))]),
    ]


def placed(*names):
    """Returns the first lines of the objects of an image, in load order. Each object has one page."""
    return [f'object 0x{BASE + 0x1000 * i:016x} {name}' for i, name in enumerate(('/program',) + names)] + ['end']


def walks():
    """Registries: of each library its name, the names that it needs, and the number of sectors of its file; the
    preloads; the names that the program needs; and the answer to its bind, twice."""
    one = [('a', '', 1)]
    chain = [('a', 'b', 1), ('b', 'c', 1), ('c', 'd', 1), ('d', 'e', 1), ('e', '', 1)]
    levels = [('e', '', 1), ('d', '', 1), ('c', '', 3), ('b', 'de', 1), ('a', 'cd', 1), ('p', 'c', 1)]
    table = [
        ('A program that needs nothing, bound against an empty registry and against another one.', [
            ('nothing', [], '', '', placed()), ('unneeded', one, '', '', placed())]),
        ("A name that the program needs isn't installed; the same with other libraries installed; and a name that a library needs.", [
            ('absent', one, '', 'z', ['refused B3 Missing /program z']),
            ('absent-behind', [('a', 'ce', 1), ('b', '', 2)], '', 'adb', ['refused B3 Missing /program d'])]),
        ("Libraries that need one another in a row, and a third library that isn't needed.", [
            ('turned', [('a', '', 1), ('b', '', 2), ('c', '', 4)], '', 'ba', placed('b', 'a')),
            ('one-less', [('a', '', 1), ('b', '', 1), ('c', '', 1)], '', 'ab', placed('a', 'b'))]),
        ('A library that is needed twice, or by itself; a ring of libraries; and a chain of libraries to its end.', [
            ('twice', [('a', 'b', 1), ('b', 'ab', 1)], '', 'aa', placed('a', 'b')),
            ('ring', [('a', 'b', 1), ('b', 'c', 1), ('c', 'a', 1)], '', 'b', placed('b', 'c', 'a')),
            ('chain', chain, '', 'a', placed('a', 'b', 'c', 'd', 'e'))]),
        ('The order goes level by level after a preload that needs a library; only preloads, in their order; and preloads that are '
         'needed\n'
         'too.', [
            ('preload-needing', levels, 'p', 'ab', placed('p', 'a', 'b', 'c', 'd', 'e')),
            ('preloads-alone', [('a', '', 1), ('b', '', 2)], 'ba', '', placed('b', 'a')),
            ('preloads-needed', [('a', '', 1), ('b', 'a', 2), ('c', '', 1)], 'ca', 'ab', placed('c', 'a', 'b'))]),
        ('A preload lacks a library that it needs, after a preload that lacks none. The program lacks a library too, and that name is\n'
         'reported.', [
            ('preload-lacking', [('a', 'z', 1), ('b', 'a', 1)], 'ba', 'p', ['refused B3 Missing /program p'])]),
    ]
    return [(title, [walk(*row) for row in rows]) for title, rows in table]


def walk(name, libraries, preloads, needs, wanted):
    def named(letters):
        return [letter.encode() for letter in letters]
    lines = [install(padded(needing(library.encode(), *named(needed)), SECTOR * count)) for library, needed, count in libraries]
    asked = bind(needing(None, *named(needs)))
    text = [b'preload ' + b' '.join(named(preloads))] if preloads else []
    done = ['ok'] * (len(lines) + len(text))
    return seen(f'script-walk-{name}', 64, lines + text + [asked, asked], done + wanted + wanted)


def symbolic_binds():
    """The library a with a weak f, and the library b with its own f, a word of f, and an entry that is changed."""
    symbolic = of_folder('symbolic-b.so')
    entry = len(symbolic) - 16 - 32
    assert symbolic[entry:entry + 16] == bytes([16]) + bytes(15)
    def with_entry(tag, value):
        return symbolic[:entry] + tag.to_bytes(8, 'little') + value.to_bytes(8, 'little') + symbolic[entry + 16:]
    def b_word(word):
        return '0' * 16 + word.to_bytes(8, 'little').hex()
    own, other = b_word(0x121d0), b_word(0x11170)
    twice = build(Object(soname=b'b', entries=[(16, 0), (16, 0)]))[0]
    beside = [build(Object(soname=b'b', entries=[(16, 0), (tag, 0)]))[0] for tag in (17, 36)]
    program = build(Object(symbols=[Symbol(b'f', GLOBAL, FUNC, DEFINED)], relocations=[(R_64, 0, 1, 0)], entries=[(30, 2)], needed=[b'b']))[0]
    end = len(program) - 8
    assert end % 16 == 8
    return [
        ("A symbolic library among others takes its own f. Then a library replaces it whose flags make it symbolic, or don't, and one "
         'that\n'
         'is symbolic again.', [
            stored('script-bind-symbolic', 64, [install(WEAK_F), install(symbolic), bind(ASKING)], ['ok', 'ok'] + image_lines('symbolic.image')),
            seen('script-bind-flags', 64, [
                install(WEAK_F), install(with_entry(30, 8)), bind(ASKING), replace(with_entry(30, 2)), bind(ASKING), replace(with_entry(30, 0)),
                bind(ASKING), replace(with_entry(30, 10)), bind(ASKING), replace(symbolic), bind(ASKING), b'list'],
                ['ok', 'ok'] + with_f(0x11170, 'a', 'b')[:-1] + [other, 'end', 'ok'] + with_f(0x11170, 'a', 'b')[:-1] + [own, 'end', 'ok',
                 other, 'end', 'ok', own, 'end', 'ok', own, 'end', 'library a 376', f'library b {len(symbolic)}', 'end'])]),
        ('A symbolic preload, and a symbolic program. Their f is the first definition in any case.', [
            seen('script-symbolic-first', 64, [
                install(WEAK_F), install(symbolic), b'preload b', bind(ASKING), bind(program), b'preload', b'remove a', bind(program), bind(ASKING)],
                ['ok', 'ok', 'ok', b_word(0x111d0), b_word(0x111d0), 'end', 'object 0x0000000000010000 /program',
                 b_word(BASE + end), b_word(0x111d0), 'end', 'ok', 'ok', b_word(BASE + end), b_word(0x111d0), 'end',
                 'refused B3 Missing /program a'])]),
        ('Tags that occur twice, and tags of other relocations together with SYMBOLIC.', [
            stored('script-symbolic-refused', 64, [install(twice), install(beside[0]), install(symbolic), replace(beside[1]), replace(twice), b'list'],
                   ['refused C1 E16 DuplicateTag', 'refused C1 E18 UnsupportedTag', 'ok', 'refused C1 E18 UnsupportedTag',
                    'refused C1 E16 DuplicateTag', f'library b {len(symbolic)}', 'end'])]),
    ]


def refused_binds():
    minimal, top = of_folder('minimal.so'), 0x7ffffffff000
    pair = [Symbol(b'f', GLOBAL, FUNC, DEFINED), Symbol(b'f', GLOBAL, FUNC, DEFINED)]
    typed = library(None, relocations=[(37, 0, 0, 0)])
    changed = bytearray(minimal)
    changed[16] = 2
    asks_g = library(b'a', symbols=[Symbol(b'g')], relocations=[(R_64, 0, 1, 0)])
    files = [(ASKING, 'B3 Missing /program a'), (ASKING[:63], 'B1 E1 TooShort'), (ASKING[:64], 'B1 E10 BadProgramHeaders'),
             (ASKING[:65], 'B1 E10 BadProgramHeaders'), (ASKING[:463], 'B1 E12 BadSegment'), (bytes(changed), 'B1 E7 BadType'),
             (library(None, symbols=pair), 'B1 E28 DuplicateDefinition'), (typed, 'B1 E30 RelocationType 37')]
    needs_a, needs_b, asks = needing(None, b'a'), needing(b'a', b'b'), library(None, symbols=[Symbol(b'f')], relocations=[(R_64, 0, 1, 0)])
    return [
        ('A program that is bound against an empty registry, cuts of the program, and other files that are no programs.', [
            stored('script-bind-files', 64, [bind(file) for file, _ in files], [f'refused {told}' for _, told in files])]),
        ('The file is tested before the base.', [
            short(b'bind 0x1 00\n', 'refused B1 E1 TooShort'), short(b'bind 0x10001 7f454c46\n', 'refused B1 E1 TooShort')]),
        ('Bases, the limit of memory, names that are not installed, and symbols that no object defines. The base is tested before the\n'
         'needs, the needs before the room, and the room before the symbols.', [
            stored('script-bind-refused', 64, [
                bind(minimal, BASE + 1), bind(ASKING, BASE + 0x800), bind(minimal, top), bind(needs_a, top), bind(asks, top), bind(asks),
                install(needs_b), bind(needs_a), bind(ASKING), bind(needs_a, BASE + 8), b'remove a', install(asks_g), bind(needs_a),
                bind(needs_a, top - 0x1000), bind(needs_a, top), install(B), b'preload b', bind(asks), bind(minimal, top - 0x1000),
                b'list'],
                ['refused B2 BadBase', 'refused B2 BadBase', 'refused B4 NoRoom', 'refused B3 Missing /program a', 'refused B4 NoRoom',
                 'refused B5 Undefined /program f', 'ok', 'refused B3 Missing a b', 'refused B3 Missing /program b', 'refused B2 BadBase',
                 'ok', 'ok', 'refused B5 Undefined a g', 'refused B4 NoRoom', 'refused B4 NoRoom', 'ok', 'ok', 'refused B5 Undefined /program f',
                 'refused B4 NoRoom', 'library a 448', 'library b 344', 'preload b', 'end'])]),
        ('Names are printed as in an image: a blank, a byte above 0x7e, and the empty name.', [
            stored('script-bind-names', 64, [bind(needing(None, name)) for name in (b'a b', b'\xff\\', b'')],
                   ['refused B3 Missing /program a\\x20b', 'refused B3 Missing /program \\xff\\x5c', 'refused B3 Missing /program \\e']),
            stored('script-bind-bytes', 64, [bind(needing(None, name)) for name in (b'!~\x7f', b'\x01\x0a\x1f\xc3\xa9\xff', b'\\e')],
                   ['refused B3 Missing /program !~\\x7f', 'refused B3 Missing /program \\x01\\x0a\\x1f\\xc3\\xa9\\xff',
                    'refused B3 Missing /program \\x5ce'])]),
    ]


def bind_lines():
    return [
        ('A base of 1 to 16 digits in either case.', [short(line + b'\n', 'refused B1 E1 TooShort') for line in (
            b'bind 0x0 00', b'bind 0x10000 00', b'bind 0xaBcDeF 00', b'bind 0xffffffffffffffff 00', b'bind 0xFFFFFFFFFFFFFFFF fF')]),
        ('No base; a base without digits, of 17 digits, or without 0x; and a base with another character in it.', bad(
            b'bind', b'bind ', b'bind 00', b'bind 0x 00', b'bind 0x00000000000000000 00', b'bind 0x10000000000000000 00', b'bind 0X0 00',
            b'bind 0 00', b'bind 65536 00', b'bind 10000 00', b'bind 0xg 00', b'bind 0x+1 00', b'bind 0x-1 00', b'bind +0x1 00',
            b'bind -0x1 00', b'bind 0x1_0 00', b'bind 0x0x0 00', b'bind x0 00', b'bind 0x0\0 00', b'bind \xff 00', b'bind 0x\xef\xbc\x90 00',
            b'bind 0b1 00', b'bind 0x1h 00', b'bind 0x0. 00')),
        ('No program, half a byte, characters that are no digits, the words in the reverse order, and one word too many.', bad(
            b'bind 0x0', b'bind 0x0 ', b'bind 0x0 0', b'bind 0x0 000', b'bind 0x0 0g', b'bind 0x0 0x00', b'bind 0x0 00 00', b'bind 0x0 0 0',
            b'bind 00 0x0', b'bind 0x0 a', b'bind 0x0 /program', b'bind 0x0 \xef\xbc\x90\xef\xbc\x90')),
        ('Two spaces, a space at the beginning or at the end, tabs, a carriage return, and other words.', bad(
            b'bind  0x0 00', b'bind 0x0  00', b' bind 0x0 00', b'bind 0x0 00 ', b'bind 0x0 00\r', b'bind\t0x0 00', b'bind 0x0\t00',
            b'bind0x0 00', b'Bind 0x0 00', b'BIND 0x0 00', b'binds 0x0 00', b'bin 0x0 00', b'bind a 0x0 00', b'bind 0x0 00\0')),
        ('A bind that is cut isn\'t run.', [short(b'bind 0x0 00', 'refused L2 CutLine'), short(b'bind 0x0 ', 'refused L2 CutLine')]),
    ]


# The library a with another f, which has an absolute value, and the program that needs only a and writes f's value into
# its last eight bytes, at 0x1b8.
ABSOLUTE_F = library(b'a', symbols=[Symbol(b'f', WEAK, FUNC, ABSOLUTE, 0x1234)])
ASKING_A = library(None, needed=[b'a'], symbols=[Symbol(b'f')], relocations=[(R_64, 0, 1, 0)])


def image_of_a(f):
    """Returns the image of ASKING_A with a and with this value of f, without most lines of bytes."""
    return ['object 0x0000000000010000 /program', 'segment 0x0000000000010000 448 rw-', '0' * 16 + f.to_bytes(8, 'little').hex(),
            'object 0x0000000000011000 a', 'segment 0x0000000000011000 376 rw-', 'end']


def binders():
    """A disk of 8 sectors has room for two versions of a. Its catalogue counts twice."""
    assert len(ASKING_A) == 448 and len(WEAK_F) == len(ABSOLUTE_F) == 376
    other, own, last = replace(ABSOLUTE_F), image_of_a(0x11170), image_of_a(0x1234)
    start = [install(WEAK_F), begin(ASKING_A), other]
    steps, no_binder = [b'advance 0'] * 3, 'refused C8 NoSuchBinder'
    eight = [f'slot {slot}' for slot in range(8)]
    return [
        ("A binder has the library as it was when the binder began, and its image has that library. The library's sectors become free "
         'only\n'
         'when the binder ends.', [
            seen('script-binder', 8, start + [other] + steps + [other, bind(ASKING_A), b'advance 0'],
                 ['ok', 'slot 0', 'ok', 'refused S7 Full', 'going', 'going'] + own + ['ok'] + last + [no_binder])]),
        ('The same if a library is removed while a binder has it. A removal always has room.', [
            seen('script-binder-removed', 8, start + [b'remove a', other] + steps + [other, bind(ASKING_A)],
                 ['ok', 'slot 0', 'ok', 'ok', 'refused C3 NotInstalled', 'going', 'going'] + own
                 + ['refused C3 NotInstalled', 'refused B3 Missing /program a'])]),
        ('If a binder is cancelled, before its first step or after it, its sectors become free.', [
            seen('script-binder-cancelled', 8, start + [other, b'cancel 0', other, bind(ASKING_A), b'cancel 0'],
                 ['ok', 'slot 0', 'ok', 'refused S7 Full', 'ok', 'ok'] + last + [no_binder]),
            stored('script-binder-stepped', 8, start + [b'advance 0', b'advance 0', other, b'cancel 0', other, b'advance 0'],
                   ['ok', 'slot 0', 'ok', 'going', 'going', 'refused S7 Full', 'ok', 'ok', no_binder])]),
        ('A binder that exists at the end of its script.', [
            stored('script-binder-left', 8, start + [b'advance 0'], ['ok', 'slot 0', 'ok', 'going'])]),
        ('Eight binders exist at once. After a cancel, and after a last answer, the next binder gets the lowest free slot. The slots 8 '
         'and\n'
         "9 don't exist.", [
            stored('script-slots', 8, [begin(ASKING_A)] * 9 + [b'cancel 3', begin(ASKING_A)] + [b'advance 8', b'cancel 8', b'advance 9', b'cancel 9'],
                   eight + ['refused C7 NoSlot', 'ok', 'slot 3'] + [no_binder] * 4),
            stored('script-slots-freed', 8, [begin(b'\0')] * 3 + [b'advance 1', b'advance 1', b'cancel 1', b'cancel 0', begin(b'\0'), begin(b'\0'),
                                             begin(b'\0'), b'advance 2', b'advance 2', b'cancel 7', b'advance 7'],
                   eight[:3] + ['refused B1 E1 TooShort', no_binder, no_binder, 'ok', 'slot 0', 'slot 1', 'slot 3', 'refused B1 E1 TooShort',
                                no_binder, no_binder, no_binder])]),
        ('A program and its base are tested at the first step. A library that is missing, and a symbol that no object defines, are\n'
         'reported at the last step. A refusal frees the slot.', [
            stored('script-binder-refused', 64, [
                begin(ASKING[:63]), begin(ASKING_A, BASE + 1), begin(ASKING_A), begin(library(None, symbols=[Symbol(b'f')],
                relocations=[(R_64, 0, 1, 0)])), b'advance 0', b'advance 1', b'advance 2', b'advance 2', b'advance 3', b'advance 3',
                b'advance 0', b'advance 1', b'advance 2', b'advance 3'],
                eight[:4] + ['refused B1 E1 TooShort', 'refused B2 BadBase', 'going', 'refused B3 Missing /program a', 'going',
                             'refused B5 Undefined /program f'] + [no_binder] * 4)]),
        ('A slot that was freed by a last step, which made an image or a refusal, is used again, for the registry as it is then.', [
            seen('script-binder-again', 8, start + [other] + steps + [other, bind(ASKING_A), b'advance 0', b'remove a', begin(ASKING_A), b'advance 0',
                                                                      b'advance 0', b'cancel 0', begin(ASKING_A)],
                 ['ok', 'slot 0', 'ok', 'refused S7 Full', 'going', 'going'] + own + ['ok'] + last
                 + [no_binder, 'ok', 'slot 0', 'going', 'refused B3 Missing /program a', no_binder, 'slot 0'])]),
        ('A file that is no program, at any base, and a program at a bad base, in slots of their own: each is refused at its first step.\n'
         'The file is tested before the base.\n'
         'and the file before the base.', [
            stored('script-binder-tested', 8, [begin(bytes(64)), begin(b'\0', BASE + 1), begin(ASKING_A, BASE + 1), begin(ASKING_A)]
                   + [b'advance 0', b'advance 1', b'advance 2', b'advance 3', b'advance 3'],
                   eight[:4] + ['refused B1 E2 BadMagic', 'refused B1 E1 TooShort', 'refused B2 BadBase', 'going',
                                'refused B3 Missing /program a'])]),
        ('Three of eight binders are cancelled, one of them twice. Their slots are used again, the lowest first.', [
            stored('script-slots-lowest', 8, [install(WEAK_F)] + [begin(ASKING_A)] * 9 + [
                b'cancel 3', b'advance 3', b'cancel 3', begin(ASKING_A), b'cancel 6', b'cancel 1', begin(ASKING_A), begin(ASKING_A), begin(ASKING_A),
                b'advance 8', b'cancel 8'],
                ['ok'] + eight + ['refused C7 NoSlot', 'ok', no_binder, no_binder, 'slot 3', 'ok', 'ok', 'slot 1', 'slot 6', 'refused C7 NoSlot',
                                  no_binder, no_binder])]),
        ('A version of a library that eight binders have keeps its sectors until the last of these binders is cancelled, in two orders.', [
            stored(f'script-version-{name}', 8, [install(WEAK_F)] + [begin(ASKING_A)] * 8 + [other]
                   + [line for slot in order for line in (other, b'cancel %d' % slot)] + [other],
                   ['ok'] + eight + ['ok'] + ['refused S7 Full', 'ok'] * 8 + ['ok'])
            for name, order in (('in-order', range(8)), ('turned', (5, 0, 7, 2, 6, 1, 4, 3)))]),
        ('Binders of several states at the same time: of the first a, of the second a, and of no a.', [
            seen('script-binders', 64, [
                install(WEAK_F), begin(ASKING_A), other, begin(ASKING_A), b'remove a', begin(ASKING_A), b'advance 2', b'advance 1', b'advance 0',
                b'advance 1', b'advance 0', b'list', b'advance 1', b'advance 2', b'advance 0'],
                ['ok', 'slot 0', 'ok', 'slot 1', 'ok', 'slot 2'] + ['going'] * 5 + ['end'] + last + ['refused B3 Missing /program a'] + own)]),
    ]


def binder_lines():
    no_binder = 'refused C8 NoSuchBinder'
    return [
        ('A slot is one digit.', [short(line + b'%d\n' % slot, no_binder) for line in (b'advance ', b'cancel ') for slot in range(10)]),
        ('No slot; a slot of two digits, with a sign, a letter, a digit other than 0 to 9, or a hexadecimal digit.', bad(*(
            command + word for command in (b'advance', b'cancel')
            for word in (b'', b' ', b' 00', b' 01', b' 10', b' 99', b' +1', b' -1', b' a', b' f', b' x', b' 0x0', b' 1.', b' \xb2', b' /', b' :',
                         b' \xef\xbc\x91', b' 1\0')))),
        ('One slot too many, spaces, tabs, a carriage return, and other words.', bad(*(
            line for command in (b'advance', b'cancel')
            for line in (command + b' 0 0', command + b' 0 ', command + b'  0', b' ' + command + b' 0', command + b'\t0', command + b'0',
                         command + b' 0\r', command + b's 0', command.upper() + b' 0', command[:-1] + b' 0', b'0 ' + command)))),
        ("A base of 1 to 16 digits in either case. The program itself isn't tested yet.", [short(line + b'\n', 'slot 0') for line in (
            b'begin 0x0 00', b'begin 0x10001 00', b'begin 0xaBcDeF 00', b'begin 0xffffffffffffffff 00', b'begin 0xFFFFFFFFFFFFFFFF fF')]),
        ('No base; a base without digits, of 17 digits, or without 0x; and a base with another character in it.', bad(
            b'begin', b'begin ', b'begin 00', b'begin 0x 00', b'begin 0x00000000000000000 00', b'begin 0x10000000000000000 00', b'begin 0X0 00',
            b'begin 0 00', b'begin 65536 00', b'begin 0xg 00', b'begin 0x+1 00', b'begin -0x1 00', b'begin 0x1_0 00')),
        ('No program, half a byte, characters that are no digits, the words in the reverse order, and one word too many.', bad(
            b'begin 0x0', b'begin 0x0 ', b'begin 0x0 0', b'begin 0x0 000', b'begin 0x0 0g', b'begin 0x0 0x00', b'begin 0x0 00 00',
            b'begin 0x0 0 0', b'begin 00 0x0', b'begin 0x0 /program')),
        ('Two spaces, a space at the beginning or at the end, tabs, a carriage return, and other words.', bad(
            b'begin  0x0 00', b'begin 0x0  00', b' begin 0x0 00', b'begin 0x0 00 ', b'begin 0x0 00\r', b'begin\t0x0 00', b'begin 0x0\t00',
            b'begin0x0 00', b'Begin 0x0 00', b'BEGIN 0x0 00', b'begins 0x0 00', b'begi 0x0 00', b'begin 0 0x0 00', b'begin 0x0 00\0')),
        ('A line that is cut isn\'t run.', [short(line, 'refused L2 CutLine') for line in (b'begin 0x0 00', b'advance 0', b'cancel 0')]),
    ]


def sessions():
    """The example in full: a library with its program, a preload that replaces it, and the state without the
    library."""
    return [('A whole script: libraries, a program, a preload, a new version of a library, lines that are refused, and a last line that '
             'is\n'
             'cut.', [
        seen('script-session', 64, [
            b'list', install(WEAK_F), install(STRONG_F), install(WEAK_F), b'list', bind(ASKING), b'preload b', b'remove b', bind(ASKING),
            b'preload', replace(padded(LATER_F, 1000)), b'list', bind(ASKING, 0x7f0000000000), b'bind 10000 00', bind(ASKING[:63]), b'remove b',
            bind(ASKING), b'remove a', b'list', b'list'],
            ['end', 'ok', 'ok', 'refused C2 AlreadyInstalled', 'library a 376', 'library b 376', 'end'] + with_f(0x11170, 'a', 'b')
            + ['ok', 'refused C4 InPreloads'] + with_f(0x11170, 'b', 'a') + ['ok', 'ok', 'library a 1000', 'library b 376', 'end',
               'object 0x00007f0000000000 /program', 'segment 0x00007f0000000000 464 rw-', '0000000000000000741100000' + '07f0000',
               'object 0x00007f0000001000 a', 'object 0x00007f0000002000 b', 'end', 'refused L1 BadLine', 'refused B1 E1 TooShort', 'ok',
               'refused B3 Missing /program b', 'ok', 'end', 'refused L2 CutLine'], end=b'')])]


def wrong():
    """Cases that are wrong on purpose. They have to differ from the right ones."""
    line = 'script 64 script-commands.script =/>'
    whole = (DATA / 'script-commands.output').stat().st_size
    return [('These cases are wrong on purpose. Another number of lines or of refusals, an output that lacks a byte, the output of '
             'another\n'
             'script, and no output.', [
        f'{line} 10 5 file script-commands.output', f'{line} 12 5 file script-commands.output',
        f'{line} 11 4 file script-commands.output', f'{line} 11 6 file script-commands.output', f'{line} 5 11 file script-commands.output',
        f'{line} 11 5 file script-commands.output cut={whole - 1}', f'{line} 11 5 file script-order.output', f'{line} 11 5 nothing',
        'script 64 script-full.script =/> 11 4 file script-full.output', 'script 8 bytes=6c6973740a =/> 1 0 ok'])]


if __name__ == '__main__':
    write_list('scripts.txt', rows() + bad_lines() + many_libraries() + sectors() + refusals() + binds() + walks() + symbolic_binds()
               + refused_binds() + bind_lines() + binders() + binder_lines() + sessions() + wrong())

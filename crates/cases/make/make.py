#!/usr/bin/env python3
"""Writes the lists and the files of `data/` that aren't written by hand.

    python3 crates/cases/make/make.py

Expected answers come from `rules.py`, a second reading of the rules; if a table below has an answer that was
determined by hand, the two have to agree. No answer comes from the program.
"""

import struct
from pathlib import Path

import rules
from samples import (
    ABSOLUTE, DEFINED, FUNC, GLOBAL, HIDDEN, LOCAL, OBJECT, PROTECTED, R_64, R_GLOB_DAT, R_RELATIVE, UNDEFINED, WEAK,
    Object, Symbol, build, program_header)

DATA = Path(__file__).resolve().parent.parent / 'data'
BASE = 0x10000


class Case:
    """A file of the folder with changes, as a case names it."""

    def __init__(self, name, *changes):
        self.name, self.changes = name, list(changes)

    def __str__(self):
        return ' '.join([self.name] + [spelt(change) for change in self.changes])

    def bytes(self):
        data = bytearray((DATA / self.name).read_bytes())
        for what, value in self.changes:
            if what == 'cut':
                del data[value:]
            elif what == 'pad':
                data += bytes(value - len(data))
            else:
                assert what + len(value) <= len(data), (self.name, hex(what))
                data[what:what + len(value)] = value
        return bytes(data)


def spelt(change):
    what, value = change
    return f'{what}={value}' if what in ('cut', 'pad') else f'0x{what:x}={value.hex()}'


def u8(*values):
    return bytes(values)


def u32(value):
    return struct.pack('<I', value)


def u64(value):
    return struct.pack('<Q', value)


ALL = b'\xff' * 8


def write_list(name, parts):
    """Writes a list. Each part is a comment and its lines."""
    blocks = ['\n'.join([f'# {line}' for line in comment.splitlines()] + lines) for comment, lines in parts]
    (DATA / name).write_text('\n\n'.join(blocks) + '\n')


def write_text(name, data, base=BASE):
    text = rules.image_text(data, base)
    assert not text.startswith('refused'), (name, text)
    (DATA / name).write_text(text)


def differences(old, new):
    """Returns the changes that make one text another text of the same length."""
    assert len(old) == len(new)
    changes, k = [], 0
    while k < len(new):
        if old[k] == new[k]:
            k += 1
            continue
        end = k
        while end < len(new) and old[end] != new[end]:
            end += 1
        changes.append((k, new[k:end].encode()))
        k = end
    return changes


def as_answer(text, near='minimal.image'):
    """Returns a text as the answer of a case: its only line, or the text of a file with changes."""
    if text.count('\n') == 1:
        return text[:-1]
    old = (DATA / near).read_text()
    return ' '.join([f'file {near}'] + [spelt(change) for change in differences(old, text)])


def image(file, base=BASE, near='minimal.image', wanted=None):
    """Returns a case of `image`. `wanted` is the refusal that was determined by hand."""
    text = rules.image_text(file.bytes(), base)
    if wanted is not None:
        assert text == f'refused {wanted}\n', (str(file), hex(base), wanted, text)
    return f'image {file} 0x{base:x} => {as_answer(text, near)}'


def byte(file, base, address, wanted):
    """Returns a case of `byte`. `wanted` is the byte that was determined by hand, or None."""
    assert rules.memory(file.bytes(), base).get(address) == wanted, (str(file), hex(address))
    return f"byte {file} 0x{base:x} 0x{address:x} => {'none' if wanted is None else f'{wanted:02x}'}"


# Changes of minimal.so, and the first refusal of each.
CHANGES = [
    ([(0x00, u8(0x00))], 'E2 BadMagic'), ([(0x03, u8(0x47))], 'E2 BadMagic'),
    ([(0x04, u8(0x01))], 'E3 BadClass'), ([(0x05, u8(0x02))], 'E4 BadData'),
    ([(0x06, u8(0x00))], 'E5 BadVersion'), ([(0x14, u8(0x02))], 'E5 BadVersion'),
    ([(0x07, u8(0x09))], 'E6 BadOsAbi'), ([(0x10, u8(0x02))], 'E7 BadType'), ([(0x12, u8(0x28))], 'E8 BadMachine'),
    ([(0x34, u8(0x41))], 'E9 BadHeaderSize'), ([(0x36, u8(0x20))], 'E9 BadHeaderSize'),
    ([(0x38, u8(0x00))], 'E10 BadProgramHeaders'), ([(0x38, u8(0xff, 0xff))], 'E10 BadProgramHeaders'),
    ([(0x38, u8(0x08))], 'E10 BadProgramHeaders'), ([(0x20, u64(0xfffffffffffffff0))], 'E10 BadProgramHeaders'),
    ([(0x78, u8(0x07))], 'E11 TlsSegment'),
    ([(0x40, u8(0x06))], 'E12 BadSegment'), ([(0x40, u8(0x02))], 'E12 BadSegment'),
    ([(0x60, u8(0x91))], 'E12 BadSegment'), ([(0x68, u8(0x8f))], 'E12 BadSegment'),
    ([(0x70, u8(0x01, 0x10))], 'E12 BadSegment'), ([(0x50, u8(0x01))], 'E12 BadSegment'),
    ([(0x48, ALL), (0x70, u8(0x01, 0x00))], 'E12 BadSegment'),
    ([(0x6b, u8(0x04))], 'E13 TooLarge'), ([(0x68, ALL)], 'E13 TooLarge'),
    ([(0x50, u64(0xfffffffffffff000))], 'E13 TooLarge'), ([('pad', 17825792)], 'E13 TooLarge'),
    ([('pad', 16777217)], 'E13 TooLarge'),
    ([(0x78, u8(0x01))], 'E14 SegmentOrder'),
    ([(0x78, u8(0x06))], 'E15 BadDynamic'), ([(0x98, u8(0x99))], 'E15 BadDynamic'),
    ([(0x98, u8(0x80))], 'E15 BadDynamic'),
    ([(0xf8, u8(0x07))], 'E16 DuplicateTag'), ([(0x148, u8(0x09))], 'E16 DuplicateTag'),
    ([(0x158, u8(0x15))], 'E20 MissingTag'), ([(0x168, u8(0x15))], 'E20 MissingTag'),
    ([(0x160, u8(0x17))], 'E21 BadEntrySize'), ([(0x170, u8(0x10))], 'E21 BadEntrySize'),
    ([(0x161, u8(0x03))], 'E22 BadRange'), ([(0x151, u8(0x10))], 'E22 BadRange'),
    ([(0xe8, u8(0x25))], 'E30 RelocationType 37'),
    ([(0xe0, u8(0x89))], 'E32 RelocationPlace'), ([(0xe0, ALL)], 'E32 RelocationPlace'),
]

# If two changes are made, the earlier test refuses the file.
FIRST_OF_TWO = [
    ([(0x00, u8(0x00)), (0x04, u8(0x01))], 'E2 BadMagic'), ([(0x04, u8(0x01)), (0x05, u8(0x02))], 'E3 BadClass'),
    ([(0x05, u8(0x02)), (0x06, u8(0x00))], 'E4 BadData'), ([(0x14, u8(0x02)), (0x07, u8(0x09))], 'E5 BadVersion'),
    ([(0x07, u8(0x09)), (0x10, u8(0x02))], 'E6 BadOsAbi'), ([(0x10, u8(0x02)), (0x12, u8(0x28))], 'E7 BadType'),
    ([(0x12, u8(0x28)), (0x34, u8(0x41))], 'E8 BadMachine'),
    ([(0x36, u8(0x20)), (0x38, u8(0x00))], 'E9 BadHeaderSize'),
    ([(0x78, u8(0x07)), (0x60, u8(0x91))], 'E11 TlsSegment'), ([(0x60, u8(0x91)), (0x6b, u8(0x04))], 'E12 BadSegment'),
    ([(0x6b, u8(0x04)), (0x78, u8(0x01))], 'E13 TooLarge'), ([(0x78, u8(0x01)), (0xf8, u8(0x07))], 'E14 SegmentOrder'),
    ([(0x78, u8(0x06)), (0xe8, u8(0x25))], 'E15 BadDynamic'), ([(0xf8, u8(0x07)), (0x170, u8(0x10))], 'E16 DuplicateTag'),
    ([(0xf8, u32(0x6ffffff0)), (0x108, u8(0x11))], 'E17 SymbolVersions'), ([(0xf8, u8(0x11)), (0x158, u8(0x15))], 'E18 UnsupportedTag'),
    ([(0xf8, u8(0x15)), (0x158, u8(0x15))], 'E19 NoHashTable'), ([(0x158, u8(0x15)), (0x140, u8(0x10))], 'E20 MissingTag'),
    ([(0x140, u8(0x10)), (0x151, u8(0x10))], 'E21 BadEntrySize'), ([(0x160, u8(0x17)), (0x151, u8(0x10))], 'E21 BadEntrySize'),
    ([(0x151, u8(0x10)), (0x130, u8(0x00))], 'E22 BadRange'), ([(0x130, u8(0x00)), (0xe8, u8(0x25))], 'E23 BadString'),
    ([(0xe8, u8(0x25)), (0xe0, u8(0x89))], 'E30 RelocationType 37'),
    ([(0xe8, u8(0x01)), (0xec, u8(0x01)), (0xe0, u8(0x89))], 'E31 RelocationSymbol'),
    ([(0xe0, u8(0x89)), (0xb0, u8(0x00))], 'E32 RelocationPlace'),
]

# Changes that no test refuses, with the reason.
ACCEPTED = [
    ('the OS ABI of GNU', [(0x07, u8(0x03))]),
    ('an alignment of 0', [(0x70, u8(0x00, 0x00))]),
    ('a table of relocations without entries', [(0x160, u8(0x00))]),
]


def minimal(*changes):
    return Case('minimal.so', *changes)


def changes():
    write_list('changes.txt', [
        ('One change each of minimal.so, in the order of the tests, and the first refusal.',
         [image(minimal(*change), wanted='B1 ' + refusal) for change, refusal in CHANGES]),
        ('Two changes: the test that comes first refuses the file.',
         [image(minimal(*change), wanted='B1 ' + refusal) for change, refusal in FIRST_OF_TWO]),
    ] + [(f'Accepted: {what}.', [image(minimal(*change))]) for what, change in ACCEPTED] + [
        ('A table that JMPREL places needs PLTRELSZ and PLTREL. Without JMPREL these two are ignored, and so are other tags.', tags())])


def tags():
    """Cases of a program with one more entry, of a tag that isn't read."""
    file, at = build(Object(relocations=[(R_RELATIVE, 0, 0, 0x2000)], entries=[(0x15, 7)]))
    (DATA / 'entry.so').write_bytes(file)
    write_text('entry.image', file)
    tag = at['dynamic'] + 8 * 16
    assert file[tag] == 0x15
    return [image(Case('entry.so'), near='entry.image'), image(Case('entry.so', (tag, u8(0x14))), near='entry.image'),
            image(Case('entry.so', (tag, u8(0x02))), near='entry.image'),
            image(Case('entry.so', (tag, u8(0x17))), wanted='B1 E20 MissingTag')]


def cuts():
    def wanted(length):
        return 'B1 ' + ('E1 TooShort' if length < 64 else 'E10 BadProgramHeaders' if length < 176 else 'E12 BadSegment')
    for length in range(400):
        image(minimal(('cut', length)), wanted=wanted(length))
    write_list('cuts.txt', [('Every cut of minimal.so.', [
        f'image minimal.so cut={first}..{last} 0x10000 => refused {wanted(first)}'
        for first, last in ((0, 63), (64, 175), (176, 399))])])


def bases():
    def row(base, wanted=None):
        return image(minimal(), base, wanted=wanted)
    limit = 0x7fffffffe000
    write_list('bases.txt', [
        ('A base has to be a multiple of the unit, which is 4,096 here.', [
            row(0), row(0x10000), row(0xabcdef00000), row(0x10001, 'B2 BadBase'), row(0x10800, 'B2 BadBase'),
            row(0x7ffffffff001, 'B2 BadBase'), row(0xffffffffffffffff, 'B2 BadBase')]),
        ('The memory of the program has to end at or below 2^47 - 4,096.', [
            row(limit), row(0x7ffffffff000, 'B4 NoRoom'), row(0xfffffffffffff000, 'B4 NoRoom')]),
        ('The file is tested before the base.', [
            f'image bytes=7f454c46 0x1 => refused B1 E1 TooShort', f'image bytes= 0x1 => refused B1 E1 TooShort']),
        ('Memory that ends at the limit, and memory that ends one byte above it.', [
            image(minimal((0x68, u64(0x1000))), limit, near='page.image'),
            image(minimal((0x68, u64(0x1001))), limit, wanted='B4 NoRoom')]),
        ('The largest memory has 64 MiB: its last byte, the byte after it, and a memory of one byte more. The second reading (rules.py)\n'
         'has no room for it.', [
            'byte minimal.so 0x68=0000000400000000 0x10000 0x400ffff => 00', 'byte minimal.so 0x68=0000000400000000 0x10000 0x4010000 => none',
            image(minimal((0x68, u64(0x4000001))), wanted='B1 E13 TooLarge')]),
        ('A unit of 0x2000, which is the greatest alignment. A base that is a multiple of only the page size is refused.', [
            image(minimal((0x70, u64(0x2000))), 0x11000, wanted='B2 BadBase'),
            image(minimal((0x70, u64(0x2000))), 0x12000)]),
    ])


# Five program headers after the sample: the sample's own two; one of six bytes at 0x2001, four of which come from
# the file; one without bytes; and one of a byte at 0x2007 without permissions, but with other flags.
SEGMENTS = [
    program_header(1, 6, 0, 0, 0x190, 0x190, 0x1000), program_header(2, 6, 0xf8, 0xf8, 0x90, 0x90, 8),
    program_header(1, 5, 0, 0x2001, 4, 6, 0), program_header(1, 7, 0, 0x2007, 0, 0, 0),
    program_header(1, 0xfffffff8, 0, 0x2007, 0, 1, 0)]

FLAGS = [(0, '---'), (1, '--x'), (2, '-w-'), (4, 'r--'), (5, 'r-x'), (6, 'rw-'), (7, 'rwx'), (0xfffffff8, '---'),
         (0x8000000f, 'rwx')]


def segments():
    own = bytearray((DATA / 'minimal.so').read_bytes())
    own[0x20:0x28], own[0x38] = u64(0x190), 5
    (DATA / 'segments.so').write_bytes(bytes(own) + b''.join(SEGMENTS))
    write_text('segments.image', (DATA / 'segments.so').read_bytes())
    text = (DATA / 'segments.image').read_text().splitlines()
    assert text[-5:] == ['segment 0x0000000000012001 6 r-x', '7f454c460000', 'segment 0x0000000000012007 1 ---', '00', 'end']
    file = Case('segments.so')
    held = [(0x1018f, 0), (0x10190, None), (0x12000, None), (0x12001, 0x7f), (0x12004, 0x46), (0x12005, 0),
            (0x12006, 0), (0x12007, 0), (0x12008, None)]
    for flags, letters in FLAGS:
        assert rules.image_text(minimal((0x44, u32(flags))).bytes(), BASE).splitlines()[1].endswith(' ' + letters)
    write_list('permissions.txt', [
        ('Each segment with memory is printed; the others are not.', [image(file, near='segments.image')]),
        ('Bytes at the edges of these segments.', [byte(file, BASE, *row) for row in held]),
        ('The three low bits of p_flags, as letters; other bits are ignored.', [
            image(minimal((0x44, u32(flags)))) for flags, _ in FLAGS]),
    ])


def jmprel_after_rela():
    """The overlapping program with its first relocation in DT_JMPREL, and its second in DT_RELA."""
    o = Object(relocations=[(R_RELATIVE, 0, 0, 0x2000), (R_RELATIVE, 4, 0, 0x3000)], data=16,
               entries=[(23, 0), (2, 24), (20, 7)])
    file, at = build(o)
    o.entries[0] = (23, at['relocations'])
    file = bytearray(build(o)[0])
    entries = {file[k]: k + 8 for k in range(at['dynamic'], at['data'], 16)}
    file[entries[7]:entries[7] + 8], file[entries[8]:entries[8] + 8] = u64(at['relocations'] + 24), u64(24)
    (DATA / 'jmprel.so').write_bytes(bytes(file))
    write_text('jmprel.image', bytes(file))
    return Case('jmprel.so')


def relocations():
    held = [(0, None), (0xffff, None), (0x10000, 0x7f), (0x10188, 0), (0x10189, 0x20), (0x1018a, 1), (0x1018f, 0),
            (0x10190, None), (0xffffffffffffffff, None)]
    overlapping, _ = build(Object(relocations=[(R_RELATIVE, 0, 0, 0x2000), (R_RELATIVE, 4, 0, 0x3000)], data=16))
    (DATA / 'overlapping.so').write_bytes(overlapping)
    later = jmprel_after_rela()
    write_text('minimal.image', minimal().bytes())
    write_text('overlapping.image', overlapping)
    write_text('tail.image', minimal((0x68, u8(0xa0)), (0xe0, u8(0x98))).bytes())
    write_text('page.image', minimal((0x68, u64(0x1000))).bytes(), 0x7fffffffe000)
    # These lines were determined by hand.
    assert (DATA / 'minimal.image').read_text().endswith('\n00000000000000000020010000000000\nend\n')
    assert (DATA / 'tail.image').read_text().endswith('\n00000000000000000020010000000000\nend\n')
    assert 'segment 0x0000000000010000 416 rw-\n' in (DATA / 'tail.image').read_text()
    assert (DATA / 'overlapping.image').read_text().endswith('\n00200100003001000000000000000000\nend\n')
    assert rules.image_text(later.bytes(), BASE).endswith('\n00200100000000000000000000000000\nend\n')
    write_list('relocations.txt', [
        ('A relocation writes base + addend, eight bytes, little endian.', [image(minimal())]),
        ('Bytes at the edges of the image and of that word.', [byte(minimal(), BASE, *row) for row in held]),
        ('A relocation of the type NONE writes nothing.', [image(minimal((0xe8, u8(0))))]),
        ("A place after the file's bytes: the last possible place, and one byte later.", [
            image(minimal((0x68, u8(0xa0)), (0xe0, u8(0x98))), near='tail.image'),
            image(minimal((0x68, u8(0xa0)), (0xe0, u8(0x99))), wanted='B1 E32 RelocationPlace')]),
        ('An addend of -8, and an addend that makes the sum wrap.', [
            image(minimal((0xf0, u64(2**64 - 8)))), image(minimal((0xf0, u64(2**64 - 0x10000))))]),
        ('If two relocations overlap, the later one determines the bytes that both write.', [
            image(Case('overlapping.so'), near='overlapping.image')]),
        ('The relocations of DT_JMPREL come after those of DT_RELA. The first relocation is in DT_JMPREL, and overwrites the second.', [
            image(later, near='jmprel.image')]),
        ("A program that was linked by the system's linker. make/linked.c has its text, and describes how it was made.", [
            image(Case('linked.so'), 0x7f0000000000, near='linked.image')]),
    ])


def words():
    lines = lambda *rows: [f'words{row} => {wanted}' for row, wanted in rows]
    bad, base = '2 error rlibreg: bad command line', '2 error rlibreg: bad base'
    high = as_answer(rules.image_text(minimal().bytes(), 0xabcdef00000))
    write_list('words.txt', [
        ('An image ends with status 0. BASE has one to sixteen digits of either case.', lines(
            (' image minimal.so 0x10000', '0 file minimal.image'), (' image minimal.so 0x0000000000010000', '0 file minimal.image'),
            (' image minimal.so 0xABCDEF00000', '0 ' + high), (' image minimal.so 0xabcdef00000', '0 ' + high),
            (' image minimal.so 0x0', '0 ' + as_answer(rules.image_text(minimal().bytes(), 0))))),
        ('A refusal ends with status 1, and goes to standard output.', lines(
            (' image minimal.so 0x10001', '1 refused B2 BadBase'), (' image minimal.so 0x7ffffffff000', '1 refused B4 NoRoom'),
            (' image minimal.so 0xffffffffffffffff', '1 refused B2 BadBase'),
            (' image minimal.image 0x10000', '1 refused B1 E2 BadMagic'), (' image empty 0x10000', '1 refused B1 E1 TooShort'))),
        ('Words that are no command end with status 2.', lines(
            ('', bad), (' ', bad), ('   ', bad), (' image', bad), (' image minimal.so', bad),
            (' image minimal.so 0x10000 more', bad), (' image minimal.so 0x10000 ', bad), (' Image minimal.so 0x10000', bad),
            (' imag minimal.so 0x10000', bad), (' images minimal.so 0x10000', bad), (' minimal.so 0x10000 image', bad))),
        ('A base with a bad form ends with status 2, before any file is opened.', lines(*[
            (f' image no-such-file {word}', base) for word in (
                '', '0x', '0X10', '10000', 'x10000', '0x+1', '0x-1', '0x1g', '0x_1', '0x00000000000010000', '0x10000é')])),
        ("A file that can't be read ends with status 3.", lines(
            (' image no-such-file 0x10000', '3 error rlibreg: cannot read no-such-file'),
            (' image . 0x10000', '3 error rlibreg: cannot read .'), (' image minimal.so/none 0x10000', '3 error rlibreg: cannot read minimal.so/none'),
            (' image  0x10000', '3 error rlibreg: cannot read '),
            (' image no-such-file 0x10001', '3 error rlibreg: cannot read no-such-file'))),
        ('A file of 17 MiB, which is longer than a program may be, is read whole, and then refused.', [
            'on minimal.so pad=17825792 run image disk 0x10000 => 1 refused B1 E13 TooLarge then same']),
    ])
    (DATA / 'empty').write_bytes(b'')


def wrong():
    text = as_answer(rules.image_text(minimal((0xe8, u8(0))).bytes(), BASE))
    write_list('wrong.txt', [
        ('These cases are wrong on purpose, and the runner has to notice each difference. Another refusal, another text, another file, '
         'no\n'
         'text.', [
            'image minimal.so 0x10001 =/> refused B4 NoRoom', 'image minimal.so 0x34=41 0x10000 =/> refused B1 E9 BadHeader',
            'image minimal.so 0x34=41 0x10000 =/> refused B1 E9 BadHeaderSizes', 'image minimal.so 0x10000 =/> file linked.image',
            f'image minimal.so 0x10000 =/> {text}', 'image minimal.so 0x10000 =/> file minimal.image cut=898',
            'image minimal.so 0x10000 =/> nothing', 'image minimal.so 0x10000 =/> refused B2 BadBase']),
        ('Another byte, and no byte where there is one.', [
            'byte minimal.so 0x10000 0x10000 =/> 45', 'byte minimal.so 0x10000 0x10000 =/> none',
            'byte minimal.so 0x10000 0x10190 =/> 00']),
        ('Another answer of an admission, another name, another symbol, another count, another hash.', [
            'admit minimal.so =/> refused E29 BadHashTable', 'admit minimal.so 0xb0=00 =/> admitted', 'library q.so =/> library p',
            'library minimal.so =/> refused E32 RelocationPlace', 'find q.so f =/> none of 1', 'find q.so f =/> 2 of 1',
            'find q.so f =/> 1 of 2', 'hash a =/> 0x62']),
        ('Another SONAME, another symbol, and a view that is cut.', [
            'view real-other.so =/> file real-third.view', 'view real-ld-sysv.so =/> file real-ld-both.view',
            f'view real-other.so =/> file real-other.view cut={(DATA / "real-other.view").stat().st_size - 1}']),
        ('Another status, another text, and the other stream.', [
            'words image minimal.so 0x10001 =/> 0 refused B2 BadBase', 'words image minimal.so 0x10001 =/> 1 refused B4 NoRoom',
            'words image minimal.so 0x10001 =/> 1 error refused B2 BadBase', 'words image minimal.so =/> 2 rlibreg: bad command line',
            'words image minimal.so =/> 3 error rlibreg: bad command line', 'words image minimal.so =/> 2 nothing']),
    ])


if __name__ == '__main__':
    (DATA / 'minimal.so').write_bytes(build(Object(relocations=[(R_RELATIVE, 0, 0, 0x2000)]))[0])
    relocations()
    changes()
    cuts()
    bases()
    segments()
    words()
    wrong()

#!/usr/bin/env python3
"""Writes the lists of symbols, strings and hash tables: `admission-*.txt`, and the files that they name.

    python3 crates/cases/make/admission.py
"""

import rules
from make import ALL, BASE, DATA, Case, byte, spelt, u32, u64, u8, write_list
from samples import (
    ABSOLUTE, DEFINED, FUNC, GLOBAL, HIDDEN, INTERNAL, LOCAL, NOTYPE, OBJECT, PROTECTED, R_64, R_GLOB_DAT,
    R_JUMP_SLOT, R_RELATIVE, UNDEFINED, WEAK, Object, Symbol, build, program_header)


def made(name, o):
    """Writes an object. Returns its case, and the places at which its parts begin."""
    data, at = build(o)
    (DATA / name).write_bytes(data)
    return Case(name), at


def changed(case, *changes):
    return Case(case.name, *case.changes, *changes)


def image(file, base=BASE, wanted=None):
    text = rules.image_text(file.bytes(), base)
    assert text.startswith('refused'), str(file)
    assert wanted is None or text == f'refused {wanted}\n', (str(file), wanted, text)
    return f'image {file} 0x{base:x} => {text[:-1]}'


def bound(file, answer):
    """A program that is bound. The second reading determines the text of its image."""
    text = rules.image_text(file.bytes(), BASE)
    assert not text.startswith('refused'), (str(file), text)
    (DATA / answer).write_text(text)
    return f'image {file} 0x{BASE:x} => file {answer}'


def admit(file, wanted=None):
    """A case of whether a file is admitted. `wanted` was determined by hand: it is the refusal, or '' for no
    refusal."""
    refusal = rules.admitted_refusal(file.bytes())
    assert wanted is None or (refusal or '') == wanted, (str(file), wanted, refusal)
    return f"admit {file} => {'refused ' + refusal if refusal else 'admitted'}"


def library(file, wanted=None):
    """A case of whether a file is a library, and of its name."""
    refusal = rules.library_refusal(file.bytes())
    assert wanted is None or (refusal or '') == wanted, (str(file), wanted, refusal)
    if refusal:
        return f'library {file} => refused {refusal}'
    elf = rules.Elf(file.bytes())
    return f'library {file} => library {rules.printed_name(elf.string(elf.value(rules.SONAME)))}'


def find(file, name, wanted=None):
    found = rules.find(file.bytes(), name)
    assert wanted is None or found == (wanted or None), (str(file), name, wanted, found)
    word = name.decode() if name.isalnum() else 'bytes=' + name.hex()
    count = rules.compared(file.bytes(), name)
    return f"find {file} {word} => {'none' if found is None else found} of {count}"


# Changes of minimal.so that are refused, as a program, only if the whole file is read.
TABLE = [
    ([(0xf8, u8(0x05))], 'E16 DuplicateTag'), ([(0xf8, u32(0x6ffffff0))], 'E17 SymbolVersions'),
    ([(0xf8, u32(0x6ffffffc))], 'E17 SymbolVersions'), ([(0xf8, u32(0x6ffffffe))], 'E17 SymbolVersions'),
    ([(0xf8, u8(0x11))], 'E18 UnsupportedTag'), ([(0xf8, u8(0x24))], 'E18 UnsupportedTag'),
    ([(0xf8, u8(0x15))], 'E19 NoHashTable'), ([(0xf8, u8(0x01))], 'E19 NoHashTable'),
    ([(0x108, u8(0x15))], 'E20 MissingTag'), ([(0x118, u8(0x15))], 'E20 MissingTag'),
    ([(0x128, u8(0x15))], 'E20 MissingTag'), ([(0x138, u8(0x15))], 'E20 MissingTag'),
    ([(0x140, u8(0x10))], 'E21 BadEntrySize'), ([(0x111, u8(0x02))], 'E22 BadRange'),
    ([(0x130, u8(0x00))], 'E23 BadString'), ([(0xe8, u8(0x25))], 'E30 RelocationType 37'),
    ([(0xe8, u8(0x01)), (0xec, u8(0x01))], 'E31 RelocationSymbol'), ([(0xe0, u8(0x89))], 'E32 RelocationPlace'),
    ([(0xb0, u8(0x00))], 'E29 BadHashTable'),
]

# Tags of two extra entries and their values, and the first refusal of an object that has them.
NULL, SYMBOLIC, REL, DEBUG, FLAGS, RELR, VERNEED = 0, 16, 17, 21, 30, 36, 0x6ffffffe
PAIRS = [
    ([(SYMBOLIC, 0), (SYMBOLIC, 0)], 'E16 DuplicateTag'), ([(SYMBOLIC, 0), (SYMBOLIC, 1)], 'E16 DuplicateTag'),
    ([(FLAGS, 2), (FLAGS, 2)], 'E16 DuplicateTag'), ([(FLAGS, 0), (FLAGS, 2)], 'E16 DuplicateTag'),
    ([(FLAGS, 2), (FLAGS, 0)], 'E16 DuplicateTag'),
    ([(SYMBOLIC, 0), (VERNEED, 0)], 'E17 SymbolVersions'), ([(FLAGS, 2), (VERNEED, 0)], 'E17 SymbolVersions'),
    ([(SYMBOLIC, 0), (REL, 0)], 'E18 UnsupportedTag'), ([(REL, 0), (SYMBOLIC, 0)], 'E18 UnsupportedTag'),
    ([(SYMBOLIC, 0), (RELR, 0)], 'E18 UnsupportedTag'), ([(RELR, 0), (SYMBOLIC, 0)], 'E18 UnsupportedTag'),
    ([(FLAGS, 2), (REL, 0)], 'E18 UnsupportedTag'), ([(RELR, 0), (FLAGS, 10)], 'E18 UnsupportedTag'),
    ([(FLAGS, 8), (REL, 0)], 'E18 UnsupportedTag'), ([(REL, 0), (RELR, 0)], 'E18 UnsupportedTag'),
    ([(REL, 0), (REL, 0)], 'E16 DuplicateTag'),
]
TAKEN = [[(SYMBOLIC, 0), (FLAGS, 2)], [(FLAGS, 10), (SYMBOLIC, 0)], [(SYMBOLIC, (1 << 64) - 1), (FLAGS, (1 << 64) - 1)],
         [(SYMBOLIC, 0), (DEBUG, 0)], [(DEBUG, 0), (SYMBOLIC, 7)], [(SYMBOLIC, 0), (1 << 32 | SYMBOLIC, 0)],
         [(NULL, 0), (SYMBOLIC, 0)], [(NULL, 0), (REL, 0)], [(SYMBOLIC, 0), (NULL, 0)]]
TRIPLES = [([(SYMBOLIC, 0), (REL, 0), (SYMBOLIC, 0)], 'E16 DuplicateTag'), ([(RELR, 0), (FLAGS, 2), (FLAGS, 8)], 'E16 DuplicateTag'),
           ([(REL, 0), (SYMBOLIC, 0), (VERNEED, 0)], 'E17 SymbolVersions'), ([(SYMBOLIC, 0), (FLAGS, 2), (RELR, 0)], 'E18 UnsupportedTag'),
           ([(SYMBOLIC, 0), (NULL, 0), (SYMBOLIC, 0)], ''), ([(FLAGS, 2), (NULL, 0), (REL, 0)], '')]

# Changed fields of eight or four bytes.
FIELDS = [
    ([(0x20, u64(0xfffffffffffffff0))], 'E10 BadProgramHeaders'), ([(0x48, ALL), (0x70, u64(1))], 'E12 BadSegment'),
    ([(0x68, ALL)], 'E13 TooLarge'), ([(0x50, u64(0xfffffffffffff000))], 'E13 TooLarge'),
    ([(0x100, u64(0xfffffffffffffff8))], 'E22 BadRange'), ([(0x130, ALL)], 'E22 BadRange'),
    ([(0xe0, ALL)], 'E32 RelocationPlace'), ([(0xb4, u32(0xffffffff))], 'E22 BadRange'),
    ([(0xb0, u32(0xffffffff))], 'E22 BadRange'),
]


def table():
    m = Case('minimal.so')
    write_list('admission-changes.txt', [
        ('Changes to the symbols, the strings and the hash table of minimal.so, which is read as a program.', [
            image(changed(m, *change), wanted='B1 ' + refusal) for change, refusal in TABLE]),
        ('Fields of eight or four bytes that run past every file.', [
            image(changed(m, *change), wanted='B1 ' + refusal) for change, refusal in FIELDS]),
        ('A library must have a SONAME.', [admit(m, ''), library(m, 'E33 BadSoname')]),
        ('HASH is replaced by SYMBOLIC, which an object may have. The file is refused because the hash table is missing.', [
            image(changed(m, (0xf8, u8(0x10))), wanted='B1 E19 NoHashTable')]),
        ('Of FLAGS, only DF_SYMBOLIC (the value 2) is read, and an object may have it.', [
            admit(changed(made('flags.so', Object(entries=[(30, 8)]))[0]), ''),
            admit(made('symbolic.so', Object(entries=[(30, 10)]))[0], '')]),
    ] + symbolic_tags())


def with_entries(file, entries):
    """Returns a library with other entries in place of its extra entries, which are before the last NULL."""
    at = len(file.bytes()) - 8 - 16 - 16 * len(entries)
    return changed(file, (at, b''.join(u64(tag) + u64(value) for tag, value in entries)))


def symbolic_tags():
    """SYMBOLIC and FLAGS together with tags that are refused, as an object and as a library."""
    pair, _ = made('symbolic-tags.so', Object(b'q', entries=[(SYMBOLIC, 0), (FLAGS, 2)]))
    triple, _ = made('symbolic-three-tags.so', Object(b'q', entries=[(SYMBOLIC, 0), (FLAGS, 2), (DEBUG, 0)]))
    return [
        ('SYMBOLIC or FLAGS occurs twice, with any values, and together with versions, REL and RELR, in either order.', [
            line for entries, refusal in PAIRS for line in (
                admit(with_entries(pair, entries), refusal), library(with_entries(pair, entries), refusal))]),
        ('Both tags, with any values; tags of 64 bits; and entries after the first NULL.', [
            line for entries in TAKEN for line in (admit(with_entries(pair, entries), ''), library(with_entries(pair, entries), ''))]),
        ('Three entries show the order of these tests.', [admit(with_entries(triple, entries), refusal) for entries, refusal in TRIPLES]),
    ]


def export(name, **changes):
    return Symbol(name, **{'binding': GLOBAL, 'kind': FUNC, 'section': DEFINED, **changes})


LONG, TWIN = b'aaaaaaaabbbbbbbbXcccccccc', b'aaaaaaaabbbbbbbbYcccccccc'

# A string table, and where two names begin in it.
DIFFERENT = [
    (b'\0a\0b\0', 1, 3), (b'\0a\0aa\0', 1, 3), (b'\0a\0', 0, 1), (b'\0abcdefg\0abcdefgh\0', 1, 9), (b'\0bbcdefg\0abcdefh\0', 1, 9),
    (b'\0\1abcdefg\0\2abcdefg\0', 1, 10), (b'\0' + LONG + b'\0' + TWIN + b'\0', 1, 27),
    (b'\0abcdefghijklmnop\0', 1, 2), (b'\0abcdefghijklmnop\0', 4, 10), (b'\0abcdefghijklmnop\0', 16, 9), (b'\0' + 24 * b'a' + b'\0', 1, 2)]
EQUAL = [
    (b'\0a\0a\0', 1, 3), (b'\0a\0', 1, 1), (b'\0a\0', 0, 0), (b'\0abcdefg\0abcdefg\0', 1, 9), (b'\0abcdefgh\0abcdefgh\0', 1, 10),
    (b'\0' + LONG + b'\0' + LONG + b'\0', 1, 27), (b'\0abcdefghijklmnop\0ghijklmnop\0', 7, 18)]


def pair_of_names(strings, first, second):
    """Returns the library with two exports in one chain, followed by other strings, in which their names begin at
    these offsets."""
    fg, at = made('fg.so', Object(soname=b'q', symbols=[export(b'f'), export(b'g')]))
    data, symbol = fg.bytes(), at['symbols'] + 24
    tags = {data[k]: k + 8 for k in range(at['dynamic'], at['data'], 16)}
    end = len(data)
    whole = end + len(strings)
    return changed(fg, ('pad', whole), (end, strings), (0x60, u64(whole)), (0x68, u64(whole)), (tags[5], u64(end)), (tags[10], u64(len(strings))),
                   (symbol, u32(first)), (symbol + 24, u32(second)))


def symbols():
    q, at = made('q.so', Object(soname=b'q', symbols=[export(b'f')]))
    f = at['symbols'] + 24
    info, other, section = f + 4, f + 5, f + 6
    lines = [
        ([(info, u8(0x15))], 'E24 CommonSymbol'), ([(section, u8(0xf2, 0xff))], 'E24 CommonSymbol'),
        ([(info, u8(0x16))], 'E25 TlsSymbol'), ([(info, u8(0xa6))], 'E25 TlsSymbol'),
        ([(info, u8(0x1a))], 'E26 IfuncSymbol'), ([(info, u8(0xa2))], 'E27 BadBinding'),
        ([(info, u8(0x32))], 'E27 BadBinding'), ([(info, u8(0x35)), (section, u8(0xf2, 0xff))], 'E24 CommonSymbol'),
        ([(info, u8(0x3a))], 'E26 IfuncSymbol')]
    visible = [
        ('DEFAULT', [(other, u8(0))], 1), ('INTERNAL', [(other, u8(1))], 0), ('HIDDEN', [(other, u8(2))], 0),
        ('PROTECTED', [(other, u8(3))], 1), ('DEFAULT, with other bits', [(other, u8(0xfc))], 1),
        ('HIDDEN, with other bits', [(other, u8(0x86))], 0), ('WEAK', [(info, u8(0x22))], 1),
        ('LOCAL', [(info, u8(0x02))], 0), ('no type', [(info, u8(0x10))], 1), ('an object', [(info, u8(0x11))], 1),
        ('a section', [(info, u8(0x13))], 0), ('a file', [(info, u8(0x14))], 0),
        ('undefined', [(section, u8(0, 0))], 0), ('absolute', [(section, u8(0xf1, 0xff))], 1),
        ('an ordinary section with a high number', [(section, u8(0, 0xff))], 1)]
    hidden, _ = made('hidden.so', Object(soname=b'q', symbols=[export(b'f', visibility=HIDDEN)] * 2))
    twice, _ = made('twice.so', Object(soname=b'q', symbols=[export(b'f')] * 2))
    weak, _ = made('weak.so', Object(soname=b'q', symbols=[export(b'f'), export(b'f', binding=WEAK)]))
    # The second symbol's name is at the same place of the strings as the first one's: an offset, and no
    # string is there twice.
    def at_one_place(name, first=(), second=(), soname=None):
        file, at = made(f'place-{name}.so', Object(soname=soname, symbols=[export(b'f', **dict(first)), export(b'g', **dict(second))]))
        symbol = at['symbols'] + 24
        return changed(file, (symbol + 24, file.bytes()[symbol:symbol + 4]))
    place, place_library = at_one_place('program'), at_one_place('library', soname=b'q')
    place_weak = at_one_place('weak', second={'binding': WEAK})
    place_local, place_undefined = at_one_place('local', {'binding': LOCAL}), at_one_place('undefined', second={'section': UNDEFINED})
    local, _ = made('local.so', Object(soname=b'q', symbols=[export(b'f', binding=LOCAL), export(b'f')]))
    prefix, _ = made('prefix.so', Object(soname=b'q', symbols=[export(b'fg'), export(b'f'), export(b'')]))
    write_list('admission-symbols.txt', [
        ('Symbols with a binding, a type or a section that no object may have. The first test that applies refuses the file.', [
            library(changed(q, *change), refusal) for change, refusal in lines]),
        ('Symbol 0 isn\'t tested.', [library(changed(q, (at['symbols'] + 4, u8(0xff))), ''),
                                     library(changed(q, (at['symbols'], ALL)), '')]),
    ] + [(f'Which symbols are exported: {what}.', [find(changed(q, *change), b'f', wanted)])
         for what, change, wanted in visible] + [
        ('Two symbols of one name are refused if both are exported, even if one of them is weak.', [
            library(hidden, ''), find(hidden, b'f', 0), library(twice, 'E28 DuplicateDefinition'),
            library(weak, 'E28 DuplicateDefinition'), library(local, ''), find(local, b'f', 2)]),
        ('Two exports whose names begin at the same place of the strings are refused, in a library and in a program, even if one of them\n'
         "is weak. If one of the two isn't exported, the object is accepted, and the other symbol is found.", [
            library(place_library, 'E28 DuplicateDefinition'), admit(place, 'E28 DuplicateDefinition'),
            image(place, wanted='B1 E28 DuplicateDefinition'), admit(place_weak, 'E28 DuplicateDefinition'),
            admit(place_local, ''), find(place_local, b'f', 2), admit(place_undefined, ''), find(place_undefined, b'f', 1)]),
        ('Two exports with different names. The names differ in their lengths, or in one byte; have the same length and the same first,\n'
         'middle and last eight bytes; or are tails of one string.', [admit(pair_of_names(*row), '') for row in DIFFERENT]),
        ('Two exports of one name: at one place of the strings, at two places, and as the tail of a string and as another string.', [
            admit(pair_of_names(*row), 'E28 DuplicateDefinition') for row in EQUAL]),
        ('A name that is the beginning of another one; the empty name; absent names.', [
            find(prefix, b'f', 2), find(prefix, b'fg', 1), find(prefix, b'', 3), find(prefix, b'g', 0),
            find(prefix, b'fgh', 0), find(prefix, b'a name', 0)]),
    ])


def sonames():
    def named(name, k):
        return made(f'soname-{k}.so', Object(soname=name))[0]
    refused = [b'', b'a/b', b'a b', b'/', b'\x7f', b'\x20', b'\xc3\xa9', b'a\n']
    taken = [b'a', b'!', b'~', b'liba.so.1', b'\\']
    write_list('admission-sonames.txt', [
        ('Names of 240 and of 241 bytes.', [library(named(b'x' * 240, 240), ''), library(named(b'x' * 241, 241), 'E33 BadSoname')]),
        ('Names that no library may have.', [library(named(n, f'bad-{k}'), 'E33 BadSoname') for k, n in enumerate(refused)]),
        ('Names that a library may have.', [library(named(n, f'good-{k}'), '') for k, n in enumerate(taken)]),
    ])


def tables():
    fg, at = made('fg.so', Object(soname=b'q', symbols=[export(b'f'), export(b'g')]))
    h = at['hash']
    bucket, chain = h + 8, h + 12
    fgh, at3 = made('fgh.so', Object(soname=b'q', symbols=[export(b'f'), export(b'g'), export(b'h')]))
    h3 = at3['hash']
    # Two buckets; f, whose hash is 0x66, is in the chain of one of them.
    wrong, _ = made('bucket-1.so', Object(soname=b'q', symbols=[export(b'f')], hash_words=[2, 2, 0, 1, 0, 0]))
    right, _ = made('bucket-0.so', Object(soname=b'q', symbols=[export(b'f')], hash_words=[2, 2, 1, 0, 0, 0]))
    both, _ = made('bucket-both.so', Object(soname=b'q', symbols=[export(b'f')], hash_words=[2, 2, 1, 1, 0, 0]))
    before, _ = made('undefined-before.so', Object(soname=b'q', symbols=[Symbol(b'u'), export(b'f')]))
    # Five buckets for three symbols: f, whose hash is 102, belongs to bucket 2, and g, whose hash is 103, to bucket 3.
    wide, at5 = made('five-buckets.so', Object(
        soname=b'q', symbols=[export(b'f'), export(b'g')], hash_words=[5, 3, 0, 0, 1, 2, 0, 0, 0, 0]))
    under = lambda *words: changed(wide, (at5['hash'] + 8, b''.join(u32(w) for w in words)))
    empty, _ = made('no-symbols.so', Object(soname=b'q'))
    nothing, _ = made('no-buckets.so', Object(soname=b'q', hash_words=[0, 1, 0]))
    none, _ = made('no-chains.so', Object(soname=b'q', hash_words=[1, 0, 0]))
    middle, _ = made('into-a-chain.so', Object(
        soname=b'q', symbols=[export(b'f'), export(b'g'), export(b'h')], hash_words=[2, 4, 1, 2, 0, 2, 3, 0]))
    # The hashes of f and h are even, and that of g is odd.
    assert [rules.elf_hash(n) % 2 for n in (b'f', b'g', b'h')] == [0, 1, 0]
    bad = 'E29 BadHashTable'
    write_list('admission-tables.txt', [
        ('Chains that point at themselves, in rings and past the end.', [
            library(changed(fg, (chain + 8, u32(1))), bad), library(changed(fg, (chain + 8, u32(2))), bad),
            library(changed(fg, (chain + 4, u32(1))), bad), library(changed(fg, (chain + 8, u32(3))), bad),
            library(changed(fg, (chain + 8, u32(0xffffffff))), bad), library(changed(fg, (bucket, u32(3))), bad),
            library(changed(fgh, (h3 + 12 + 12, u32(2))), bad)]),
        ('No chain leads on from chain[0], but it is a word of the table.', [
            library(changed(fg, (chain, u32(2))), ''), library(changed(fg, (chain, u32(3))), bad)]),
        ('Exports that no chain has, or that come after a 0 in their chain.', [
            library(changed(fg, (bucket, u32(0))), bad), library(changed(fg, (bucket, u32(2))), bad),
            library(changed(fg, (chain + 4, u32(0))), bad)]),
        ('An export in a bucket that is not its own, in its own bucket, and in both.', [
            library(wrong, bad), library(right, ''), library(both, '')]),
        ("More buckets than symbols: each export in its own bucket; in another export's bucket; in none. Also, in a bucket to which no\n"
         "name belongs, a word that is no symbol's index; a ring, also one that begins in such a bucket; and the same in a program.", [
            library(wide, ''), find(wide, b'f', 1), find(wide, b'g', 2), find(wide, b'z', 0),
            library(under(0, 0, 2, 1, 0), bad), library(under(1, 2, 0, 0, 0), bad), library(under(0, 0, 0, 0, 0), bad),
            library(under(3, 0, 1, 2, 0), bad), library(under(0, 0, 1, 2, 0xffffffff), bad),
            library(under(0, 0, 1, 2, 0, 0, 1, 0), bad), library(under(2, 0, 1, 1, 0, 0, 2, 2), bad),
            library(under(2, 1, 1, 2, 1, 0, 0, 0), ''), admit(under(0, 0, 2, 1, 0), bad),
            image(under(0, 0, 2, 1, 0), wanted='B1 ' + bad)]),
        ("A bucket that leads into the middle of another bucket's chain.", [library(middle, ''), find(middle, b'g', 2), find(middle, b'h', 3)]),
        ('An undefined symbol on a chain.', [library(before, ''), find(before, b'f', 2), find(before, b'u', 0)]),
        ("No symbols; no buckets; no chains, and then the bucket's word isn't less than the number of chains.", [
            library(empty, ''), library(nothing, bad), library(none, bad)]),
        ('Numbers of buckets and chains that run past the file.', [
            library(changed(fg, (h, u32(0xffffffff))), 'E22 BadRange'),
            library(changed(fg, (h + 4, u32(0xffffffff))), 'E22 BadRange')]),
        ('The number of names that a search compares.', [
            find(fgh, b'f', 1), find(fgh, b'g', 2), find(fgh, b'h', 3), find(fgh, b'z', 0)]),
        ('The hashes of names.', [f'hash {word} => 0x{value:x}' for word, value in [
            ('bytes=', 0), ('a', 0x61), ('ab', 0x672), ('exit', 0x6cf04), ('printf', 0x077905a6),
            ('abcdefg', 0x0789aba7), ('abcdefgh', 0x089abaa8)]]),
    ])
    for name, value in [(b'', 0), (b'exit', 0x6cf04), (b'printf', 0x077905a6), (b'abcdefg', 0x0789aba7),
                        (b'abcdefgh', 0x089abaa8)]:
        assert rules.elf_hash(name) == value


def bounds():
    """Tables that end with their segment, and tables that are one byte longer: the strings are last, at the end of the
    file."""
    m = Case('minimal.so')
    end = 0x190
    strings, size, table, sym, rela = 0x110, 0x130, 0x100, 0x120, 0x150
    bad = 'B1 E22 BadRange'
    accepted = lambda *change: admit(changed(m, *change), '')
    refused = lambda *change: admit(changed(m, *change), 'E22 BadRange')
    write_list('admission-bounds.txt', [
        ('The string table ends where its segment ends, and one byte later. Or it begins one byte before the segment.', [
            accepted((strings, u64(end - 1))), refused((strings, u64(end))), accepted((strings, u64(end - 8)), (size, u64(8))),
            refused((strings, u64(end - 8)), (size, u64(9))), refused((strings, u64(2**64 - 1)), (size, u64(2)))]),
        ('The hash table: its first eight bytes cross the end of the segment, or end there; and then the whole table.', [
            refused((table, u64(end - 7))), refused((table, u64(end))),
            admit(changed(m, (table, u64(end - 16)), (end - 16, u32(1)), (end - 12, u32(1)), (end - 8, u64(0))), ''),
            refused((table, u64(end - 16)), (end - 16, u32(1)), (end - 12, u32(2))),
            refused((table, u64(end - 16)), (end - 16, u32(2)), (end - 12, u32(1)))]),
        ('The symbol table ends where its segment ends, and one byte later.', [
            accepted((sym, u64(end - 24))), refused((sym, u64(end - 23)))]),
        ('The relocations end where their segment ends, and one byte later.', [
            accepted((rela, u64(end - 24))), refused((rela, u64(end - 23)))]),
        ('A table after the bytes of the file: no single segment makes it readable.', [
            refused((0x68, u64(0x200)), (strings, u64(end)))]),
        ('An empty table of relocations is readable at any address.', [accepted((0x160, u64(0)), (rela, ALL))]),
        ("Strings: no table, a last byte that isn't 0, a name at the last byte, and a name after the last byte.", strings_bounds()),
    ])


def strings_bounds():
    q, at = made('q.so', Object(soname=b'q', symbols=[export(b'f')]))
    p, at_p = made('p.so', PROGRAM)
    data = q.bytes()
    tags = {data[k]: k + 8 for k in range(at['dynamic'], at['data'], 16)}
    size = rules.Elf(data).value(rules.STRSZ)
    f = at['symbols'] + 24
    first = at_p['dynamic']
    bad = 'E23 BadString'
    return [
        library(changed(q, (tags[10], u64(0))), bad), library(changed(q, (tags[10], u64(size - 1))), bad),
        library(changed(q, (at['strings'] + size - 1, b'x')), bad), library(changed(q, (f, u32(size - 1))), ''),
        library(changed(q, (f, u32(size))), bad), library(changed(q, (f, u32(0xffffffff))), bad),
        library(changed(q, (tags[14], u64(size - 1))), 'E33 BadSoname'), library(changed(q, (tags[14], u64(size))), bad),
        library(changed(q, (tags[14], ALL)), bad), admit(changed(p, (first + 8, u64(8))), bad),
        admit(changed(p, (first + 8, u64(6))), '')]


PROGRAM = Object(needed=[b'a', b'b'], symbols=[Symbol(b'f')], relocations=[(R_64, 0, 1, 0)])


def cuts():
    def wanted(length, end):
        return 'B1 ' + ('E1 TooShort' if length < 64 else 'E10 BadProgramHeaders' if length < end else 'E12 BadSegment')
    parts = []
    for name, end in (('minimal.so', 176), ('p.so', 176), ('w.so', 456)):
        whole = len((DATA / name).read_bytes())
        for length in range(whole):
            image(Case(name, ('cut', length)), wanted=wanted(length, end))
        parts.append((f'Every cut of {name}.', [
            f'image {name} cut={a}..{b} 0x10000 => refused {wanted(a, end)}'
            for a, b in ((0, 63), (64, end - 1), (end, whole - 1))]))
    write_list('admission-cuts.txt', parts)


def programs():
    p, at = made('p.so', PROGRAM)
    assert at['data'] == 0x1c8 and len(p.bytes()) == 464
    w_object = Object(
        soname=b'w', symbols=[export(b'f')], nulls=4, entries=[(0x6ffffef5, 0)],
        headers=[program_header(1, 5, 0x1000, 0x2000, 16, 32, 0x1000), program_header(4), program_header(0x6474e550),
                 program_header(0x6474e551), program_header(0x6474e552)])
    def hand_made(name, o):
        data, at = build(o)
        data = bytearray(data + bytes(0x1000 - len(data)) + b'\x90' * 16)
        data[40:48], data[58:64] = u64(64), bytes([64, 0, 9, 0, 8, 0])
        (DATA / name).write_bytes(bytes(data))
        return Case(name)
    w = hand_made('w.so', w_object)
    w_object.entries = w_object.entries + [(0x6ffffffe, 0)]
    versions = hand_made('w-verneed.so', w_object)
    text = rules.image_text(w.bytes(), BASE).splitlines()
    assert text[-4:] == ['segment 0x0000000000012000 32 r-x', '90' * 16, '00' * 16, 'end']
    named = lambda kind: made(f'type-{kind}.so', Object(symbols=[Symbol(b'f')], relocations=[
        (R_RELATIVE, 0, 0, 0), (kind, 8, 1, 0)], data=16))
    missing = lambda file, at: changed(file, (at['relocations'] + 24 + 12, u32(2)))
    write_list('admission-programs.txt', [
        ('A program that needs libraries is refused with the name of the first of them. Its base is tested before.', [
            image(p, wanted='B3 Missing /program a'), image(p, 0x10001, 'B2 BadBase')]),
        ("A library of two segments, with header types and tags that aren't read; and a library that needs versions.", [
            library(w, ''), find(w, b'f', 1), library(versions, 'E17 SymbolVersions'), bound(w, 'w.image')]),
        ("A relocation names a symbol that no object defines, or a symbol that doesn't exist.", [
            image(named(kind)[0], wanted='B5 Undefined /program f') for kind in (1, 6, 7)] + [
            image(missing(*named(kind)), wanted='B1 E31 RelocationSymbol') for kind in (1, 6, 7)]),
        ("If the type of a relocation needs no symbol, its symbol isn't read.", [
            admit(changed(Case('minimal.so'), (0xec, u32(0xffffffff))), '')]),
    ])


def word(file, at, value):
    """A case of the eight bytes at the start of a program's data, which were determined by hand."""
    return [byte(file, BASE, BASE + at['data'] + k, b) for k, b in enumerate((value % (1 << 64)).to_bytes(8, 'little'))]


def values():
    def row(name, symbols, kind, addend, value):
        file, at = made(f'value-{name}.so', Object(symbols=symbols, relocations=[(kind, 0, 1, addend)], data=16))
        return word(file, at, value(BASE + at['data'] + 8))
    def refused(name, symbol):
        file, _ = made(f'value-{name}.so', Object(symbols=[symbol], relocations=[(R_64, 0, 1, 0)], data=16))
        return image(file, wanted='B5 Undefined /program f')
    own = Symbol(b'f', GLOBAL, FUNC, DEFINED, 8)
    write_list('values.txt', [
        ('A defined symbol: for type 64, its address and the addend; for the other types, only its address.',
         row('64', [own], R_64, 5, lambda d: d + 5) + row('got', [own], R_GLOB_DAT, 5, lambda d: d)
         + row('slot', [own], R_JUMP_SLOT, 5, lambda d: d)),
        ('The value of an absolute symbol is taken without the base.',
         row('absolute', [Symbol(b'f', GLOBAL, FUNC, ABSOLUTE, 0x1234)], R_64, 1, lambda d: 0x1235)),
        ('Symbols that no other object can replace.',
         row('local', [Symbol(b'f', LOCAL, OBJECT, DEFINED, 8)], R_64, 0, lambda d: d)
         + row('protected', [Symbol(b'f', GLOBAL, FUNC, DEFINED, 8, PROTECTED)], R_64, 0, lambda d: d)
         + row('hidden', [Symbol(b'f', GLOBAL, FUNC, DEFINED, 8, HIDDEN)], R_64, 0, lambda d: d)),
        ('An undefined symbol is looked up by its name, except a hidden one.',
         row('found', [Symbol(b'f'), own], R_64, 0, lambda d: d)
         + row('withheld', [Symbol(b'f', WEAK, NOTYPE, UNDEFINED, 0, HIDDEN), own], R_64, 0, lambda d: 0)),
        ("A weak symbol that isn't found has the value 0. Any other symbol that isn't found is undefined.",
         row('weak', [Symbol(b'f', WEAK)], R_64, -8, lambda d: -8) + row('weak-got', [Symbol(b'f', WEAK)], R_GLOB_DAT, 5, lambda d: 0)
         + [refused('undefined', Symbol(b'f')), refused('internal', Symbol(b'f', GLOBAL, NOTYPE, UNDEFINED, 0, INTERNAL))]),
        ('Symbol 0 has the value 0.', [
            byte(changed(Case('minimal.so'), (0xe8, u8(1))), BASE, BASE + 0x188 + k, b) for k, b in enumerate((0x2000).to_bytes(8, 'little'))]),
    ])


if __name__ == '__main__':
    symbols()
    programs()
    table()
    sonames()
    tables()
    bounds()
    values()
    cuts()

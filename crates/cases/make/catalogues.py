"""Cases of disks with many libraries, and therefore several catalogues, and cases of damaged catalogues and roots."""

import struct

from make import DATA
from on_disk import A, NAMED_Q, bytes_of, keep, library, listed, on
from scripts import SECTOR, catalogues_for
from sectors import Entry, padded, spelt_entry

ROOT = '524c494252454732'
S5, S7, END = '1 refused S5 Damaged', '1 refused S7 Full', '0 end'


def numbered(i):
    return b'x%03x' % i


def hexed(form, *values):
    return struct.pack('<' + form, *values).hex()


def one_library(i):
    """Returns the changes that write library i: the sectors of the first library, with another name in the file and in
    the entry, and another place."""
    at, digits = SECTOR * (2 * i + 2), numbered(i)[1:].hex()
    return f'0x{at:x}=@numbered.sectors 0x{at + 0xda:x}={digits} 0x{at + 0x211:x}={digits} 0x{at + 0x300:x}={hexed("H", 2 * i + 2)}'


def a_behind(i):
    """Returns the changes that write the library a in place of library i."""
    at = SECTOR * (2 * i + 2)
    entry = hexed('4sIHHI', b'LIBE', 344, 1, 1, 0)
    return f'0x{at:x}=@{A} 0x{at + 0x200:x}={entry}61 0x{at + 0x300:x}={hexed("II", 2 * i + 2, 1)}'


def catalogue_of(count, j):
    """Returns the changes that write catalogue j of a list of `count` libraries. Library i has its entry in sector
    2i + 3."""
    at, libraries = SECTOR * (2 * count + 2 + j), range(64 * j, min(64 * (j + 1), count))
    return f'0x{at:x}={b"LIBC".hex()}{hexed("H", len(libraries))} 0x{at + 16:x}=' + ''.join(hexed('I', 2 * i + 3) for i in libraries)


def made(count, sectors, last=one_library):
    """Returns the text of a disk of `count` libraries and generation 1. The data of library i is in sector 2i + 2, its
    entry is in the next sector, and the catalogues follow all of these. `last` writes the last library."""
    catalogues = range(2 * count + 2, 2 * count + 2 + catalogues_for(count))
    lines = [f'bytes={ROOT}{hexed("QI", 0, sectors)} pad={SECTOR * sectors}',
             f'0x200={ROOT}{hexed("QIH", 1, sectors, count)} 0x238={hexed("H", len(catalogues))} 0x240=' + ''.join(hexed('I', k) for k in catalogues)]
    lines += [catalogue_of(count, j) for j in range(len(catalogues))]
    lines += [one_library(i) for i in range(count - 1)] + [last(count - 1)]
    return ''.join(line + '\n' for line in lines)


def prepare():
    file = library(numbered(0))
    assert len(file) == 344 and file[0xd9:0xde] == b'x000\0'
    keep('numbered.so', file)
    keep('numbered.sectors', padded(file, SECTOR) + spelt_entry(Entry(numbered(0), 344, [(2, 1)])))
    for name, count, sectors, last in (('sixty-four', 64, 135, one_library), ('sixty-five', 65, 136, one_library),
                                       ('hundred', 100, 208, a_behind), ('two-full', 128, 266, one_library),
                                       ('two-full-and-one', 129, 266, one_library), ('many', 2048, 4164, one_library)):
        (DATA / f'{name}.changes').write_text(made(count, sectors, last))
        names = [numbered(i).decode() for i in range(count - 1)] + ['a' if last == a_behind else numbered(count - 1).decode()]
        (DATA / f'{name}.listing').write_text(''.join(f'library {n} 344\n' for n in names) + 'end\n')


def sixty_fours():
    four, five = 'made=sixty-four.changes', 'made=sixty-five.changes'
    roomy, roomier = f'{four} pad=69632 0x210=88', f'{five} pad=70656 0x210=8a'
    return [
        ('64 libraries in one catalogue, which is sector 130. Of 135 sectors, three are free besides the one of the next catalogue. '
         'These\n'
         'are too few for a library and a second catalogue.', [
            listed(four, 'sixty-four.listing'), on(four, f'install disk {NAMED_Q}', S7, 'same'),
            on(four, 'replace disk numbered.so', '0 ok', has='0x8=02 0x14=40 0x38=01 0x40=85 0x10900=83 0x10a04=40 0x10a10=8400000005'),
            on(four, 'remove disk x000', '0 ok', has='0x14=3f 0x38=01 0x40=83 0x10604=3f 0x10610=0500000007'),
            on(four, 'preload disk x03f', '0 ok', 'same 0x8=02 0x14=40000100 0x18=3f 0x38=01 0x40=82')]),
        ('136 sectors are enough: data in 131, entry in 132, catalogues in 133 and 134.', [
            on(roomy, f'install disk {NAMED_Q}', '0 ok', has='0x14=4100 0x38=02 0x40=8500000086 0x10900=83 0x10a00=4c4942434000 0x10a10=03'
               ' 0x10b0c=81 0x10c00=4c4942430100 0x10c10=8400000000')]),
        ('65 libraries in two catalogues, which are the sectors 132 and 133. Of 136 sectors, none is free besides those of the next two\n'
         'catalogues. A removal needs one of these, and a change of preloads needs none. The preloads keep their libraries.', [
            listed(five, 'sixty-five.listing'), on(five, f'install disk {NAMED_Q}', S7, 'same'), on(five, 'replace disk numbered.so', S7, 'same'),
            on(five, 'remove disk x000', '0 ok', has='0x14=40 0x38=01 0x40=8600000000 0x10c04=40 0x10c10=05 0x10d0c=83'),
            on(five, 'remove disk x03f', '0 ok', has='0x14=40 0x38=01 0x40=8600000000 0x10c10=03 0x10d0c=83'),
            on(five, 'remove disk x040', '0 ok', has='0x14=40 0x38=01 0x40=8600000000 0x10c10=03 0x10d0c=81'),
            on(f'{five} 0x216=01 0x218=40', 'remove disk x000', '0 ok', has='0x14=40000100 0x18=3f 0x38=01 0x40=86'),
            on(f'{five} 0x216=01 0x218=3f', 'remove disk x040', '0 ok', has='0x14=40000100 0x18=3f 0x38=01 0x40=86'),
            on(five, 'preload disk x040 x000', '0 ok', 'same 0x8=02 0x14=41000200 0x18=40 0x38=02 0x40=8400000085'),
            on(five, 'upgrade disk', '0 ok', 'same')]),
        ('On 138 sectors a library is replaced, or the 66th library is installed. Both catalogues are written again.', [
            on(roomier, 'replace disk numbered.so', '0 ok', has='0x14=41 0x38=02 0x40=8800000089 0x11010=87 0x11200=4c49424301 0x11210=83'),
            on(roomier, f'install disk {NAMED_Q}', '0 ok', has='0x14=42 0x38=02 0x40=8800000089 0x11010=03 0x11200=4c49424302 0x11210=8300000087')]),
    ]


def edges():
    """Lists of about as many libraries as one catalogue, and as two catalogues, have room for."""
    four, full, third = 'made=sixty-four.changes', 'made=two-full.changes', 'made=two-full-and-one.changes'
    fullest, roomy = f'{full} cut=134144 0x210=06', f'{third} pad=138240 0x210=0e'
    return [
        ('128 libraries in two catalogues, which are the sectors 258 and 259. Of 266 sectors, four are free besides those of the next '
         'two\n'
         'catalogues. These are just enough for a library and a third catalogue: data in 260, entry in 261, catalogues in 262 to 264.', [
            listed(full, 'two-full.listing'),
            on(full, f'install disk {NAMED_Q}', '0 ok', has='0x14=81 0x38=03 0x40=060100000701000008010000 0x20b00=04010000 0x21000=4c4942430100'
               ' 0x21010=05010000'),
            on(f'{full} cut=135680 0x210=09', f'install disk {NAMED_Q}', S7, 'same'),
            on(full, 'replace disk numbered.so', '0 ok', has='0x14=80 0x38=02 0x40=0601000007010000 0x20b00=04010000 0x20c10=05010000 0x20e10=83'),
            on(full, 'remove disk x040', '0 ok', has='0x14=7f 0x38=02 0x40=0401000005010000 0x2090c=81 0x20a04=3f 0x20a10=85')]),
        ('On 262 sectors, none is free besides those of the next two catalogues. Removals of the first library, of the last in the first\n'
         'catalogue, and of the last of all.', [
            listed(fullest, 'two-full.listing'), on(fullest, f'install disk {NAMED_Q}', S7, 'same'),
            on(fullest, 'replace disk numbered.so', S7, 'same'),
            on(fullest, 'remove disk x000', '0 ok', has='0x14=7f 0x38=02 0x40=0401000005010000 0x20810=05 0x2090c=83 0x20a04=3f 0x20a10=85'),
            on(fullest, 'remove disk x03f', '0 ok', has='0x14=7f 0x38=02 0x40=0401000005010000 0x20810=03 0x2090c=83 0x20a04=3f 0x20a10=85'),
            on(fullest, 'remove disk x07f', '0 ok', has='0x14=7f 0x38=02 0x40=0401000005010000 0x20810=03 0x2090c=81 0x20a04=3f 0x20a10=83')]),
        ('129 libraries in three catalogues, which are the sectors 260 to 262. Of 266 sectors, none is free besides those of the next\n'
         'three catalogues. Once the last library is removed, there are two catalogues, in the sectors 263 and 264.', [
            listed(third, 'two-full-and-one.listing'), on(third, f'install disk {NAMED_Q}', S7, 'same'),
            on(third, 'replace disk numbered.so', S7, 'same'),
            on(third, 'remove disk x080', '0 ok', has='0x14=80 0x38=02 0x40=0701000008010000 0x20e10=03 0x21004=40 0x21010=83 0x2110c=0101'),
            on(third, 'remove disk x03f', '0 ok', has='0x14=80 0x38=02 0x40=0701000008010000 0x20f0c=83 0x21010=85 0x2110c=0301'),
            on(third, 'remove disk x07f', '0 ok', has='0x14=80 0x38=02 0x40=0701000008010000 0x20f0c=81 0x21010=83 0x2110c=0301'),
            on(third, 'preload disk x080 x07f', '0 ok', has='0x14=810002008000 0x1a=7f00 0x38=03 0x40=040100000501000006010000')]),
        ('With four sectors more, a library is replaced, or the 130th library is installed: data in 263, entry in 264, catalogues in 265\n'
         'to 267.', [
            on(roomy, 'replace disk numbered.so', '0 ok', has='0x14=81 0x38=03 0x40=09010000 0x21100=07010000 0x21210=08010000 0x21604=01 0x21610=0301'),
            on(roomy, f'install disk {NAMED_Q}', '0 ok', has='0x14=82 0x38=03 0x40=09010000 0x21210=03 0x21604=02 0x21610=0301000008010000')]),
        ('Exactly as many sectors as the catalogues need twice, and one sector less: for 64 libraries, for 128 and for 129.', [
            listed(f'{four} cut=67584 0x210=84', 'sixty-four.listing'), on(f'{four} cut=67072 0x210=83', 'list disk', S5, 'same'),
            on(f'{full} cut=133632 0x210=05', 'list disk', S5, 'same'), on(f'{third} cut=135680 0x210=09', 'list disk', S5, 'same')]),
        ('63 libraries in one catalogue.', [listed(f'{four} 0x214=3f 0x10404=3f 0x1050c=00', 'sixty-three.listing')]),
    ]


def split_at(first):
    """Returns the changes by which the first catalogue of 65 libraries lists `first` entries, and the second lists the
    others, up to its number of places."""
    entries, second = [2 * i + 3 for i in range(65)], min(65 - first, 64)
    return (f'0x10804={hexed("H", first)} 0x10810={hexed("64I", *entries[:first], *[0] * (64 - first))}'
            f' 0x10a04={hexed("H", second)} 0x10a10={hexed(f"{second}I", *entries[first:first + second])}')


def damaged():
    five = 'made=sixty-five.changes'
    # Eight sectors: data 2 to 5, entry 6, catalogue 7, and none for another catalogue.
    too_full = (f'formatted.disk 0x200={ROOT}{hexed("QIH", 1, 8, 1)} 0x238=01 0x240=07 0x400=@{A} 0xc00={hexed("4sIHHI", b"LIBE", 2048, 1, 1, 0)}61'
                f' 0xd00={hexed("II", 2, 4)} 0xe00=4c49424301 0xe10=06')
    return [
        ("Sectors that are no catalogues, or catalogues whose count doesn't fit the root: the first has 63 libraries; the second has "
         'two,\n'
         'or none.', [
            on(f'{five} {change}', 'list disk', S5, 'same') for change in (
                '0x10800=4d', '0x10803=45', '0x10804=3f', '0x10804=3f 0x1090c=00', '0x10804=41', '0x10805=01', '0x10806=01', '0x1080f=01',
                '0x10a04=00', '0x10a04=00 0x10a10=00', '0x10a04=02', '0x10a04=02 0x10a14=86', '0x10a14=86', '0x10910=01', '0x109ff=01')]),
        ('The same libraries, divided in other ways: one in the first catalogue, half of them, or all but two; and 64, as it has to be.', [
            on(f'{five} {split_at(first)}', 'list disk', S5, 'same') for first in (1, 32, 63)] + [
            listed(f'{five} {split_at(64)}', 'sixty-five.listing')]),
        ('A root with other catalogues: too few or too many, one catalogue twice, the second one first, one library more or less.', [
            on(f'{five} {change}', 'list disk', S5, 'same') for change in (
                '0x238=01', '0x238=01 0x244=00', '0x238=03 0x248=86', '0x244=84', '0x240=8500000084', '0x214=42', '0x214=40', '0x214=81',
                '0x244=83', '0x244=82', '0x244=86', '0x244=88', '0x240=03', '0x240=02')] + [
            listed(f'{five} 0x214=40 0x238=01 0x244=00', 'sixty-four.listing')]),
        ("A name that occurs twice, in one catalogue and in two, also if the library's file has this name.", [
            on(f'{five} {change}', 'list disk', S5, 'same') for change in ('0x8da=303030 0xa11=303030', '0x104da=303030 0x10611=303030')]),
        ('Entry sectors of a catalogue: a sector of the first catalogue again, a sector twice in one catalogue, data, a catalogue, a '
         'root,\n'
         'and a sector after the end of the disk.', [
            on(f'{five} {change}', 'list disk', S5, 'same') for change in (
                '0x10a10=03', '0x10810=05', '0x10a10=02', '0x10a10=84', '0x10a10=85', '0x10a10=00', '0x10a10=01', '0x10a10=88', '0x10a12=01',
                '0x10a12=40', '0x10a13=ff', '0x10a10=ffff3f', '0x10a10=86')]),
        ("A catalogue whose sector is also a sector of a library's data, or of another catalogue.", [
            on(f'{five} {change}', 'list disk', S5, 'same') for change in ('0x10700=84', '0x10700=85', '0x10704=02', '0x10700=80')]),
        ('A disk without room for its catalogues twice: one sector less, and two, although nothing else is wrong; and one library on '
         'eight\n'
         'sectors.', [
            on(f'{five} cut=69120 0x210=87', 'list disk', S5, 'same'), on(f'{five} cut=68608 0x210=86', 'list disk', S5, 'same'),
            on(f'{five} cut=68608 0x210=86', 'remove disk x000', S5, 'same'), on(f'{five} cut=68608 0x210=86', 'upgrade disk', S5, 'same'),
            on(too_full, 'list disk', S5, 'same'), on(too_full, 'remove disk a', S5, 'same'), on(too_full, 'upgrade disk', S5, 'same')]),
    ]


def hundreds():
    hundred, many, a = 'made=hundred.changes', 'made=many.changes', A
    last = f'{many} 0x8=feffffffffffffff 0x208=ffffffffffffffff'
    cut = f'{many} cut=2131456 0x210=43'
    fewer = f'{many} 0x214=ff07 0x{SECTOR * 4129 + 4:x}=3f 0x{SECTOR * 4129 + 16 + 4 * 63:x}=0000'
    s9 = '1 refused S9 TooMany'
    return [
        ('A hundred libraries, and one more. The hundredth is replaced, removed, made a preload, and bound.', [
            listed(hundred, 'hundred.listing'),
            on(hundred, f'install disk {NAMED_Q}', '0 ok', has='0x14=65 0x38=02 0x40=ce000000cf'),
            on(hundred, f'replace disk {a}', '0 ok', has='0x14=64 0x38=02 0x40=ce000000cf'),
            on(hundred, f'install disk {a}', '1 refused C2 AlreadyInstalled', 'same'),
            on(hundred, 'remove disk a', '0 ok', has='0x14=63 0x38=02 0x40=cc000000cd'),
            on(hundred, 'preload disk x062 a', '0 ok', has='0x16=0200 0x18=62006300 0x38=02 0x40=ca000000cb'),
            on(hundred, 'bind disk hundredth.so 0x10000', '0 file hundred.image', 'same', file='hundred.image'),
            on(hundred, 'bind disk asking.so 0x10000', '1 refused B3 Missing /program b', 'same')]),
        ('2,048 libraries, which are the most. The name is tested before the number, and the generation and the room are tested after it.', [
            listed(many, 'many.listing'), on(many, f'install disk {NAMED_Q}', s9, 'same'), on(many, 'install disk real-large.so', s9, 'same'),
            on(last, f'install disk {NAMED_Q}', s9, 'same'), on(many, 'install disk numbered.so', '1 refused C2 AlreadyInstalled', 'same'),
            on(many, f'replace disk {NAMED_Q}', '1 refused C3 NotInstalled', 'same'),
            on(last, 'replace disk numbered.so', '1 refused S10 GenerationEnd', 'same'), on(cut, 'replace disk numbered.so', S7, 'same'),
            on(f'{many} 0x215=09', 'list disk', S5, 'same'), on(f'{many} 0x214=01', 'list disk', S5, 'same')]),
        ('A library is replaced, the first and the last are removed, the last becomes a preload, and the 2,048th is installed.', [
            on(many, 'replace disk numbered.so', '0 ok', has='0x14=0008 0x38=20 0x40=24100000'),
            on(cut, 'remove disk x000', '0 ok', has='0x14=ff07 0x38=20 0x40=22100000'),
            on(many, 'remove disk x7ff', '0 ok', has='0x14=ff07 0x38=20 0x40=22100000'),
            on(many, 'preload disk x7ff', '0 ok', has='0x14=00080100 0x18=ff07 0x38=20 0x40=02100000'),
            on(fewer, f'install disk {NAMED_Q}', '0 ok', has='0x14=0008 0x38=20')]),
    ]


def cases():
    return sixty_fours() + edges() + damaged() + hundreds()


# Each byte of the fields of a root and of an entry, and some of those that have to be zero.
ROOT_BYTES = (*range(23, 72), *range(72, 192, 4), *range(192, 512, 16), 511)
ENTRY_BYTES = (*range(5, 18), *range(18, 256, 8), *range(256, 272), *range(272, 512, 8), 511)


def raised(name, at):
    """Returns a disk with one byte increased by one."""
    return f'{name} 0x{at:x}={(bytes_of(name)[at] + 1) % 256:02x}'


def turned(name, at):
    """Returns a disk with the highest bit of one byte flipped."""
    return f'{name} 0x{at:x}={bytes_of(name)[at] ^ 0x80:02x}'


def single_bytes():
    """A root, an entry and a catalogue, each with one byte increased by one: each byte of a field, and some of the
    bytes that have to be zero."""
    def bad(start, *places):
        return [on(raised('one.disk', start + at), 'list disk', S5, 'same') for at in places]
    root, entry, catalogue = 0x200, 0x600, 0x800
    return [
        ('The current root, each of its bytes changed. Without the magic, the root of generation 0 is current; with one more preload, '
         'that\n'
         'is a; otherwise the disk is damaged.', [
            on(raised('one.disk', root + at), 'list disk', END, 'same') for at in range(8)] + bad(root, *range(8, 22)) + [
            listed(raised('one.disk', root + 22), 'one-preloaded.listing')] + bad(root, *ROOT_BYTES)),
        ('The entry, each of its bytes changed. The file may have one byte more, a zero; otherwise the disk is damaged.', bad(entry, *range(4)) + [
            listed(raised('one.disk', entry + 4), 'one-345.listing')] + bad(entry, *ENTRY_BYTES)),
        ('The catalogue, each of its bytes changed.', bad(catalogue, *range(24), *range(24, 272, 4), *range(272, 512, 16), 511)),
        ('The catalogue of three libraries: the highest bit of each of its bytes is flipped.', [
            on(turned('three.disk', at), 'list disk', S5, 'same') for at in range(0x1400, 0x1600)]),
        ('Each field of the root and of the entry, except the length of the file: its highest bit is flipped.', [
            on(turned('one.disk', start + at), 'list disk', S5, 'same')
            for start, places in ((root, range(8, 72)), (entry, (*range(4), *range(5, 18), *range(256, 272)))) for at in places]),
    ] + old_bytes(root, entry)


def old_bytes(root, entry):
    """The root and the entry of a disk of version 1, at the places of the others, with one byte increased by one."""
    def bad(start, *places):
        return [on(raised('old-one.disk', start + at), 'upgrade disk', S5, 'same') for at in places]
    def good(at, has):
        return [on(raised('old-one.disk', at), 'upgrade disk', '0 ok', has=has)]
    return [
        ('The current root of version 1, which is upgraded. Without the magic, the root of generation 0 is current; with one more '
         'preload,\n'
         'that is a; otherwise the disk is damaged.',
         [case for at in range(7) for case in good(root + at, '0x200=524c494252454732 0x208=01 0x214=00')] + bad(root, *range(7, 22))
         + good(root + 22, '0x0=524c494252454732 0x8=02 0x14=0100 0x16=0100') + bad(root, *ROOT_BYTES)),
        ('The entry of that disk. The file may have one byte more, a zero; otherwise the disk is damaged.', bad(entry, *range(4)) + good(
            entry + 4, '0x0=524c494252454732 0x8=02 0x14=01 0x38=01 0x40=04') + bad(entry, *ENTRY_BYTES)),
    ]

#!/usr/bin/env python3
"""Writes the lists of command lines over disks, `disks.txt`, `catalogues.txt`, `bytes.txt` and `upgrades.txt` of
`data/`, and the disks and files that they name.

    python3 crates/cases/make/disks.py

It needs files that the other scripts of this folder write. Expected statuses, answers and disks come from `program.py`
over `disk.py`, a second reading of the sectors of a disk and of the changes of a registry; if a case has an answer or
sectors that were determined by hand, the two have to agree. `wrong_disks.py` has readings that break one rule each. The
script stops if no case ends differently by one of them.
"""

import catalogues
import upgrades
from make import DATA, write_list
from on_disk import (
    A, B_520, CASES, NAMED_Q, bytes_of, changed, each_command, each_opening, find_files, keep, library, listed, on, other_files, put, spelt)
from samples import DEFINED, FUNC, GLOBAL, Object, Symbol, build
from scripts import ABSOLUTE_F, SECTOR
from sectors import Entry, Root, padded, spelt_catalogue, spelt_entry, spelt_root
from wrong_disks import tell

EIGHT = 'real-lld-both.so'


def prepare():
    """Writes the files and the disks of the folder that no other list has."""
    a = (DATA / A).read_bytes()
    assert len(a) == 344 and len((DATA / NAMED_Q).read_bytes()) == 344 and len((DATA / B_520).read_bytes()) == 520
    keep('long.so', padded(a, 1536))
    keep('longer.so', padded(a, 1537))
    keep('strong.so', library(b'b', symbols=[Symbol(b'f', GLOBAL, FUNC, DEFINED)]))
    keep('hundredth.so', build(Object(needed=[b'a']))[0])
    keep('absolute.so', ABSOLUTE_F)
    keep('formatted.disk', changed(None, 'format disk 8'))
    keep('one.disk', changed(bytes_of('formatted.disk'), f'install disk {A}'))
    keep('replaced.disk', changed(bytes_of('one.disk'), f'replace disk {A}'))
    keep('full.disk', changed(bytes_of('formatted.disk'), 'install disk long.so'))
    keep('pair.disk', changed(None, 'format disk 16', 'install disk first.so', 'install disk strong.so'))
    keep('left.disk', changed(bytes_of('formatted.disk'), 'install disk first.so', 'replace disk absolute.so'))
    keep('three.disk', changed(None, 'format disk 16', f'install disk {A}', f'install disk {NAMED_Q}', f'install disk {B_520}',
                               'preload disk b a'))
    keep('gap.disk', changed(bytes_of('three.disk'), 'remove disk q'))
    keep('symbolic.disk', changed(bytes_of('pair.disk'), 'replace disk symbolic-b.so'))
    catalogues.prepare()
    find_files()


ROOT = '524c4942524547320000000000000000'  # the magic, and generation 0
EMPTY = f'bytes={ROOT}0800000000000000 pad=4096'  # a disk of 8 sectors that was formatted
ENTRY_A = '4c49424558010000010001'  # of a file of 344 bytes, a name of one byte, one extent
ONE = '4c49424301'  # a catalogue of one library


def formats():
    s4, s6 = '1 refused S4 AlreadyFormatted', '1 refused S6 BadGeometry'
    zeros = 'bytes= pad=4096'
    other = f'bytes={ROOT[:14]}33 pad=4096 0x200=@minimal.so 0x400={ROOT} 0xe00=@first.so'
    bad = ['', '0', '1', '7', '+8', '-8', '8.', '0x8', '8s', 'a', '00000008', '4194305', '9999999', '10000000', '18446744073709551624',
           '٨', '8 8', '8 ']
    return [
        ('A disk is made if none exists: zeros, except the root of generation 0 in sector 0. SECTORS has 1 to 7 digits.', [
            on('none', 'format disk 8', '0 ok', EMPTY),
            on('none', 'format disk 9', '0 ok', f'bytes={ROOT}09 pad=4608'),
            on('none', 'format disk 16', '0 ok', f'bytes={ROOT}10 pad=8192'),
            on('none', 'format disk 08', '0 ok', EMPTY),
            on('none', 'format disk 0000008', '0 ok', EMPTY),
            on('none', 'format disk 256', '0 ok', f'bytes={ROOT}0001 pad=131072')]),
        ('An existing file has to have this length. Only the root is written.', [
            on(zeros, 'format disk 8', '0 ok', EMPTY),
            on(other, 'format disk 8', '0 ok', f'same 0x0={ROOT}0800000000000000'),
            on(zeros, 'format disk 9', s6, 'same'), on(zeros, 'format disk 16', s6, 'same'),
            on('bytes= pad=8192', 'format disk 8', s6, 'same'), on('bytes= pad=4095', 'format disk 8', s6, 'same'),
            on('bytes= pad=4097', 'format disk 8', s6, 'same'), on('bytes= pad=3584', 'format disk 8', s6, 'same'),
            on('bytes=', 'format disk 8', s6, 'same')]),
        ('The magic of either version in sector 0 or 1 shows that the disk was formatted before. The length is tested first.', [
            on('formatted.disk', 'format disk 8', s4, 'same'), on('formatted.disk', 'format disk 16', s6, 'same'),
            on('one.disk', 'format disk 8', s4, 'same'), on('full.disk', 'format disk 8', s4, 'same'),
            on(f'bytes={ROOT[:16]} pad=4096', 'format disk 8', s4, 'same'),
            on(f'bytes= pad=4096 0x200={ROOT[:16]}', 'format disk 8', s4, 'same'),
            on(f'bytes= pad=4096 0x200={ROOT[:16]}', 'format disk 9', s6, 'same'),
            on(f'bytes={ROOT[:14]}31 pad=4096', 'format disk 8', s4, 'same'),
            on(f'bytes= pad=4096 0x200={ROOT[:14]}31', 'format disk 8', s4, 'same'),
            on(f'bytes= pad=4096 0x200={ROOT[:14]}31', 'format disk 9', s6, 'same'),
            on(f'bytes={ROOT[:14]}30 pad=4096', 'format disk 8', '0 ok', EMPTY),
            on('one.disk 0x0=00', 'format disk 8', s4, 'same'), on('one.disk 0x200=00', 'format disk 8', s4, 'same'),
            on('one.disk 0x0=00 0x200=00', 'format disk 8', '0 ok', 'same 0x0=52'),
            on(f'bytes= pad=4096 0x1={ROOT[:16]}', 'format disk 8', '0 ok', EMPTY),
            on(f'bytes= pad=4096 0x201={ROOT[:16]}', 'format disk 8', '0 ok'),
            on('bytes=726c69627265673200 pad=4096', 'format disk 8', '0 ok', EMPTY)]),
        ('Any other argument SECTORS is a bad command line, and no disk is made.', [
            on('none', f'format disk {word}', '2 error rlibreg: bad command line', 'none') for word in bad]),
    ]


def rows():
    return [
        ('A library is installed: its data in the lowest free sector, then its entry, then the catalogue; and the root of generation 1 '
         'in\n'
         'sector 1.', [
            on('formatted.disk', f'install disk {A}', '0 ok',
               f'same 0x200={ROOT[:16]}0100000000000000080000000100 0x238=01 0x240=04 0x400=@{A} 0x600={ENTRY_A} 0x610=61 0x700=0200000001'
               f' 0x800={ONE} 0x810=03')]),
        ('Another file replaces it: data in 5, entry in 6, catalogue in 7, generation 2 in sector 0. The old sectors stay as they are.', [
            on('one.disk', f'replace disk {A}', '0 ok',
               f'same 0x8=02 0x14=01 0x38=01 0x40=07 0xa00=@{A} 0xc00={ENTRY_A} 0xc10=61 0xd00=0500000001 0xe00={ONE} 0xe10=06')]),
        ('The removal of the last library needs no catalogue. A change of preloads, even to none, keeps the catalogue: only a root is\n'
         'written.', [
            on('one.disk', 'remove disk a', '0 ok', 'same 0x8=02'),
            on('one.disk', 'preload disk a', '0 ok', 'same 0x8=02 0x14=01000100 0x38=01 0x40=04'),
            on('one.disk', 'preload disk', '0 ok', 'same 0x8=02 0x14=01 0x38=01 0x40=04'),
            on('replaced.disk', 'remove disk a', '0 ok', 'same 0x208=03 0x214=00 0x238=00 0x240=00'),
            on('replaced.disk', 'preload disk', '0 ok', 'same 0x208=03 0x240=07')]),
        ('Setting the same preloads again is a change as well. After a removal, the list in the new catalogue has no gap, and the '
         'numbers\n'
         'of the preloads change with it.', [
            on('three.disk', 'preload disk b a', '0 ok', 'same 0x208=05 0x216=02 0x218=02 0x240=0a'),
            on('three.disk', 'preload disk q b a', '0 ok', has='0x214=03000300 0x218=010002000000 0x238=01 0x240=0a'),
            on('three.disk', 'preload disk', '0 ok', has='0x214=03000000 0x218=0000 0x238=01 0x240=0a'),
            on('three.disk', 'remove disk q', '0 ok', 'same 0x208=05 0x214=02000200 0x218=01 0x240=07 0xe04=02 0xe10=0300000004'),
            on('three.disk 0x16=0100 0x18=01000000', 'remove disk a', '0 ok',
               has=f'0x208=05 0x214=02000100 0x218=00000000 0x240=07 0xe00={ONE[:8]}02 0xe10=060000000400000000'),
            on('three.disk 0x16=0100 0x18=01000000', 'remove disk b', '0 ok', has='0x214=02000100 0x218=01000000 0xe10=030000000600000000')]),
        ('The sectors of a replaced library are free afterwards: the next change uses its data sector 2, its entry 3 and the old '
         'catalogue\n'
         '4.', [
            on('replaced.disk', f'install disk {NAMED_Q}', '0 ok',
               f'same 0x208=03 0x214=02 0x400=@{NAMED_Q} 0x610=71 0x804=02 0x810=0600000003')]),
        ('Listings.', [
            on('formatted.disk', 'list disk', '0 end', 'same'), on('one.disk', 'list disk', file='one.listing', after='same'),
            on('replaced.disk', 'list disk', file='one.listing', after='same'),
            on('full.disk', 'list disk', file='full.listing', after='same'),
            on('pair.disk', 'list disk', file='pair.listing', after='same'),
            on('three.disk', 'list disk', file='three.listing', after='same'),
            on('gap.disk', 'list disk', file='gap.listing', after='same')]),
    ]


FILE_REFUSALS = [
    ('empty', 'E1 TooShort'), ('minimal.image', 'E2 BadMagic'), ('real-32.o', 'E3 BadClass'), ('real-one.o', 'E7 BadType'),
    ('real-thread.so', 'E11 TlsSegment'), ('real-zeros.so', 'E13 TooLarge'), ('real-no-null.so', 'E15 BadDynamic'),
    ('w-verneed.so', 'E17 SymbolVersions'), ('real-rel.so', 'E18 UnsupportedTag'), ('real-gnu-hash.so', 'E19 NoHashTable'),
    ('real-gold-common.so', 'E24 CommonSymbol'), ('real-other-thread.so', 'E25 TlsSymbol'), ('real-indirect.so', 'E26 IfuncSymbol'),
    ('real-unique.so', 'E27 BadBinding'), ('twice.so', 'E28 DuplicateDefinition'), ('no-buckets.so', 'E29 BadHashTable'),
    ('real-size.so', 'E30 RelocationType 33'), ('minimal.so', 'E33 BadSoname'), ('soname-241.so', 'E33 BadSoname'),
    ('symbolic.so', 'E33 BadSoname')]


def refusals():
    last = 'one.disk 0x8=feffffffffffffff 0x208=ffffffffffffffff'
    seventeen = 'preload disk' + 17 * ' z'
    return [
        ('Files that are no libraries: the disk stays as it was.', [
            on('one.disk', f'{command} disk {file}', f'1 refused C1 {refusal}', 'same')
            for file, refusal in FILE_REFUSALS for command in ('install', 'replace')]),
        ('Names that are installed, names that are not, and preloads.', [
            on('one.disk', f'install disk {A}', '1 refused C2 AlreadyInstalled', 'same'),
            on('one.disk', 'install disk first.so', '1 refused C2 AlreadyInstalled', 'same'),
            on('one.disk', f'replace disk {NAMED_Q}', '1 refused C3 NotInstalled', 'same'),
            on('formatted.disk', f'replace disk {A}', '1 refused C3 NotInstalled', 'same'),
            on('formatted.disk', 'remove disk a', '1 refused C3 NotInstalled', 'same'),
            on('one.disk', 'remove disk A', '1 refused C3 NotInstalled', 'same'),
            on('one.disk', 'remove disk aa', '1 refused C3 NotInstalled', 'same'),
            on('one.disk', 'remove disk ', '1 refused C3 NotInstalled', 'same'),
            on('one.disk', 'remove disk é', '1 refused C3 NotInstalled', 'same'),
            on('one.disk', 'remove disk /program', '1 refused C3 NotInstalled', 'same'),
            on('three.disk', 'remove disk a', '1 refused C4 InPreloads', 'same'),
            on('three.disk', 'remove disk b', '1 refused C4 InPreloads', 'same'),
            on('one.disk', 'preload disk z', '1 refused C3 NotInstalled', 'same'),
            on('one.disk', 'preload disk a z', '1 refused C3 NotInstalled', 'same'),
            on('one.disk', 'preload disk ', '1 refused C3 NotInstalled', 'same'),
            on('one.disk', 'preload disk a a', '1 refused C5 RepeatedPreload', 'same'),
            on('one.disk', 'preload disk z z', '1 refused C5 RepeatedPreload', 'same'),
            on('one.disk', 'preload disk' + 16 * ' z', '1 refused C5 RepeatedPreload', 'same'),
            on('one.disk', seventeen, '1 refused C6 TooManyPreloads', 'same')]),
        ('Six of eight sectors are free. 1,536 bytes, their entry, and the catalogue, which counts twice, take all of them. For one byte\n'
         'more there is no room. A removal always has room.', [
            on('formatted.disk', 'install disk long.so', '0 ok'),
            on('formatted.disk', 'install disk longer.so', '1 refused S7 Full', 'same'),
            on('formatted.disk', 'install disk real-none.so', '0 ok'),
            on('formatted.disk', 'install disk linked-front.so', '1 refused S7 Full', 'same'),
            on('full.disk', f'replace disk {A}', '1 refused S7 Full', 'same'),
            on('full.disk', 'replace disk long.so', '1 refused S7 Full', 'same'),
            on('full.disk', f'install disk {NAMED_Q}', '1 refused S7 Full', 'same'),
            on('full.disk', 'remove disk a', '0 ok', 'same 0x8=02'),
            on('full.disk', 'preload disk a', '0 ok', 'same 0x8=02 0x14=01000100 0x38=01 0x40=06')]),
        ('Two sectors are free besides a library and its catalogue: enough for one sector of data, but not for two.', [
            on('one.disk', f'install disk {NAMED_Q}', '0 ok', has='0x40=07 0xe04=02 0xe10=0300000006'),
            on('one.disk', 'install disk soname-240.so', '1 refused S7 Full', 'same'),
            on('one.disk', 'replace disk long.so', '1 refused S7 Full', 'same'),
            on('one.disk', 'replace disk first.so', '0 ok')]),
        ('The order of the tests: the file, its name, the generation, the room.', [
            on('one.disk', 'install disk long.so', '1 refused C2 AlreadyInstalled', 'same'),
            on('one.disk', 'replace disk real-started.so', '1 refused C3 NotInstalled', 'same'),
            on('full.disk', 'install disk minimal.so', '1 refused C1 E33 BadSoname', 'same')]),
        ('After the last generation no change is made, and reading still works. The other tests come first, except that of the room.', [
            on(last, f'install disk {NAMED_Q}', '1 refused S10 GenerationEnd', 'same'),
            on(last, 'install disk real-started.so', '1 refused S10 GenerationEnd', 'same'),
            on(last, f'replace disk {A}', '1 refused S10 GenerationEnd', 'same'),
            on(last, 'replace disk longer.so', '1 refused S10 GenerationEnd', 'same'),
            on(last, 'remove disk a', '1 refused S10 GenerationEnd', 'same'),
            on(last, 'preload disk a', '1 refused S10 GenerationEnd', 'same'),
            on(last, 'preload disk', '1 refused S10 GenerationEnd', 'same'),
            on(last, f'install disk {A}', '1 refused C2 AlreadyInstalled', 'same'),
            on(last, 'install disk minimal.so', '1 refused C1 E33 BadSoname', 'same'),
            on(last, 'remove disk z', '1 refused C3 NotInstalled', 'same'),
            on(last, 'preload disk z', '1 refused C3 NotInstalled', 'same'), on(last, 'list disk', file='one.listing', after='same'),
            on(last, 'bind disk minimal.so 0x10000', '0 file minimal.image', 'same', file='minimal.image')]),
        ('The generation before the last, and generations whose successor carries into further bytes.', [
            on('one.disk 0x8=feffffffffffffff 0x208=fdffffffffffffff', 'preload disk', '0 ok',
               'same 0x208=ff 0x214=00 0x238=00 0x240=00'),
            on('one.disk 0x8=fe 0x208=ff', 'preload disk', '0 ok', 'same 0x8=0001 0x14=01 0x38=01 0x40=04'),
            on('one.disk 0x8=feffffff 0x208=ffffffff', 'remove disk a', '0 ok', 'same 0x8=0000000001'),
            on('one.disk 0x8=feffffff00 0x208=fdffffff00', 'preload disk', '0 ok',
               'same 0x208=ff 0x214=00 0x238=00 0x240=00')]),
    ]


def entry(name, length, *extents):
    return spelt_entry(Entry(name, length, list(extents)))


def with_sectors(count, sectors):
    """Returns a disk of `count` sectors, some of which have these bytes."""
    disk = bytearray(SECTOR * count)
    for k, content in sectors.items():
        put(disk, SECTOR * k, content)
    return spelt(bytes(disk))


def laid_out(count, catalogue, *libraries):
    """Returns a disk of generation 0 with its catalogue at this place and these libraries: the sector of the entry,
    the name, the file, and the file's extents."""
    sectors = {0: spelt_root(Root(2, 0, count, len(libraries), [], [catalogue])),
               catalogue: spelt_catalogue([at for at, _, _, _ in libraries])}
    for at, name, file, extents in libraries:
        sectors[at] = entry(name, len(file), *extents)
        sectors[extents[0][0]] = file[:SECTOR]
    return with_sectors(count, sectors)


def apart_file(file, *extents, turned=False):
    """Returns a disk of 12 sectors with the library none.so in these extents. The entry names the extents in this
    order, or in the opposite order."""
    sectors = {0: spelt_root(Root(2, 0, 12, 1, [], [8])), 8: spelt_catalogue([10]),
               10: entry(b'none.so', len(file), *(reversed(extents) if turned else extents))}
    places = [start + k for start, count in extents for k in range(count)]
    sectors.update((at, file[SECTOR * k:SECTOR * (k + 1)]) for k, at in enumerate(places))
    return with_sectors(12, sectors)


def of_one_sector(*places):
    return [(k, 1) for k in places]


def room():
    """The sectors that a file takes: the longest free runs first, of equally long runs the lower one first, and the
    front of the last run."""
    exclamation, other = 'soname-good-1.so', 'real-large.so'
    assert len((DATA / other).read_bytes()) == 33 * SECTOR - 136
    a, q = (DATA / A).read_bytes(), (DATA / NAMED_Q).read_bytes()
    scattered = padded(a, 32 * SECTOR)
    odd = range(3, 65, 2)
    # 35 runs of one sector are free: 2, 4, .. 70. In the other disk, these are free: 2, 4, .. 62, 64 with 65, 67, 69
    # and 71.
    apart = laid_out(73, 72, (67, b'a', scattered, of_one_sector(*odd, 65)), (71, b'q', q, [(69, 1)]))
    nearer = laid_out(74, 73, (68, b'a', scattered, of_one_sector(*odd, 66)), (72, b'q', q, [(70, 1)]))
    # These are free: 2 with 3, 6 with 7, and 9 with all later sectors.
    pairs = laid_out(11, 8, (5, b'a', a, [(4, 1)]))
    triple = laid_out(12, 8, (5, b'a', a, [(4, 1)]))
    none = (DATA / 'real-none.so').read_bytes()
    assert len(none) == 1456
    return [
        ('The free sectors are 5 and 6, and 10 to 15. The data goes into the longer run, the entry and the catalogue into the lowest\n'
         'sectors.', [
            on('gap.disk', f'install disk {exclamation}', '0 ok',
               has=f'0x8=06 0x14=03000200 0x18=0100 0x38=01 0x40=06 0xa00={ENTRY_A} 0xa10=2100 0xb00=0a00000001 0x1400=@{exclamation}'
               ' 0xc00=4c49424303 0xc10=030000000400000005'),
            on('gap.disk', 'install disk soname-240.so', '0 ok', has='0x40=06 0xc10=030000000400000005 0xb00=0a00000002 0x1400=@soname-240.so'),
            on('gap.disk', 'install disk real-none.so', '0 ok', has='0x40=06 0xc10=030000000400000005 0xb00=0a00000003 0x1400=@real-none.so'),
            on('gap.disk', 'install disk real-started.so', '0 ok', has='0x40=06 0xb00=0a00000006 0x1400=@real-started.so'),
            on('gap.disk', 'install disk real-ld-sysv.so', '1 refused S7 Full', 'same'),
            on('gap.disk', f'install disk {EIGHT}', '1 refused S7 Full', 'same'),
            on('gap.disk', f'replace disk {A}', '0 ok', has=f'0x40=06 0xc10=050000000400000000 0xb00=0a00000001 0x1400=@{A} 0x400=@{A}'),
            on('gap.disk', 'replace disk protected.so', '0 ok', has='0x40=06 0xc10=030000000500000000 0xb00=0a00000001 0x1400=@protected.so'),
            on('gap.disk', 'install disk soname-good-3.so', '0 ok', has='0x40=06 0xc10=030000000400000005 0x1400=@soname-good-3.so')]),
        ('Three free runs of two sectors: the data goes into the lowest and into the front of the next, the entry comes after it, and '
         'the\n'
         'catalogue after the entry.', [
            on(pairs, f'install disk {NAMED_Q}', '0 ok', has=f'0x208=01 0x214=02 0x238=01 0x240=06 0x400=@{NAMED_Q} 0x700=0200000001'
               ' 0xc00=4c49424302 0xc10=0500000003'),
            on(pairs, 'install disk soname-240.so', '0 ok', has='0x240=07 0x400=@soname-240.so 0xd00=0200000002 0xe10=0500000006'),
            on(pairs, 'install disk real-none.so', '0 ok', has='0x240=09 0xe0a=02 0xf00=02000000020000000600000001 0x1210=0500000007'),
            on(pairs, 'install disk linked-functions.so', '0 ok', has='0x240=0a 0x120a=02 0x1300=02000000020000000600000002 0x1410=0500000009'),
            on(pairs, 'install disk linked-base.so', '1 refused S7 Full', 'same'),
            on(pairs, f'replace disk {A}', '0 ok', has='0x214=01 0x240=06 0x700=0200000001 0xc10=03')]),
        ('Free are two runs of two sectors and one of three. The data goes into all of the latter, and then into the front of the lower\n'
         'one of the others.', [
            on(triple, 'install disk real-none.so', '0 ok', has='0x240=03 0x500=0900000003 0x610=0500000002'),
            on(triple, 'install disk linked-functions.so', '0 ok',
               has='0x240=06 0x60a=02 0x700=09000000030000000200000001 0xc10=0500000003'),
            on(triple, 'install disk linked-base.so', '0 ok', has='0x240=07 0xc0a=02 0xd00=09000000030000000200000002 0xe10=0500000006'),
            on(triple, 'install disk real-started.so', '1 refused S7 Full', 'same')]),
        ("All 512 bytes of a sector are bytes of a file, or zeros after them. A free sector that isn't used stays as it is.", [
            on('formatted.disk', 'install disk index-0.so', '0 ok'),
            on('formatted.disk 0x500=ff 0x558=ff 0x5ff=ff 0x620=ff 0x7ff=ff 0x806=ff 0x814=ff 0x9ff=ff 0xa00=ff 0xfff=ff', f'install disk {A}',
               '0 ok'),
            on('formatted.disk 0x200=52 0x240=ff 0x3ff=ff', f'install disk {A}', '0 ok')]),
        ('A file needs 33 sectors, and 35 are free, but none next to another: these are too many runs. If a library is removed, its\n'
         'sectors are free for the file.', [
            on(apart, f'install disk {other}', '1 refused S8 Fragmented', 'same'),
            on(apart, f'install disk {exclamation}', '0 ok', has='0x240=06 0x810=21 0x900=0200000001 0xc10=430000004700000004'),
            on(apart, 'remove disk q', '0 ok', has='0x214=01 0x240=02 0x410=43'),
            on(apart + ' 0x0=00', f'install disk {other}', '1 refused S3 NotFormatted', 'same')]),
        ('A file of 1,456 bytes, whose first sector is 9 and whose others are 4 and 5. In the order 4, 5 and 9 its bytes are no library.', [
            listed(apart_file(none, (9, 1), (4, 2)), 'none.listing'),
            on(apart_file(none, (9, 1), (4, 2)), 'upgrade disk', '0 ok', 'same'),
            on(apart_file(none, (9, 1), (4, 2), turned=True), 'list disk', '1 refused S5 Damaged', 'same')]),
        ('33 sectors in 32 runs, one of which has two sectors: that run is used first. The entry comes after all of them, and the\n'
         'catalogue after the entry.', [
            on(nearer, f'install disk {other}', '0 ok', has='0x240=45 0x8604=78410000 0x860a=2000 0x8700=40000000020000000200000001'
               ' 0x87f8=3e00000001 0x8a00=4c49424303 0x8a10=440000004800000043')]),
    ]


def damaged():
    s5, zeros, pair = '1 refused S5 Damaged', bytes(344).hex(), bytes_of('pair.disk')
    bad_roots = ['0x208=02', '0x208=03', '0x208=00', '0x210=09', '0x210=07', '0x210=00', '0x213=01', '0x214=00', '0x214=02', '0x214=41',
                 '0x215=08', '0x216=02', '0x216=11', '0x216=01 0x218=01', '0x218=01', '0x236=01', '0x238=00', '0x238=02', '0x239=01', '0x23a=01',
                 '0x23f=01', '0x240=00', '0x240=01', '0x240=02', '0x240=03', '0x240=05', '0x240=08', '0x243=01', '0x244=04', '0x244=05', '0x2bc=01',
                 '0x2c0=01', '0x3ff=01']
    bad_entries = ['0x600=00', '0x603=00', '0x604=00', '0x604=57', '0x605=02', '0x605=03', '0x607=01', '0x608=00', '0x608=02', '0x609=01',
                   '0x60a=00', '0x60a=02', '0x60a=21', '0x60c=01', '0x60f=01', '0x610=00', '0x610=62', '0x610=20', '0x610=2f', '0x610=7f',
                   '0x611=61', '0x611=01', '0x6ff=01', '0x700=00', '0x700=01', '0x700=03', '0x700=04', '0x700=05', '0x700=08', '0x702=01', '0x704=00',
                   '0x704=02', '0x708=01', '0x7ff=01']
    no_root = f'0x200={bytes(25).hex()} 0x238=00 0x240=00'  # zeros in sector 1
    none, no_older = f'one.disk {no_root}', f'0x0={bytes(24).hex()}'  # and in sector 0
    new_changes = [no_older, '0x207=31', '0x800=0000000000 0x810=00', '0x804=02 0x814=05', '0x810=08']
    told_changes = ['0x210=09', '0x238=00', '0x238=02', '0x240=08', '0x240=03', '0x810=04', '0x700=03', '0x700=04', '0x610=62', f'0x400={zeros}']
    s4 = '1 refused S4 AlreadyFormatted'
    return [
        ('Sector 1 has no root: the disk has the registry of generation 0, and the next installation makes generation 1 again.', [
            on('one.disk 0x200=00', 'list disk', '0 end', 'same'), on(none, 'list disk', '0 end', 'same'),
            on('one.disk 0x207=33', 'list disk', '0 end', 'same'), on(none, f'install disk {NAMED_Q}', '0 ok'),
            on('one.disk 0x200=00', f'install disk {A}', '0 ok', 'same 0x200=52'),
            on('one.disk 0x200=00', 'remove disk a', '1 refused C3 NotInstalled', 'same'),
            on('one.disk 0x200=00', 'preload disk', '0 ok', 'same 0x200=52 0x214=00 0x238=00 0x240=00')]),
        ('If the generations of two roots differ by one, the later root is current.', [
            listed('one.disk 0x8=02 0x208=03', 'one.listing'), on('one.disk 0x8=04 0x208=03', 'list disk', '0 end', 'same'),
            on('one.disk 0x8=02', 'list disk', '0 end', 'same'), on('one.disk 0x8=02', f'install disk {A}', '0 ok', 'same 0x208=03'),
            on('replaced.disk 0x0=00', 'list disk', s5, 'same'), on('replaced.disk 0x200=00', 'list disk', s5, 'same')]),
        ("Any other two roots are damaged: generations that differ by more, only one root whose generation isn't 0, and a root in the\n"
         'wrong sector.', [
            on('one.disk 0x8=04 0x208=07', 'list disk', s5, 'same'), on('one.disk 0x8=06 0x208=03', 'list disk', s5, 'same'),
            on('one.disk 0x0=00', 'list disk', s5, 'same'), on('formatted.disk 0x8=02', 'list disk', s5, 'same'),
            on('formatted.disk 0x8=01', 'list disk', s5, 'same'), on('one.disk 0x8=03 0x208=02', 'list disk', s5, 'same'),
            on('one.disk 0x8=01 0x208=02', 'list disk', s5, 'same'), on('one.disk 0x8=01', 'list disk', s5, 'same'),
            on('one.disk 0x8=04 0x208=04', 'list disk', s5, 'same'), on('one.disk 0x208=ffffffffffffffff', 'list disk', s5, 'same'),
            on('one.disk 0x8=feffffffffffffff', 'list disk', s5, 'same'),
            on(f'bytes= pad=4096 0x200={ROOT}08', 'list disk', s5, 'same'), on(f'{EMPTY} 0x200={ROOT}08', 'list disk', s5, 'same')]),
        ('A root with one or two bytes changed, also the older one of two roots.', [on(f'one.disk {change}', 'list disk', s5, 'same') for change in bad_roots] + [
            on('one.disk 0x14=01', 'list disk', s5, 'same'), on('one.disk 0x1ff=01', 'list disk', s5, 'same'),
            on('one.disk 0x38=01', 'list disk', s5, 'same'), on('one.disk 0x10=07', 'list disk', s5, 'same'),
            on('one.disk 0x8=01', 'list disk', s5, 'same'),
            on('formatted.disk 0x10=09', 'list disk', s5, 'same'), on('formatted.disk 0x3f=01', 'list disk', s5, 'same')]),
        ('Other roots: one with a preload; and an older root that is of a disk of another size, or whose catalogue is none.', [
            listed('one.disk 0x216=01', 'one-preloaded.listing'), listed('one.disk 0x10=09', 'one.listing'),
            listed('one.disk 0x14=01 0x38=01 0x40=07', 'one.listing')]),
        ('An entry with one byte changed.', [on(f'one.disk {change}', 'list disk', s5, 'same') for change in bad_entries]),
        ('Other entries: one byte more of the file; one sector more than the file takes, which is free; only the free sectors.', [
            listed('one.disk 0x604=59', 'one-345.listing'), on(f'one.disk 0x700=0500000002 0xa00=@{A}', 'list disk', s5, 'same'),
            listed(f'one.disk 0x700=0500000001 0xa00=@{A}', 'one.listing')]),
        ('A file that is no longer a library is damage. Bytes of a file that no test reads, bytes after the file, and bytes of free\n'
         'sectors may have any values.', [
            on('one.disk 0x400=00', 'list disk', s5, 'same'), on(f'one.disk 0x400={zeros}', 'list disk', s5, 'same'),
            on('one.disk 0x410=02', 'list disk', s5, 'same'), on('full.disk 0x412=28', 'list disk', s5, 'same'),
            listed('one.disk 0x550=ffffffffffffffff', 'one.listing'), listed('one.disk 0x558=ff 0x5ff=ff 0xa00=ff 0xfff=ff', 'one.listing')]),
        ("Two libraries whose files have one name, have each other's names, or are zeros: an opening and an upgrade detect each case.", [
            on(f'pair.disk {change}', words, s5, 'same') for change in other_files('0x400', '0xa00') for words in ('list disk', 'upgrade disk')]),
        ("Two libraries: a sector that is used twice, two equal names, an entry that is also the other's; and the list in the reverse\n"
         'order.', [
            on(f'pair.disk {change}', 'list disk', s5, 'same') for change in (
                '0xe14=03', '0xe14=02', '0xe14=07', '0xd00=02', '0xd00=03', '0xd00=07', '0x700=05', '0x710=01', '0xc10=61', '0x610=62',
                '0xe10=0600000003 0x610=62')] + [on('pair.disk 0xe10=0600000003', 'list disk', file='pair-turned.listing', after='same')]),
        ('Both libraries have the first entry; a catalogue takes the place of the second entry, and a root the place of the catalogue.', [
            on(f'pair.disk 0x{at:x}={pair[start:start + SECTOR].hex()}', 'list disk', s5, 'same')
            for at, start in ((0xc00, 0x600), (0xc00, 0xe00), (0xe00, 0x0))]),
        ('A file of two extents, of which the one with the higher sectors comes first.', [
            listed(f'full.disk 0xa0a=02 0xb00=04000000010000000200000002 0x400={zeros} 0x800=@{A}', 'full.listing')]),
        ('A file of two extents that follow each other; one of its sectors twice; and the sector of its entry, of the catalogue, after '
         'the\n'
         'end of the disk, or of a root.', [
            listed('full.disk 0xa0a=02 0xb00=02000000010000000300000002', 'full.listing'),
            listed('full.disk 0xa0a=02 0xb00=02000000020000000400000001', 'full.listing'),
            listed('full.disk 0xa0a=02 0xb00=02000000020000000700000001', 'full.listing')] + [
            on(f'full.disk 0xa0a=02 0xb00={extents}', 'list disk', s5, 'same') for extents in (
                '02000000020000000300000001', '02000000020000000500000001', '02000000020000000600000001', '02000000020000000800000001',
                '02000000020000000100000001', '02000000020000000400000002', '02000000010000000300000001', '03000000020000000200000001',
                '02000000030000000400000000')]),
        ('A damaged disk is damaged for an upgrade too, and was formatted before. The root is missing, has another number of sectors, '
         'has\n'
         'no catalogue or two, has a catalogue after the end of the disk or the entry as a catalogue, or is of version 1. The catalogue '
         'is\n'
         'none, or lists two entries, one after the end of the disk, or itself. The file of the entry has the sector of the entry or of\n'
         'the catalogue. The entry has another name, or its file is no library.', [
            on(f'one.disk {change}', 'list disk', s5, 'same') for change in new_changes] + [
            on(f'one.disk {change}', words, wanted, 'same') for change in new_changes + told_changes
            for words, wanted in (('upgrade disk', s5), ('format disk 8', s4))]),
        ('The same damage without the root of generation 1, which is then no damage; and without either root.', [
            on(none, 'upgrade disk', '0 ok', 'same'), on(none, 'format disk 8', s4, 'same'),
            on(f'one.disk {no_older} {no_root}', 'list disk', '1 refused S3 NotFormatted', 'same'),
            on(f'one.disk {no_older} {no_root}', 'upgrade disk', '1 refused S3 NotFormatted', 'same'),
            on(f'one.disk {no_older} {no_root}', 'format disk 8', '0 ok', f'same 0x0={ROOT}08')]),
        ('Each command on a damaged disk.', each_opening('one.disk 0x0=00', s5)),
        ('Each command on a disk that was not formatted.', each_opening('bytes= pad=4096', '1 refused S3 NotFormatted')),
        ('The magic of either version, without a root after it.', [
            on(f'bytes={magic} pad=4096', words, '1 refused S5 Damaged', 'same')
            for magic in ('524c494252454731', '524c494252454732') for words in ('list disk', 'upgrade disk')]),
        ('Each command on a file that is no disk: half a sector, one byte, seven sectors, and no bytes.',
         [case for before in ('one.disk cut=3840', 'one.disk pad=4097', 'one.disk cut=3584', 'empty')
          for case in each_opening(before, '1 refused S6 BadGeometry')]),
        ('A disk that is a sector shorter or longer than its root says is damaged; and nine sectors without a registry.', [
            on('pair.disk cut=7680', 'list disk', s5, 'same'), on('one.disk pad=4608', 'list disk', s5, 'same'),
            on('one.disk 0x10=00004000 0x210=00004000', 'list disk', s5, 'same'),
            on('bytes= pad=4608', 'list disk', '1 refused S3 NotFormatted', 'same')]),
        ('Zeros: one sector and two, which are too few; nine; and a thousand.', [
            on(f'bytes= pad={512 * sectors}', words, wanted, 'same')
            for sectors, wanted in ((1, '1 refused S6 BadGeometry'), (2, '1 refused S6 BadGeometry'), (9, '1 refused S3 NotFormatted'),
                                    (1000, '1 refused S3 NotFormatted'))
            for words in ('list disk', 'upgrade disk') if (sectors, words) != (9, 'list disk')]),
    ]


def scripts():
    def run(before, name, status):
        return on(before, 'script disk', f'{status} file script-{name}.output', given=f'script-{name}.script', file=f'script-{name}.output')
    sixty_four = f'bytes={ROOT}40 pad=32768'
    line = 'bytes=6c6973740a'
    return [
        ('Each command of a registry, and most of its refusals, on eight sectors.', [run('formatted.disk', 'commands', 1)]),
        ('The empty script; half a byte; an empty line; a last line without a newline; and a line that is cut within a word.', [
            on('formatted.disk', 'script disk', '0 nothing', 'same', 'bytes='), on('formatted.disk', 'script disk', '0 nothing', 'same'),
            on('formatted.disk', 'script disk', '1 refused L1 BadLine', 'same', 'bytes=696e7374616c6c203766340a'),
            on('formatted.disk', 'script disk', '1 refused L1 BadLine', 'same', 'bytes=0a'), run('formatted.disk', 'cut', 1),
            on('formatted.disk', 'script disk', '0 end', 'same', line),
            on('formatted.disk', 'script disk', '1 refused L2 CutLine', 'same', line + ' cut=4'),
            on('one.disk', 'script disk', '1 refused L2 CutLine', 'same', 'bytes=72656d6f76652061'),
            on('one.disk', 'script disk', '0 ok', 'same 0x8=02', 'bytes=72656d6f766520610a')]),
        ('Eight sectors that are full, and twelve. A file that replaces another one needs room of its own.', [
            run('formatted.disk', 'full', 1), run(f'bytes={ROOT}0c pad=6144', 'fuller', 1), run('formatted.disk', 'replace-full', 1)]),
        ('Removals, preloads, places, names, digits, files that are refused, and the orders of the tests, on 64 sectors.', [
            run(sixty_four, name, status) for name, status in (
                ('remove', 0), ('digits', 0), ('preloads', 1), ('refused', 1), ('order', 1), ('names', 1), ('places', 1))]),
        ('Binds against the current state: none of them changes the disk.', [
            run(sixty_four, name, status) for name, status in (
                ('bind-alone', 0), ('bind-levels', 0), ('bind-state', 1), ('bind-segments', 1), ('bind-protected', 0), ('bind-files', 1),
                ('bind-refused', 1), ('bind-names', 1), ('session', 1))]),
        ('Binders: the sectors that a binder uses stay until the binder ends.', [
            run('formatted.disk', name, 1) for name in ('binder', 'binder-removed', 'binder-cancelled', 'binder-stepped', 'slots')]
            + [run(sixty_four, name, 1) for name in ('binders', 'binder-refused', 'slots-freed')]),
        ('A binder that exists at the end of a script leaves nothing on the disk: the next commands can use its sectors.', [
            on('formatted.disk', 'script disk', '0 file script-binder-left.output', 'left.disk', 'script-binder-left.script',
               'script-binder-left.output'),
            on('left.disk', 'script disk', '1 refused C8 NoSuchBinder', 'same', 'bytes=' + b'advance 0\n'.hex()),
            on('left.disk', 'replace disk absolute.so', '0 ok', has='0x400=@absolute.so'),
            on('left.disk', 'remove disk a', '0 ok')]),
        ('Binds against symbolic libraries.', [
            run(sixty_four, name, status) for name, status in (
                ('bind-symbolic', 0), ('bind-flags', 0), ('symbolic-first', 1), ('symbolic-refused', 1))]),
    ]


def tells_b(word, *files):
    """Checks that b's word of f, the last of its line, is this word in these texts."""
    line = '0' * 16 + word.to_bytes(8, 'little').hex()
    for file in files:
        *_, of_b = (DATA / file).read_text().split('object ')
        assert line in of_b.splitlines(), file


def symbolic_binds(base):
    parts = [
        ('A symbolic library is stored like any other: it replaces b, and is installed, listed and bound. Then its tag on the disk is\n'
         'changed to FLAGS 0, 2 and 8, and to REL, which no library may have.', [
            on('pair.disk', 'replace disk symbolic-b.so', '0 ok', has='0x208=03 0x214=02 0x240=09 0x900=0800000001 0x1000=@symbolic-b.so'
               ' 0x1210=0300000004'),
            on('formatted.disk', 'install disk symbolic-b.so', '0 ok', has='0x208=01 0x214=01 0x240=04 0x400=@symbolic-b.so'),
            on('formatted.disk', 'install disk real-symbolic.so', '0 ok', has='0x208=01 0x214=01 0x240=06 0x400=@real-symbolic.so'),
            on('symbolic.disk', 'list disk', file='symbolic.listing', after='same'),
            on('symbolic.disk', f'bind disk asking.so {base}', '0 file symbolic.image', 'same', file='symbolic.image'),
            on('symbolic.disk 0x11a8=1e00000000000000', f'bind disk asking.so {base}', file='disk-no-flag.image', after='same'),
            on('symbolic.disk 0x11a8=1e0000000000000002', f'bind disk asking.so {base}', file='disk-flag.image', after='same'),
            on('symbolic.disk 0x11a8=1e0000000000000008', f'bind disk asking.so {base}', file='disk-other-flag.image', after='same'),
            on('symbolic.disk 0x11a8=11', 'list disk', '1 refused S5 Damaged', 'same'),
            on('symbolic.disk 0x11a8=11', f'bind disk asking.so {base}', '1 refused S5 Damaged', 'same')])]
    tells_b(0x121d0, 'symbolic.image', 'disk-flag.image')
    tells_b(0x11170, 'disk-no-flag.image', 'disk-other-flag.image')
    return parts


def binds():
    base = '0x10000'
    return symbolic_binds(base) + [
        ('A program that needs a and b is bound against the disk. With b as a preload, the f of b is the first definition.', [
            on('pair.disk', f'bind disk asking.so {base}', '0 file first.image', 'same', file='first.image'),
            on('pair.disk 0x16=0100 0x18=0100', f'bind disk asking.so {base}', file='disk-preloaded.image', after='same'),
            on('pair.disk 0xe10=0600000003', f'bind disk asking.so {base}', '0 file first.image', 'same', file='first.image'),
            on('formatted.disk', f'bind disk minimal.so {base}', '0 file minimal.image', 'same', file='minimal.image')]),
        ('Refusals because of the program, the base, a missing name, the room, or a symbol.', [
            on('pair.disk', f'bind disk empty {base}', '1 refused B1 E1 TooShort', 'same'),
            on('pair.disk', f'bind disk minimal.image {base}', '1 refused B1 E2 BadMagic', 'same'),
            on('pair.disk', f'bind disk real-size.so {base}', '1 refused B1 E30 RelocationType 33', 'same'),
            on('pair.disk', f'bind disk twice.so {base}', '1 refused B1 E28 DuplicateDefinition', 'same'),
            on('pair.disk', 'bind disk asking.so 0x10001', '1 refused B2 BadBase', 'same'),
            on('pair.disk', 'bind disk empty 0x10001', '1 refused B1 E1 TooShort', 'same'),
            on('formatted.disk', f'bind disk asking.so {base}', '1 refused B3 Missing /program a', 'same'),
            on('one.disk', f'bind disk asking.so {base}', '1 refused B3 Missing /program b', 'same'),
            on('formatted.disk', 'bind disk asking.so 0x10001', '1 refused B2 BadBase', 'same'),
            on('formatted.disk', 'bind disk asking.so 0x7ffffffff000', '1 refused B3 Missing /program a', 'same'),
            on('formatted.disk', 'bind disk minimal.so 0x7ffffffff000', '1 refused B4 NoRoom', 'same'),
            on('pair.disk', 'bind disk asking.so 0x7fffffffe000', '1 refused B4 NoRoom', 'same'),
            on('formatted.disk', f'bind disk value-undefined.so {base}', '1 refused B5 Undefined /program f', 'same'),
            on('pair.disk', f'bind disk value-undefined.so {base}', '1 refused B5 Undefined /program f', 'same')]),
        ('Every base with a bad form is refused before any file is opened.', [
            on('one.disk', f'bind disk {file} {word}', '2 error rlibreg: bad base', 'same') for file, word in (
                ('minimal.so', '0x'), ('minimal.so', '10000'), ('minimal.so', '0X1'), ('minimal.so', '0x00000000000010000'), ('minimal.so', '0xg'),
                ('minimal.so', ''), ('minimal.so', '0x-1'), ('no-such-file', '0x'))] + [
            on('none', 'bind disk no-such-file 0x', '2 error rlibreg: bad base', 'none'),
            on('empty', 'bind disk minimal.so x', '2 error rlibreg: bad base', 'same')]),
    ]


def missing():
    no_disk = '3 error rlibreg: cannot read disk'
    no_file = '3 error rlibreg: cannot read no-such-file'
    return [
        ("A disk that doesn't exist: only `format` makes one.", each_opening('none', no_disk)),
        ("A file that doesn't exist. It is read before the disk is opened.", [
            on(before, command, no_file, 'same') for before in ('one.disk', 'none', 'empty', 'one.disk 0x0=00') for command in (
                'install disk no-such-file', 'replace disk no-such-file', 'bind disk no-such-file 0x10000')]),
        ('Paths of things that are no regular files, paths that lead nowhere, and the empty path.', [
            on('one.disk', f'{words}', f'3 error rlibreg: cannot read {path}', 'same') for words, path in (
                ('list .', '.'), ('upgrade .', '.'), ('upgrade no-such-disk', 'no-such-disk'), ('upgrade ', ''), ('list ', ''), ('list one.disk/disk', 'one.disk/disk'), ('list no-such-folder/disk', 'no-such-folder/disk'),
                ('format . 8', '.'), ('format no-such-folder/disk 8', 'no-such-folder/disk'), ('format  8', ''),
                ('remove . a', '.'), ('preload .', '.'), ('script .', '.'), ('script no-such-disk', 'no-such-disk'),
                (f'install . {A}', '.'), (f'replace no-such-disk {A}', 'no-such-disk'), ('install disk .', '.'), ('install disk ', ''),
                ('replace disk .', '.'), ('bind disk . 0x10000', '.'), ('bind . minimal.so 0x10000', '.'), ('bind no-such-disk . 0x10000', '.'))]),
        ('The disk itself as the file of a library: it is none.', [
            on('one.disk', 'install disk disk', '1 refused C1 E2 BadMagic', 'same'),
            on('one.disk', 'bind disk disk 0x0', '1 refused B1 E2 BadMagic', 'same'),
            on('empty', 'install disk disk', '1 refused S6 BadGeometry', 'same'), on('none', 'install disk disk', no_disk, 'none')]),
        ('An upgrade of a disk of version 2 only opens the disk: nothing is written.', [
            on(disk, 'upgrade disk', '0 ok', 'same') for disk in ('formatted.disk', 'one.disk', 'replaced.disk', 'full.disk', 'three.disk', 'gap.disk')]),
    ]


def command_lines():
    bad = '2 error rlibreg: bad command line'
    lines = ['', 'format', 'format disk', 'format disk 8 8', f'install disk {A} {A}', 'install disk', 'install', f'replace disk {A} more',
             'replace disk', 'replace', 'remove disk', 'remove', 'remove disk a a', 'preload', 'list', 'list disk disk', 'list disk ', 'bind disk minimal.so',
             'bind disk', 'bind', 'bind disk minimal.so 0x10000 0x10000', 'bind disk minimal.so 0x10000 ', 'script', 'script disk disk', 'script disk ',
             'Install disk a', 'LIST disk', 'lists disk', 'lis disk', ' list disk', 'list  disk', 'disk list', '--help', '-h', 'help', 'delete disk a',
             'open disk', 'image disk', 'install  disk ' + A, '-- list disk', 'upgrade', 'upgrade disk disk', 'upgrade disk ', 'upgrade  disk',
             'Upgrade disk', 'upgrades disk', 'upgrade disk 8']
    return [
        ('One argument too few or too many, and words that are no command.', [on('one.disk', words, bad, 'same') for words in lines]),
        ('Such command lines make no disk.', [on('none', words, bad, 'none') for words in ('format disk', 'format disk 8 8', 'Format disk 8', 'format 8 disk')]),
    ]


def wrong():
    """Cases that are wrong on purpose. They have to differ from the right ones."""
    lines = ['on formatted.disk run format disk 8 =/> 0 refused S4 AlreadyFormatted then same',
             'on formatted.disk run format disk 8 =/> 1 refused S6 BadGeometry then same',
             'on formatted.disk run format disk 8 =/> 1 refused S4 AlreadyFormatted then none',
             'on formatted.disk run format disk 8 =/> 1 refused S4 AlreadyFormatted then same pad=4097',
             'on formatted.disk run format disk 8 =/> 1 refused S4 AlreadyFormatted then same cut=4095',
             'on formatted.disk run format disk 8 =/> 1 refused S4 AlreadyFormatted then same 0xfff=01',
             'on formatted.disk run format disk 8 =/> 1 refused S4 AlreadyFormatted then same 0x0=53',
             'on formatted.disk run format disk 8 =/> 1 error refused S4 AlreadyFormatted then same',
             'on formatted.disk run format disk 8 =/> 1 refused S4 AlreadyFormatted then one.disk',
             'on none run list disk =/> 3 error rlibreg: cannot read disk then empty',
             'on none run list disk =/> 3 error rlibreg: cannot read disk then formatted.disk',
             'on none run format disk 8 =/> 0 ok then none', 'on none run format disk 8 =/> 0 ok then same',
             'on none run format disk 8 =/> 0 ok then bytes= pad=4096', 'on one.disk run remove disk a =/> 0 ok then same',
             'on one.disk run remove disk a =/> 0 ok then same 0x208=02', 'on one.disk run remove disk a =/> 0 nothing then same 0x8=02',
             'on old-one.disk run upgrade disk =/> 0 ok then same', 'on old-one.disk run upgrade disk =/> 1 refused S12 OldFormat then same',
             'on one.disk run upgrade disk =/> 0 ok then same 0x8=02', 'on one.disk run list disk =/> 1 refused S12 OldFormat then same',
             'on made=sixty-four.changes run list disk =/> 0 file sixty-five.listing then same',
             'on made=sixty-four.changes run list disk =/> 0 file sixty-four.listing then same 0x10410=00',
             f'on formatted.disk run install disk {A} =/> 0 ok then one.disk 0x5ff=01',
             f'on formatted.disk run install disk {A} =/> 0 ok then one.disk 0x400=@first.so',
             f'on formatted.disk run install disk {A} =/> 0 ok then old-one.disk',
             f'on formatted.disk run install disk {A} =/> 0 ok then replaced.disk',
             'on one.disk run list disk =/> 0 file one.listing cut=13 then same',
             'on formatted.disk run script disk =/> 0 end then same',
             'on formatted.disk run script disk < bytes=6c6973740a =/> 0 nothing then same',
             'on formatted.disk run script disk < bytes=6c6973740a =/> 1 end then same']
    return [('These cases are wrong on purpose. Another status, another answer or stream, another disk, a disk that is longer, shorter, '
             'or\n'
             'missing.', lines)]


def tells_wrong_readings():
    """Checks that each wrong reading ends differently in some case."""
    not_told, count = tell(CASES)
    assert not not_told, not_told
    print(f'{count} wrong readings are told apart')


if __name__ == '__main__':
    prepare()
    parts = formats() + rows() + refusals() + room() + damaged() + scripts() + binds() + missing() + command_lines()
    write_list('disks.txt', parts + wrong())
    write_list('upgrades.txt', upgrades.cases())
    write_list('bytes.txt', catalogues.single_bytes())
    write_list('catalogues.txt', catalogues.cases())
    tells_wrong_readings()

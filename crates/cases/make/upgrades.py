"""Cases of disks of version 1, of their upgrade, and of disks with roots of both versions. `data/old-*.disk` are
disks that were written before version 2 existed."""

import hashlib

from make import DATA
from on_disk import A, NAMED_Q, each_command, listed, on, other_files

OLD, NEW = '524c494252454731', '524c494252454732'
S5, S7, S12 = '1 refused S5 Damaged', '1 refused S7 Full', '1 refused S12 OldFormat'
S10, END = '1 refused S10 GenerationEnd', '0 end'
TWO = '4c49424302'  # a catalogue of two libraries
# The first digits of the SHA-256 of the disks, which no command writes any more.
SUMS = {
    'old-formatted.disk': '24a368dd8db6b73e',
    'old-full.disk': 'e0187a9d52c8e8a9',
    'old-gap.disk': 'd35f454e4a052ee3',
    'old-hundred.disk': '77c7bc124479ba8b',
    'old-one.disk': '2198cc0e7644d6db',
    'old-pair.disk': '60bd10b4acb4cbcb',
    'old-replaced.disk': '5904a08d92792147',
    'old-symbolic.disk': 'ca38d166f4ca67c6',
    'old-three.disk': '76ab1c75a9e5c4df',
}

# The bytes that an upgrade writes to each disk, and the later listing. No other byte of the disk
# changes.
UPGRADED = {
    'old-formatted.disk': (f'0x200={NEW}01 0x210=08', None),
    'old-one.disk': (f'0x0={NEW}02 0x14=01 0x38=01 0x40=04 0x800=4c49424301 0x810=03', 'one.listing'),
    'old-replaced.disk': (f'0x207=32 0x208=03 0x238=01 0x240=02 0x400={"4c49424301" + bytes(507).hex()} 0x410=05', 'one.listing'),
    'old-pair.disk': (f'0x207=32 0x208=03 0x214=02 0x238=01 0x240=06 0xc00={TWO} 0xc10=0300000005', 'pair.listing'),
    'old-three.disk': ('0x207=32 0x208=05 0x216=0200 0x218=02 0x238=01 0x240=09000000 0x244=0000000000000000 0x1200=4c49424303'
                       ' 0x1210=030000000500000008', 'three.listing'),
    'old-gap.disk': (f'0x7=32 0x8=06 0x14=0200 0x18=01 0x38=01 0x40=040000000000000000000000 0x800={TWO + bytes(507).hex()} 0x810=0300000008',
                     'gap.listing'),
    'old-symbolic.disk': (f'0x7=32 0x8=04 0x14=02 0x38=01 0x40=0400000000000000 0x800={TWO + bytes(507).hex()} 0x810=0300000007',
                          'symbolic.listing'),
}


def see_old_disks():
    """Checks that the disks still have the bytes that were written at that time."""
    for path in sorted(DATA.glob('old-*.disk')):
        assert hashlib.sha256(path.read_bytes()).hexdigest().startswith(SUMS[path.name]), path.name


def list_of(disk, listing):
    return listed(disk, listing) if listing else on(disk, 'list disk', END, 'same')


def images():
    cases = [case for disk in UPGRADED for case in (
        on(disk, 'list disk', S12, 'same'), on(disk, 'upgrade disk', '0 ok', f'same {UPGRADED[disk][0]}'),
        list_of(f'{disk} {UPGRADED[disk][0]}', UPGRADED[disk][1]), on(f'{disk} {UPGRADED[disk][0]}', 'upgrade disk', '0 ok', 'same'))]
    sizes = (205, 'cd', S7, 'same'), (206, 'ce', '0 ok', None)
    hundred = [on(f'old-hundred.disk pad={512 * count} 0x10={digits}', 'upgrade disk', wanted, after) for count, digits, wanted, after in sizes]
    return [
        ('Disks of version 1: only `upgrade` accepts them. It writes the catalogue into the lowest free sector, and the next root, of\n'
         'version 2, into the other root sector. After that the same libraries are listed, and another upgrade writes nothing.', cases),
        ('A hundred libraries on 204 sectors: two sectors are free, and two catalogues need four. With two sectors more they have room.', [
            on('old-hundred.disk', 'list disk', S12, 'same'), on('old-hundred.disk', 'upgrade disk', S7, 'same')] + hundred + [
            on('old-hundred.disk pad=105472 0x10=ce', 'upgrade disk', '0 ok', has=f'0x207=32 0x208=65 0x210=ce 0x214=64 0x238=02 0x240=ca000000cb'
               ' 0x19404=40 0x19604=24'),
            listed(hundred_upgraded(), 'old-hundred.listing')]),
        ('64 of these libraries, with one sector less than twice their catalogue, and with exactly as many sectors; and 65 of them, '
         'which\n'
         'need two catalogues.', [
            on(first_of_hundred(64, 131), 'upgrade disk', S7, 'same'),
            on(first_of_hundred(64, 132), 'upgrade disk', '0 ok', has='0x207=32 0x208=65 0x210=84 0x214=40 0x238=01 0x240=82 0x10404=40 0x1050c=81'),
            on(first_of_hundred(65, 135), 'upgrade disk', S7, 'same'),
            on(first_of_hundred(65, 136), 'upgrade disk', '0 ok', has='0x207=32 0x208=65 0x210=88 0x214=41 0x238=02 0x240=8400000085 0x10804=40'
               ' 0x1090c=81 0x10a04=01 0x10a10=83')]),
        ('Eight sectors that are full. A library of 1,536 bytes leaves two sectors free, which is enough for one catalogue twice. A\n'
         'library of 1,537 bytes leaves one.', [
            on('old-full.disk', 'list disk', S12, 'same'), on('old-full.disk', 'upgrade disk', S7, 'same'),
            on('old-full.disk 0xe04=00060000 0xf04=03', 'upgrade disk', '0 ok', has='0x0=524c494252454732 0x8=02 0x14=01 0x38=01 0x40=05 0xa04=01'
               ' 0xa10=07'),
            on('old-full.disk 0xe04=01060000 0xf04=04', 'upgrade disk', S7, 'same')]),
        ('Each command on a disk of version 1. `format` answers as on any formatted disk. A bad base and a missing file are reported\n'
         'first.',
         each_command('old-one.disk', S12) + each_command('old-full.disk', S12) + [
            on('old-one.disk', 'format disk 8', '1 refused S4 AlreadyFormatted', 'same'),
            on('old-formatted.disk', 'format disk 8', '1 refused S4 AlreadyFormatted', 'same'),
            on('old-formatted.disk', 'format disk 16', '1 refused S6 BadGeometry', 'same'),
            on('old-one.disk', 'bind disk minimal.so 0x', '2 error rlibreg: bad base', 'same'),
            on('old-one.disk', 'install disk no-such-file', '3 error rlibreg: cannot read no-such-file', 'same'),
            on('old-one.disk', 'install disk disk', S12, 'same')]),
    ]


def first_of_hundred(count, sectors):
    """Returns a disk of `sectors` sectors with the first `count` of a hundred libraries. From sector 2 on, their data
    and entries alternate."""
    return f'old-hundred.disk cut={512 * sectors} 0x10={sectors:02x} 0x14={count:02x} 0x{64 + 4 * count:x}={bytes(4 * (100 - count)).hex()}'


def hundred_upgraded():
    """Returns the disk of a hundred libraries after its upgrade: the catalogues in sectors 202 and 203 list all odd
    sectors from 3 on."""
    entries = b''.join((2 * i + 3).to_bytes(4, 'little') for i in range(100))
    return (f'old-hundred.disk pad=105472 0x200={NEW}65 0x210=ce 0x214=64 0x238=02 0x23a={bytes(454).hex()} 0x240=ca000000cb'
            f' 0x19400=4c4942434000 0x19410={entries[:256].hex()} 0x19600=4c4942432400 0x19610={entries[256:].hex()}')


def refusals():
    last = 'old-one.disk 0x8=feffffffffffffff 0x208=ffffffffffffffff'
    return [
        ("Disks that can't be upgraded: a file that is no disk, a disk that was not formatted, a damaged disk, the last generation, and "
         'a\n'
         'disk without room.', [
            on('old-one.disk cut=3840', 'upgrade disk', '1 refused S6 BadGeometry', 'same'),
            on('old-one.disk cut=3584', 'upgrade disk', '1 refused S6 BadGeometry', 'same'),
            on('old-one.disk cut=3584', 'list disk', '1 refused S6 BadGeometry', 'same'),
            on('old-one.disk 0x0=00 0x200=00', 'upgrade disk', '1 refused S3 NotFormatted', 'same'),
            on('old-one.disk 0x0=00', 'upgrade disk', S5, 'same'), on(last, 'upgrade disk', S10, 'same'), on(last, 'list disk', S12, 'same'),
            on(f'{last} 0x410=02', 'upgrade disk', S5, 'same'), on('old-full.disk 0x412=28', 'upgrade disk', S5, 'same'),
            on('old-full.disk 0x8=feffffffffffffff 0x208=ffffffffffffffff', 'upgrade disk', S10, 'same'),
            on('none', 'upgrade disk', '3 error rlibreg: cannot read disk', 'none'), on('empty', 'upgrade disk', '1 refused S6 BadGeometry', 'same')]),
        ('The generation before the last, and generations whose successor carries into further bytes.', [
            on('old-one.disk 0x8=feffffffffffffff 0x208=fdffffffffffffff', 'upgrade disk', '0 ok', has='0x207=32 0x208=ffffffffffffffff 0x214=00'),
            on('old-one.disk 0x8=fe 0x208=ff', 'upgrade disk', '0 ok', has='0x7=32 0x8=0001 0x14=01 0x38=01 0x40=04'),
            on('old-one.disk 0x8=feffffff 0x208=ffffffff', 'upgrade disk', '0 ok', has='0x7=32 0x8=0000000001')]),
    ]


def damaged():
    good = ['0x600=00', '0x604=57', '0x605=02', '0x608=02', '0x60a=02', '0x60c=01', '0x610=62', '0x610=2f', '0x611=61', '0x700=03', '0x700=01',
            '0x700=04', '0x700=08', '0x704=02', '0x7ff=01', '0x400=00', '0x410=02', f'0x400={bytes(344).hex()}', '0x210=09', '0x240=02',
            '0x240=04', '0x240=07']
    no_older, no_root = f'0x0={bytes(24).hex()}', f'0x200={bytes(25).hex()} 0x240=00'
    bad = ['0x208=02', '0x208=03', '0x208=00', '0x210=07', '0x210=00', '0x214=00', '0x214=02', '0x214=65', '0x216=02', '0x216=11',
           '0x216=01 0x218=01', '0x218=01', '0x238=01', '0x23f=01', '0x240=00', '0x240=01', '0x240=08', '0x244=03', '0x3cf=01', '0x3d0=01',
           '0x3ff=01', '0x0=00', '0x14=01', '0x38=01', '0x1ff=01', '0x10=07']
    return [
        ('A disk of version 1 whose entries or files were changed. An opening reports only version 1, whatever else is wrong; an upgrade\n'
         'detects the damage.',
         [on(f'old-one.disk {change}', words, wanted, 'same') for change in good for words, wanted in (('list disk', S12), ('upgrade disk', S5))]),
        ('A root was changed so that it is no root any more: both commands report damage.',
         [on(f'old-one.disk {change}', words, S5, 'same') for change in bad for words in ('list disk', 'upgrade disk')]),
        ('Sector 1 has no root: the registry of generation 0 is upgraded.', [
            on('old-one.disk 0x200=00', 'list disk', S12, 'same'),
            on('old-one.disk 0x200=00', 'upgrade disk', '0 ok', 'same 0x200=524c494252454732 0x214=00 0x240=00'),
            on(f'old-one.disk {no_root}', 'upgrade disk', '0 ok', f'same 0x200={NEW}01 0x210=08 0x214=00 0x240=00')]),
        ('Two libraries: a sector that is used twice, two equal names; and the list in the reverse order, which is valid too.', [
            on(f'old-pair.disk {change}', words, wanted, 'same')
            for change in ('0x44=02', '0xb00=02', '0xb00=03', '0x700=05', '0x710=01', '0xa10=61', '0x610=62', '0x40=0500000003000000 0x610=62')
            for words, wanted in (('list disk', S12), ('upgrade disk', S5))] + [
            on('old-pair.disk 0x44=03', words, S5, 'same') for words in ('list disk', 'upgrade disk')] + [
            on('old-pair.disk 0x40=0500000003', 'upgrade disk', '0 ok', has='0xc10=0500000003')]),
        ("Two libraries whose files have one name, have each other's names, or are zeros: an upgrade detects each case, and writes\n"
         'nothing.', [
            on(f'old-pair.disk {change}', words, wanted, 'same') for change in other_files('0x400', '0x800')
            for words, wanted in (('list disk', S12), ('upgrade disk', S5))]),
        ('A disk without one root, without the other, and without both.', [
            on(f'old-one.disk {no_root}', 'list disk', S12, 'same')] + [
            on(f'old-one.disk {change}', words, wanted, 'same')
            for change, wanted in ((no_older, S5), (f'{no_older} {no_root}', '1 refused S3 NotFormatted')) for words in ('list disk', 'upgrade disk')]),
        ('A disk that is a sector shorter or longer than its root says.', [
            on(disk, words, wanted, 'same') for disk in ('old-pair.disk cut=7680', 'old-one.disk pad=4608', 'old-one.disk 0x10=00004000 0x210=00004000')
            for words, wanted in (('list disk', S12), ('upgrade disk', S5))]),
        ('A file of two extents, of which the one with the higher sectors comes first; and one of its sectors twice.', [
            on(f'old-full.disk 0xe04=00060000 0xe0a=02 0xf00=04000000010000000200000002 0x400={bytes(344).hex()} 0x800=@{A}', 'upgrade disk',
               '0 ok', has='0x0=524c494252454732 0x8=02 0x14=01 0x38=01 0x40=05 0xa00=4c49424301 0xa10=07'),
            on('old-full.disk 0xe04=00060000 0xe0a=02 0xf00=02000000020000000300000001', 'upgrade disk', S5, 'same')]),
        ('Generations that do not follow each other, and roots in the wrong sectors.', [
            on(disk, words, S5, 'same') for disk in (
                'old-one.disk 0x8=04', 'old-one.disk 0x208=ffffffffffffffff', 'old-one.disk 0x8=01 0x208=02', 'old-formatted.disk 0x8=01',
                'old-one.disk 0x0=00 0x208=00') for words in ('list disk', 'upgrade disk')]),
    ]


def slot(k, version, generation):
    """Returns the root of a registry without libraries on 8 sectors."""
    return f'0x{512 * k:x}={OLD if version == 1 else NEW}{generation:02x} 0x{512 * k + 16:x}=08'


def combinations():
    """Root sectors of either version, of neighbouring generations and of others, and empty and bad ones, in each
    combination."""
    even = {'empty': '', 'bad 1': f'0x0={OLD}', 'bad 2': f'0x0={NEW}'}
    odd = {'empty': '', 'bad 1': f'0x200={OLD}', 'bad 2': f'0x200={NEW}'}
    even.update({(v, g): slot(0, v, g) for v in (1, 2) for g in (0, 2)})
    odd.update({(v, g): slot(1, v, g) for v in (1, 2) for g in (1, 3)})
    # The current root, if there is one: its version and its generation.
    current = {((1, 0), 'empty'): (1, 0), ((2, 0), 'empty'): (2, 0)}
    for old, new in ((0, 1), (1, 2), (2, 3)):
        for versions in ((1, 1), (1, 2), (2, 2)):
            older, newer = (versions[0], old), (versions[1], new)
            current[(older, newer) if old % 2 == 0 else (newer, older)] = newer
    cases = []
    for e, first in even.items():
        for o, second in odd.items():
            disk = ' '.join(['bytes= pad=4096', first, second]).replace('  ', ' ').rstrip()
            version, generation = current.get((e, o), (None, None))
            refused = '1 refused S3 NotFormatted' if (e, o) == ('empty', 'empty') else S5
            cases.append(on(disk, 'list disk', {1: S12, 2: END}.get(version, refused), 'same'))
            after = f'same {slot((generation + 1) % 2, 2, generation + 1)}' if version == 1 else 'same'
            cases.append(on(disk, 'upgrade disk', '0 ok' if version else refused, after))
    assert len(current) == 11 and len(cases) == 98
    return [('Two root sectors, each of them empty, bad, or with a root of either version. If both have roots, the one with the greater\n'
             'generation is current. A root of version 1 is never written after one of version 2, so that is damage.', cases)]


def changes():
    """The effects of commands on an upgraded disk: the root of version 1 is overwritten."""
    one = f'old-one.disk {UPGRADED["old-one.disk"][0]}'
    pair = f'old-pair.disk {UPGRADED["old-pair.disk"][0]}'
    empty = f'old-formatted.disk {UPGRADED["old-formatted.disk"][0]}'
    return [
        ('Each change after an upgrade: its root replaces the root of version 1.', [
            on(empty, f'install disk {A}', '0 ok', has=f'0x0={NEW}02 0x14=01 0x38=01 0x40=04 0x400=@{A} 0x610=61 0x800=4c49424301 0x810=03'),
            on(one, f'install disk {NAMED_Q}', '0 ok', has=f'0x200={NEW}03 0x214=02 0x238=01 0x240=07 0xa00=@{NAMED_Q} 0xe10=0300000006'),
            on(one, f'replace disk {A}', '0 ok', has=f'0x200={NEW}03 0x214=01 0x238=01 0x240=07 0xa00=@{A} 0xe10=06'),
            on(one, 'remove disk a', '0 ok', has=f'0x200={NEW}03 0x214=00 0x238=00 0x240=00'),
            on(one, 'preload disk a', '0 ok', has=f'0x200={NEW}03 0x214=01000100 0x238=01 0x240=04'),
            on(one, 'install disk soname-240.so', S7, 'same'), on(one, 'format disk 8', '1 refused S4 AlreadyFormatted', 'same'),
            on(pair, 'remove disk a', '0 ok', has=f'0x0={NEW}04 0x14=01 0x38=01 0x40=07 0xe10=05'),
            on(pair, 'bind disk asking.so 0x10000', '0 file first.image', 'same', file='first.image')]),
        ('The root of version 1 next to the current root may be of any registry.', [
            listed(f'{one} 0x210=09', 'one.listing'), listed(f'{one} 0x240=07', 'one.listing'), on(f'{one} 0x208=03', 'list disk', S5, 'same'),
            on(f'{one} 0x208=05', 'list disk', S5, 'same'), on(f'{one} 0x238=01', 'list disk', S5, 'same')]),
    ]


def cases():
    see_old_disks()
    return images() + refusals() + damaged() + combinations() + changes()

#!/usr/bin/env python3
"""Writes `updates.txt` of `data/`: updates of `rlibreg-tool` over disks, and dumps that end with `commit`.

    python3 crates/cases/make/updates.py

It needs the disks and files that `disks.py` writes. Expected answers and disks come from `Draft`, a second reading of
the rules of an update over `disk.py`; if a row has an answer or sectors that were determined by hand, the two have to
agree. `WRONG` has readings that break one rule each. The script stops if no case ends differently by one of them.
"""

import struct

from disk import OnDisk, Refused
from make import DATA, write_list
from on_disk import A, B_520, NAMED_Q, after_text, bytes_of, find_files, library, with_changes
from samples import DEFINED, FUNC, GLOBAL, Object, Symbol, build
from scripts import SECTOR, bind, catalogues_for, install, replace, sectors_of
from sectors import read_entry

OK, SAID = 'ok', 'rlibreg-tool: refused '
L1, L2, L3, S7, S10 = (f'refused {it}' for it in ('L1 BadLine', 'L2 CutLine', 'L3 NoCommit', 'S7 Full', 'S10 GenerationEnd'))
C2, C3, C4, C5, C6 = (f'refused {it}' for it in (
    'C2 AlreadyInstalled', 'C3 NotInstalled', 'C4 InPreloads', 'C5 RepeatedPreload', 'C6 TooManyPreloads'))
LAST = 'bytes=524c494252454732feffffffffffffff08 pad=4096 0x200=524c494252454732fdffffffffffffff08'
ROWS = []  # what each case shows, the disk, the lines


def cost(entry):
    return sectors_of(entry.length) + 1


class Draft(OnDisk):
    """A registry during an update. In addition to its current state, it has the entries and the preloads that the
    update's lines have planned."""

    def is_library(self, entry):
        """Opening reads no file."""
        return True

    def begin_update(self):
        self.stood, self.changed, self.relisted = dict(zip(self.places, self.entries)), False, False
        return self

    def planned(self):
        """Returns the entries that the update has written and not removed again, by their sectors."""
        return {place: entry for place, entry in zip(self.places, self.entries) if place not in self.stood}

    def kept_entries(self):
        return {**self.stood, **self.planned()}

    def free(self):
        kept = self.kept_entries()
        used = {*self.root.listed, *kept, *(k for e in kept.values() for start, n in e.extents for k in range(start, start + n))}
        return [k for k in range(2, self.count()) if k not in used]

    def is_too_long(self, need, libraries):
        """Returns whether a file of `need` sectors has no room. The room is what was free before the update, without
        what the update wrote, and without two sectors for each additional catalogue of its list."""
        before = self.count() - 2 - sum(cost(e) for e in self.stood.values()) - 2 * len(self.root.listed)
        now = catalogues_for(len(self.entries))
        free = before - sum(cost(e) for e in self.planned().values()) - 2 * max(0, now - len(self.root.listed))
        return need + 1 + 2 * (catalogues_for(libraries) - now) > free

    def put_catalogues(self, places, taken):
        """A line writes no catalogues."""
        return []

    def commit(self, preloads, places, catalogues):
        """A line changes only the draft."""
        self.relisted = self.relisted or places != self.places
        self.root = self.root._replace(preloads=preloads)
        self.places, self.entries = places, [read_entry(self.sector(k)) for k in places]
        self.changed = True

    def make(self):
        """Commits everything that was planned. If only preloads were planned, the catalogues stay."""
        if self.changed:
            catalogues = OnDisk.put_catalogues(self, self.places, []) if self.relisted else self.root.listed
            OnDisk.commit(self, self.root.preloads, self.places, catalogues)
        return 'ok\n'

    def line(self, line):
        if line.split(b' ')[0] in (b'begin', b'advance', b'cancel'):
            return 'refused L1 BadLine\n'
        told = self.answer(line)
        return 'bound\n' if told.startswith('object ') else 'planned\n' if told == 'ok\n' else told

    def update(self, text):
        *whole, cut = text.split(b'\n')
        told = ''
        for line in whole:
            if line == b'commit':
                return 0, told + self.make()
            told += self.line(line)
            if told.splitlines()[-1].startswith('refused '):
                return 1, told
        return 1, told + ('refused L2 CutLine\n' if cut else 'refused L3 NoCommit\n')


class FreesWhatStands(Draft):
    def kept_entries(self):
        return dict(zip(self.places, self.entries))


class KeepsWhatItTookOut(Draft):
    def begin_update(self):
        self.every = {}
        return super().begin_update()

    def planned(self):
        self.every.update(super().planned())
        return self.every


class CountsNoCatalogue(Draft):
    def is_too_long(self, need, libraries):
        return super().is_too_long(need, len(self.entries))


class FreesTheCataloguesThatStand(Draft):
    def is_too_long(self, need, libraries):
        fewer = len(self.root.listed) - catalogues_for(len(self.entries))
        return super().is_too_long(need - 2 * max(0, fewer), libraries)


class EndCommits(Draft):
    def update(self, text):
        status, told = super().update(text)
        return (0, told[:-len('refused L3 NoCommit\n')] + self.make()) if told.endswith('L3 NoCommit\n') else (status, told)


class TakesACutCommit(Draft):
    def update(self, text):
        return super().update(text + b'\n' if text.endswith(b'commit') else text)


class GoesOn(Draft):
    def update(self, text):
        return 0, ''.join(self.make() if line == b'commit' else self.line(line) for line in text.split(b'\n')[:-1])


class CommitsNothing(Draft):
    def begin_update(self):
        super().begin_update()
        self.changed = True
        return self


class EachLineIsAGeneration(Draft):
    def commit(self, preloads, places, catalogues):
        super().commit(preloads, places, catalogues)
        self.root = self.root._replace(generation=self.root.generation + 1)


class TellsOk(Draft):
    def line(self, line):
        return super().line(line).replace('planned', 'ok')


class BindsWhatStands(Draft):
    def bind(self, base, program):
        reading = OnDisk(self.data)
        reading.look_again(reading.choose())
        return reading.bind(base, program)


WRONG = [FreesWhatStands, KeepsWhatItTookOut, CountsNoCatalogue, FreesTheCataloguesThatStand, EndCommits, TakesACutCommit, GoesOn,
         CommitsNothing, EachLineIsAGeneration, TellsOk, BindsWhatStands]


def run(before, text, reading=Draft):
    """Returns the status, the answer, the error and the disk after an update. If an update is refused, the sectors
    that its few lines wrote are used by nothing. If these sectors are neighbours, they are still in memory, and
    never reach the file."""
    draft = reading(bytes_of(before))
    try:
        draft.open()
    except Refused as refused:
        return 1, '', f'rlibreg-tool: refused {refused}\n', bytes(draft.data)
    status, told = draft.begin_update().update(text)
    return status, told, '', bytes(draft.data) if status == 0 else bytes_of(before)


def answer_text(told, error):
    if error:
        return f'error {error[:-1]}'
    return told[:-1] if told.count('\n') == 1 else f'file bytes={told.encode().hex()}'


def on(before, *lines, wanted=None, has='', end=b'\n'):
    """A case. `wanted` is its last line, and `has` some bytes of the disk after it, both determined by hand."""
    text = b'\n'.join(line if isinstance(line, bytes) else line.encode() for line in lines) + (end if lines else b'')
    status, told, error, left = run(before, text)
    assert wanted is None or (error or told).splitlines()[-1] == wanted, (before, lines, told, error, wanted)
    assert with_changes(left, has.split()) == left, (before, lines, after_text(before, bytes_of(before), left), has)
    ROWS.append((before, text))
    given = f' < bytes={text.hex()}' if text else ''
    return f'on {before} tool update disk{given} => {status} {answer_text(told, error)} then {after_text(before, bytes_of(before), left)}'


def file(name):
    return (DATA / name).read_bytes()


def sized(before, sectors):
    """Returns a disk of another size."""
    how = 'cut' if sectors * SECTOR < len(bytes_of(before)) else 'pad'
    first = '' if before.startswith('made=') else f' 0x10={sectors:02x}'
    return f'{before}{first} 0x210={sectors:02x} {how}={sectors * SECTOR}'


def at_the_last_sector(before, sectors, *lines):
    """Two cases: on a disk with one sector fewer, a line has no room; on a disk of `sectors` sectors, all changes are
    made."""
    return [on(sized(before, sectors - 1), *lines, b'commit', wanted=S7), on(sized(before, sectors), *lines, b'commit', wanted=OK)]


def rooms():
    a, q, long, number = file(A), file(NAMED_Q), file('long.so'), file('numbered.so')
    i, r, last = install, replace, at_the_last_sector
    two_extents = [i(long), i(q), b'remove a', i(long + bytes(564))]
    one, five, four = 'one.disk', 'made=sixty-five.changes', 'made=sixty-four.changes'
    return [
        ('The room of an update, to the last sector: it needs sectors besides those of the current state, for what it installs and for '
         'the\n'
         'catalogues twice. Sectors of a library that it installs and removes again are free for its next line.',
         last(one, 10, r(a), r(a)) + last(one, 10, b'remove a', i(q)) + last(one, 10, r(a), b'remove a', i(a), r(a))
         + last(one, 12, r(a), r(a), r(a), r(long))),
        ('A file in two extents: the four sectors that an earlier line has made free, and one after them.', [
            on('formatted.disk 0x10=0b pad=5632', *two_extents, b'commit', wanted=S7),
            on('formatted.disk 0x10=0c pad=6144', *two_extents, b'commit', wanted=OK, has='0x1300=02000000040000000800000001')]),
        ('64 and 65 libraries: room for a second catalogue, and for both current catalogues although one is enough for the new list.',
         last(four, 138, i(q), b'remove x000', i(number)) + last(five, 142, b'remove x000', b'remove x001', i(q), i(number))
         + last(five, 140, r(number), r(number[:0xda] + b'001' + number[0xdd:]))),
    ]


def changes():
    a, b, q = file(A), library(b'b', symbols=[Symbol(b'f', GLOBAL, FUNC, DEFINED)]), file(NAMED_Q)
    i, r, c = install, replace, b'commit'
    program, asking = file('asking.so'), build(Object(needed=[b'a', b'none']))[0]
    room = 'formatted.disk 0x10=20 pad=16384'
    return [
        ('One line and `commit`: the update leaves the same disk as the command.', [
            on('formatted.disk', i(a), c, wanted=OK, has=f'0x200={file("one.disk")[512:600].hex()} 0x400=@{A} 0x800=4c49424301'),
            on('one.disk', r(a), c, wanted=OK, has=f'0x0=524c49425245473202 0x40=07 0xa00=@{A}'),
            on('one.disk', b'remove a', c, wanted=OK), on('one.disk', b'preload a', c, wanted=OK), on('one.disk', b'preload', c, wanted=OK)]),
        ('A library that is installed and replaced, installed and removed, or installed after the removal of another. The sectors of the\n'
         'current state become free only with `commit`.', [
            on('one.disk', r(a), r(a), c, wanted=S7), on('one.disk', r(a), b'remove a', c, wanted=OK, has='0x0=524c49425245473202 0x14=00'),
            on('one.disk', b'remove a', i(q), c, wanted=S7), on('formatted.disk', i(a), b'remove a', i(q), c, wanted=OK),
            on('formatted.disk', i(a), b'remove a', c, wanted=OK, has='0x200=524c49425245473201'),
            on(room, i(a), r(a), r(a), b'remove a', i(a), i(q), c, wanted=OK), on('full.disk', b'remove a', i(a), c, wanted=S7),
            on('gap.disk', i(q), r(file(B_520)), b'preload', b'remove a', c, wanted=OK)]),
        ('Many lines make one commit, and an update without lines makes no change.', [
            on(room, i(a), i(q), i(file(B_520)), b'preload b a', b'list', b'remove q', c, wanted=OK, has='0x200=524c49425245473201'),
            on('one.disk', c, wanted=OK), on('one.disk', c, c, wanted=OK), on('one.disk', b'list', c, wanted=OK),
            on('one.disk', c, b'remove a', wanted=OK), on('one.disk', c, b'cut', end=b'', wanted=OK), on('formatted.disk', b'preload', c, wanted=OK)]),
        ('Without a line `commit` there is no commit.', [
            on('one.disk', wanted=L3), on('one.disk', b'remove a', wanted=L3),
            on('one.disk', b'remove a', c, end=b'', wanted=L2), on('one.disk', b'remove a', b'co', end=b'', wanted=L2)]
            + [on('one.disk', b'remove a', line, c, wanted=L1) for line in (
                b'commit ', b' commit', b'COMMIT', b'', b'advance 0', b'cancel 0', b'begin 0x0 00', b'commit now', b'list ', b'remove')]),
        ('The first refusal ends an update. Each line is tested, as a line of a script is, against the state that the lines before it '
         'have\n'
         'planned.', [
            on('pair.disk', b'remove b', i(a), c, wanted=C2), on('pair.disk', b'remove a', r(a), c, wanted=C3),
            on('pair.disk', b'remove a', b'remove a', c, wanted=C3), on('pair.disk', b'remove a', b'preload a', c, wanted=C3),
            on('pair.disk', b'preload a', b'remove a', c, wanted=C4), on('pair.disk', b'preload a', b'preload b', b'remove a', c, wanted=OK),
            on('pair.disk', b'preload a a', c, wanted=C5), on('pair.disk', b'preload' + b' a' * 17, c, wanted=C6),
            on('pair.disk', i(a[:63]), c, wanted='refused C1 E1 TooShort'), on('pair.disk', i(program), c, wanted='refused C1 E33 BadSoname')]),
        ('A bind is answered against the planned state.', [
            on('one.disk', b'remove a', bind(asking), c, wanted='refused B3 Missing /program a'),
            on('one.disk', bind(asking), c, wanted='refused B3 Missing /program none'),
            on(room, i(file('first.so')), i(b), bind(program), c, wanted=OK), on('pair.disk', bind(program), c, wanted=OK),
            on('pair.disk', r(file('absolute.so')), b'preload b', bind(program), b'list', c, wanted=OK), on('pair.disk', bind(program, 1), c, wanted='refused B2 BadBase'),
            on('pair.disk', bind(a[:70]), c)]),
        ('The last generation but one, and the last generation.', [
            on(LAST, i(a), b'preload a', c, wanted=OK, has='0x200=524c494252454732ffffffffffffffff'),
            on(f'{LAST} 0x200=524c494252454732ffffffffffffffff08', c, wanted=OK),
            on(f'{LAST} 0x200=524c494252454732ffffffffffffffff08', b'preload', c, wanted=S10),
            on(f'{LAST} 0x200=524c494252454732ffffffffffffffff08', i(a), c, wanted=S10)]),
        ('Libraries whose files are no libraries are repaired, both in one update.', [
            on('pair.disk 0x400=00 0xa00=00', r(file('first.so')), r(file('strong.so')), c), on('pair.disk 0x400=00', b'remove a', b'list', c, wanted=OK)]),
        ('Disks that hold no registry of version 2.', [
            on('old-one.disk', b'remove a', c, wanted=SAID + 'S12 OldFormat'), on('bytes= pad=4096', c, wanted=SAID + 'S3 NotFormatted'),
            on('one.disk 0x210=09', c, wanted=SAID + 'S5 Damaged'), on('bytes= pad=4095', c, wanted=SAID + 'S6 BadGeometry')]),
    ]


def dumps():
    """`dump` with and without `commit`, over disks with and without preloads."""
    def on_dump(before, words, last):
        registry = OnDisk(bytes_of(before)).open()
        text = b''.join(install(data) + b'\n' for _, data in registry.libraries)
        text += b'preload ' + b' '.join(registry.preloads) + b'\n' if registry.preloads else b''
        answer = (text + last).decode()
        return f'on {before} tool dump disk{words} => 0 {answer_text(answer, "") if answer else "nothing"} then same'
    return [('A dump, and a dump for an update.', [on_dump(disk, *words) for disk in ('formatted.disk', 'one.disk', 'three.disk')
                                                for words in (('', b''), (' commit', b'commit\n'))])]


def ended(row, reading):
    """Returns the end of an update by a reading, or None if the reading has no answer."""
    try:
        return run(*row, reading)
    except (Refused, struct.error):
        return None


def tell_wrong():
    """Stops if a reading that breaks a rule ends every case in the same way as the rules."""
    for reading in WRONG:
        differ = sum(ended(row, reading) != run(*row) for row in ROWS)
        assert differ, reading.__name__
        print(f'{reading.__name__}: {differ} of {len(ROWS)} cases end otherwise')


if __name__ == '__main__':
    find_files()
    parts = changes() + rooms() + dumps()
    tell_wrong()
    write_list('updates.txt', parts)

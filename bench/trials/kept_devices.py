#!/usr/bin/env python3
"""Changes block devices whose images `rlibreg-run -c` keeps. Each later start with `-c` has to have the same output and
end as a start without it. The script needs root and gcc, and makes the devices itself: loop devices, partitions of
them, zram, and devices of device mapper. If the kernel lacks a kind of device, its part is left out, and a line reports
this.

    python3 bench/trials/kept_devices.py BUILT FOLDER [--loader RLIBREG_RUN] [--only PART..]

BUILT has what c/build.sh makes. FOLDER lies on a file system with direct I/O, for example ext4. RLIBREG_RUN is another
loader to try. Most parts have two registries that the same commands made with files of equal lengths, so their roots are
equal. Each part first shows that an image is kept and used, and that the change has an effect. The script exits with
status 1 if something is wrong.
"""

import argparse
import contextlib
import mmap
import os
import shutil
import struct
import sys
import time
from pathlib import Path

sys.path[1:1] = map(str, Path(__file__).resolve().parents[1].glob('*/'))  # the folders of bench
import registries
from block_devices import (forget, forget_all, linear, load, mapped, move, part, read, reset, with_errors, write, zram)
from checks import Checks, Program, emptied
from kept_starts import BEHIND, LAST, SECTORS, VERSIONS, Registries, Starts, emptied_kept
from media import SECTOR, NotHere, loop, mounted, system, zeros

ONE, OTHER = [('a', 0), ('b', 0), ('c', 0), ('p', 0)], [('a', LAST), ('b', 0), ('c', 0), ('p', 0)]
KEPT, PROGRAM = 'kept', './numbers'
SETTLED = 2.1 # seconds after which the state of a file shows that the file has changed
UNSEEN = 'file_systems', # parts that are tried only if they are named: no state of a file shows such a change


class Devices:
    def __init__(self, built, loader, folder):
        self.folder, self.checks = folder, Checks()
        self.by = Program(built / 'rlibreg', folder)
        self.registries = Registries(built / 'rlibreg', folder)
        self.starts = Starts(loader, folder, self.checks)
        self.one, self.other = self.registries.image(ONE), self.registries.image(OTHER)
        assert self.one[:2 * SECTOR] == self.other[:2 * SECTOR], 'the roots differ'
        for name, versions in self.registries.programs.items():
            (folder / name).write_bytes(versions[0])
            (folder / name).chmod(0o755)

    @contextlib.contextmanager
    def changed(self, kind, disk, differs=True, kept=(KEPT,), program=PROGRAM, emptied_first=True):
        """Keeps images of a program before the `with` block, which changes the disk, and compares starts after it."""
        for name in kept if emptied_first else ():
            emptied_kept(self.folder / name)
        before = self.starts.start(disk, program)
        for name in kept:
            if not self.starts.compared(f'{kind}, before', name, disk, program):
                raise NotHere(f'no image of it is kept and taken: {self.starts.said}')
        yield
        after = self.starts.start(disk, program)
        self.checks.want(f'{kind}, before', differs is None or (before != after) == differs, 'what is started:', before, after)
        for name in kept:
            self.starts.compared(kind, name, disk, program)

    def image(self, content, name='image'):
        """Makes a file for a loop device."""
        path = self.folder / name
        path.unlink(missing_ok=True)
        path.write_bytes(content)
        return path

    # Another registry of equal roots.

    def zram(self):
        with zram(SECTORS) as device:
            self.registries.make(device, ONE)
            with self.changed('zram that is reset, with a registry of equal roots', device):
                roots = read(device, 2 * SECTOR)
                reset(device, SECTORS)
                self.registries.make(device, OTHER)
                assert read(device, 2 * SECTOR) == roots
            with self.changed('zram that is formatted in its place', device):
                write(device, bytes(2 * SECTOR))
                self.registries.make(device, ONE)

    def partitions(self):
        """Makes a partition again at another place, with the same device number."""
        with loop(self.image(bytes(64 * SECTOR) + self.one + self.other)) as device, part(device, 64, SECTORS) as path:
            for start in (64 + SECTORS, 64):
                with self.changed('a partition whose number has another place', path):
                    move(device, start, SECTORS)

    def written(self):
        """Writes another registry onto a partition, and onto a device. Several folders keep images, one of which is
        emptied."""
        kept = (KEPT, 'kept-2', 'kept-3')
        with loop(self.image(bytes(64 * SECTOR) + self.one)) as device, part(device, 64, SECTORS) as path:
            with self.changed('an image that dd writes onto a partition', path, kept=kept):
                emptied_kept(self.folder / KEPT)
                self.dd(self.other, path)
            with self.changed('one that changes a single sector', path, kept=kept):
                at = next(k for k in range(0, len(self.one), SECTOR) if self.one[k:k + SECTOR] != self.other[k:k + SECTOR])
                for k in range(at, len(self.one), SECTOR):
                    if self.one[k:k + SECTOR] != self.other[k:k + SECTOR]:
                        write(path, self.one[k:k + SECTOR], k)
        for options in ('--direct-io=off', '--direct-io=on'):
            with loop(self.image(self.one), options) as device, self.changed(f'one that dd writes onto a device, {options}', device):
                self.dd(self.other, device)

    def each_part(self):
        """Compares registries of equal roots that differ in one part of a library: in read-only bytes, in the target
        of a relocated pointer, in code, in data beside that pointer, or in bytes that no start maps."""
        with loop(self.image(self.one)) as device:
            for name in ('a', 'b'):
                for version in range(1, len(VERSIONS)):
                    if name == 'b' and version == 4:
                        continue # the library has no such data
                    other = self.registries.image([(it, version if it == name else 0) for it, _ in ONE])
                    assert other[:2 * SECTOR] == self.one[:2 * SECTOR] and other != self.one
                    differs = version != BEHIND and (name, version) not in (('b', 1), ('b', 2))
                    with self.changed('one part of a library', device, differs=differs):
                        write(device, other)
                    write(device, self.one)

    def huge(self):
        """Changes a library only after its first 2 MiB."""
        versions = self.registries.libraries['huge']
        assert all(it[:2 << 20] == versions[0][:2 << 20] for it in versions)
        one, other = (self.registries.image([('huge', it), ('b', 0)], sectors=16384) for it in (0, LAST))
        with loop(self.image(one)) as device, self.changed('a library of more than 2 MiB', device):
            write(device, other)

    def many(self):
        """Uses a registry with two catalogues, and with a library in several extents."""
        path, sectors = self.image(b''), 2850
        path.unlink()
        self.registries.done('format', path, sectors)
        for k in range(100):
            self.registries.done('install', path, self.registries.renamed('p', 0, f'p{k:03}.so'))
        for k in range(0, 60, 2):
            self.registries.done('remove', path, f'p{k:03}.so')
        for name in ('long', 'b'):
            self.registries.done('install', path, self.registries.file(name, 0))
        one, other = path.read_bytes(), bytearray(path.read_bytes())
        extents, data = registries.entry(self.entry_in(one, b'liba.so')[2])[2], self.registries.libraries['long'][LAST]
        for first, count in extents:
            other[SECTOR * first:SECTOR * (first + count)] = data[:SECTOR * count].ljust(SECTOR * count, b'\0')
            data = data[SECTOR * count:]
        assert len(extents) > 1, 'the library lies in one piece'
        kind = 'two catalogues, and a library in pieces'
        with loop(path) as device:
            with self.changed(kind, device):
                write(device, other)
            with self.changed(f'{kind}: a damaged entry of the first catalogue', device):
                _, at, entry = self.entry_in(one, b'p001.so')
                write(device, entry[:8] + bytes(SECTOR - 8), SECTOR * at)

    def dd(self, content, device):
        (self.folder / 'written').write_bytes(content)
        system('dd', f'if={self.folder / "written"}', f'of={device}', 'bs=64k', 'conv=notrunc,fsync')

    def backing(self):
        """Writes the file under a loop device, and drops the device from the page cache."""
        with loop(self.image(self.one)) as device, self.changed('a loop device whose file has other bytes', device):
            write(self.folder / 'image', self.other)
            forget(device)

    def tables(self):
        """Gives a device of device mapper another table. The device's number, length and sequence stay the same."""
        with contextlib.ExitStack() as stack:
            devices = [stack.enter_context(loop(self.image(it, f'image-{k}'))) for k, it in enumerate((self.one, self.other))]
            device = stack.enter_context(mapped([linear(SECTORS, devices[0])]))
            for name in (devices[1], devices[0]):
                with self.changed('a device that is given another table', device):
                    load(device, [linear(SECTORS, name)])
            half = SECTORS // 2
            with self.changed('one whose table has parts of two devices', device, differs=None):
                load(device, [linear(half, devices[1]), linear(half, devices[0], half)])

    def memory(self):
        """Writes a disk and a program on tmpfs through a map whose pages are dirty already, so that their times stay."""
        place = self.folder / 'memory'
        kind = 'a file on tmpfs that is written through a map'
        with mounted('tmpfs', place, '-t', 'tmpfs'):
            disk = place / 'disk'
            disk.write_bytes(self.one)
            with open(disk, 'r+b') as file, mmap.mmap(file.fileno(), len(self.one)) as shared:
                shared[:] = self.one
                time.sleep(SETTLED)
                before = os.stat(disk)
                with self.changed(kind, disk):
                    shared[:] = self.other
                after = os.stat(disk)
                self.checks.note(kind, 'its times stay' if before.st_ctime_ns == after.st_ctime_ns else 'its times change')
            versions, program = self.registries.programs['large'], place / 'large'
            program.write_bytes(versions[0])
            program.chmod(0o755)
            with open(program, 'r+b') as file, mmap.mmap(file.fileno(), len(versions[0])) as shared:
                shared[:] = versions[0]
                time.sleep(SETTLED)
                with self.changed('a program of more than 2 MiB on tmpfs that is written through a map', disk, program=program):
                    shared[:] = versions[1]

    def file_systems(self):
        """Mounts another ext4 from the same device. The file on it has the same numbers and times, and other bytes."""
        images = self.folder / 'first', self.folder / 'second'
        images[0].write_bytes(bytes(16 << 20))
        system('mkfs.ext4', '-q', '-F', '-b', '4096', images[0])
        with mounted(images[0], self.folder / 'upper', '-o', 'loop') as place:
            (place / 'disk').write_bytes(self.one)
        content = images[0].read_bytes()
        for at in range(0, len(self.one), mmap.PAGESIZE):
            one, other = (it[at:at + mmap.PAGESIZE] for it in (self.one, self.other))
            assert one == other or content.count(one) == 1, f'the page at {at}'
            content = content if one == other else content.replace(one, other)
        images[1].write_bytes(content)
        time.sleep(SETTLED)
        with contextlib.ExitStack() as stack:
            device, place = stack.enter_context(loop(images[0])), self.folder / 'upper'
            system('mount', '-o', 'ro', device, place)
            stack.callback(system, 'umount', place)
            with self.changed('a file system in the place of another', place / 'disk'):
                system('umount', place)
                system('losetup', '-d', device)
                system('losetup', device, images[1])
                system('mount', '-o', 'ro', device, place)

    # Writes that the medium refused.

    def refused(self):
        """Checks that a `replace` over a loop device without direct I/O returns S1 (Device): the device's file lies on
        ext4, on a device over tmpfs, which has no room for the roots. Then the new bytes in the page cache are
        dropped, and another `replace` succeeds."""
        kind = 'a replace after one that was answered S1'
        with contextlib.ExitStack() as stack:
            place = stack.enter_context(mounted('tmpfs', self.folder / 'memory', '-t', 'tmpfs', '-o', 'size=33m'))
            below = place / 'image'
            below.write_bytes(bytes(16 << 20))
            system('mkfs.ext4', '-q', '-F', '-b', '4096', below)
            outer = stack.enter_context(loop(below, '--direct-io=off'))
            upper = stack.enter_context(mounted(outer, self.folder / 'upper', '-t', 'ext4'))
            (upper / 'disk').write_bytes(self.one)
            os.sync()
            device = stack.enter_context(loop(upper / 'disk', '--direct-io=off'))
            stack.enter_context(open(device, 'rb')) # otherwise the system drops the bytes that it shows
            self.refuse_one(device, below, place)
            emptied_kept(self.folder / KEPT)
            shown = self.starts.start(device, PROGRAM)
            is_taken = self.starts.compared(f'{kind}, before', KEPT, device, PROGRAM)
            forget_all()
            forget(device)
            forget_all()
            dropped = self.starts.start(device, PROGRAM)
            self.checks.want(f'{kind}, before', is_taken and shown != dropped, 'what is shown:', shown, dropped, f'taken: {is_taken}')
            self.registries.done('replace', device, self.registries.file('a', 3))
            self.starts.compared(kind, KEPT, device, PROGRAM)

    def refuse_one(self, device, below, place):
        """Makes a `replace` fail when it writes the roots, so that the medium has the old roots."""
        with open(below, 'r+b') as file, mmap.mmap(file.fileno(), 0) as medium:
            at = medium.find(self.one[:mmap.PAGESIZE])
            assert at >= 0 and at % mmap.PAGESIZE == 0 and medium.find(self.one[:mmap.PAGESIZE], at + 1) < 0
        process = self.by.begin(['script', str(device)])
        process.stdin.write(b'list\n')
        process.stdin.flush()
        assert process.stdout.readline() == b'library liba.so %d\n' % len(self.registries.libraries['a'][0])
        front, filler = read(below, mmap.PAGESIZE, at), place / 'filler'
        system('fallocate', '-p', '-o', at, '-l', mmap.PAGESIZE, below)
        with contextlib.suppress(OSError), open(filler, 'wb', buffering=0) as file:
            while file.write(bytes(mmap.PAGESIZE)):
                pass
        ended = self.by.end(process, b'replace ' + self.registries.libraries['a'][LAST].hex().encode() + b'\n')
        filler.unlink()
        write(below, front, at)
        if not ended.output.endswith(b'refused S1 Device\n'):
            raise NotHere(f'the replace was answered {ended.output}')

    # Devices that can't be read, and devices that become shorter.

    def cut_below(self):
        """Makes the file under a loop device with direct I/O shorter. The device keeps its length, and its end can't
        be read."""
        kind = 'a device whose end can\'t be read'
        path = self.image(self.one)
        used = max(k for k in range(SECTORS) if any(self.one[SECTOR * k:SECTOR * (k + 1)])) + 1
        with loop(path, '--direct-io=on') as device:
            for pages in sorted({0, 1, 2, used // 32, used // 16, used // 10, used // 8}):
                with self.changed(kind, device, differs=None):
                    os.truncate(path, mmap.PAGESIZE * pages)
                    forget(device)
                self.checks.note(kind, f'without -c status {self.starts.start(device, PROGRAM).status}')
                os.truncate(path, 0)
                write(path, self.one)
                forget(device)

    def unreadable(self):
        """Makes each block that the registry uses unreadable, one after the other."""
        kind = 'a device of which a sector can\'t be read'
        used = [k for k in range(SECTORS) if any(self.one[SECTOR * k:SECTOR * (k + 1)])]
        with loop(self.image(self.one)) as below, mapped([linear(SECTORS, below)]) as device:
            for at in sorted({k // 8 * 8 for k in used}):
                with self.changed(kind, device, differs=None, emptied_first=False):
                    load(device, with_errors(SECTORS, below, [at], 8))
                    forget(device)
                self.checks.note(kind, f'without -c status {self.starts.start(device, PROGRAM).status}')
                load(device, [linear(SECTORS, below)])
                forget(device)

    def shorter(self):
        """Makes a device shorter, and then restores its length."""
        path = self.image(self.one)
        with loop(path) as device:
            with self.changed('a device that is shorter', device):
                os.truncate(path, len(self.one) - 4096)
                system('losetup', '-c', device)
            os.truncate(path, len(self.one))
            system('losetup', '-c', device)
            with self.changed('a device of its length again, with other bytes', device):
                os.truncate(path, 4096)
                system('losetup', '-c', device)
                os.truncate(path, len(self.one))
                write(path, self.other)
                system('losetup', '-c', device)
                forget(device)

    # Catalogues, entries and preloads.

    def lists(self):
        """Changes the sectors of catalogues, entries or roots; those of all libraries stay."""
        with loop(self.image(self.one)) as device:
            place, old_at, old = self.entry_of(device, b'liba.so')
            self.registries.done('replace', device, self.registries.file('a', LAST))
            after = read(device, len(self.one))
            catalogue, new_at, new = self.entry_of(device, b'liba.so')
            assert read(device, SECTOR, SECTOR * old_at) == old and old_at != new_at and place != catalogue
            listed = after[SECTOR * catalogue:SECTOR * (catalogue + 1)]
            changes = {
                'a catalogue that names another entry': (catalogue, listed.replace(struct.pack('<I', new_at), struct.pack('<I', old_at))),
                'an entry that names another place': (new_at, old),
                'an entry of another length': (new_at, new[:4] + struct.pack('<I', struct.unpack_from('<I', new, 4)[0] - SECTOR) + new[8:]),
                'an entry of another name': (new_at, new.replace(b'liba.so', b'libz.so')),
                'an entry that is damaged': (new_at, b'LIBX' + new[4:]),
                'a catalogue that is damaged': (catalogue, bytes(SECTOR)),
                'the entry of a library that isn\'t needed': self.damaged(device, b'libc.so'),
                'roots of other preloads': self.with_preload(after),
            }
            for kind, (at, sector) in changes.items():
                with self.changed(kind, device):
                    write(device, sector, SECTOR * at)
                write(device, after)

    def entry_of(self, device, name):
        return self.entry_in(read(device, len(self.one)), name)

    def entry_in(self, content, name):
        """Returns the sectors of a library's catalogue and of its entry, and the entry's bytes."""
        top = registries.current(*(registries.root(content[k:k + SECTOR]) for k in (0, SECTOR)))
        for k, place in enumerate(top.listed):
            for at in registries.catalogue(content[SECTOR * place:SECTOR * (place + 1)], min(64, top.libraries - 64 * k)):
                entry = content[SECTOR * at:SECTOR * (at + 1)]
                if registries.entry(entry)[1] == name:
                    return place, at, entry
        raise AssertionError(name)

    def damaged(self, device, name):
        _, at, entry = self.entry_of(device, name)
        return at, entry[:8] + bytes(SECTOR - 8)

    def with_preload(self, content):
        """Returns the sector of the current root, and the bytes of the same root with the last library as a preload."""
        at = registries.current(*(registries.root(content[k:k + SECTOR]) for k in (0, SECTOR))).generation % 2
        sector = content[SECTOR * at:SECTOR * (at + 1)]
        return at, sector[:22] + struct.pack('<HH', 1, len(ONE) - 1) + sector[26:]

    def preloads(self):
        """Writes the registry with other preloads onto a device."""
        for versions in ((['p'], []), ([], ['p']), (['p'], ['c'])):
            first, second = (self.registries.image(ONE, it) for it in versions)
            with loop(self.image(first)) as device, self.changed('other preloads', device):
                write(device, second)

    def run(self, only):
        parts = (self.zram, self.partitions, self.written, self.each_part, self.huge, self.many, self.backing, self.tables, self.memory,
                 self.file_systems, self.refused, self.cut_below, self.unreadable, self.shorter, self.lists, self.preloads)
        for it in parts:
            name = it.__name__.replace('_', ' ')
            if it.__name__ not in only if only else it.__name__ in UNSEEN:
                continue
            try:
                it()
            except NotHere as why:
                self.checks.skip(name, why)
            except AssertionError as fault:
                self.checks.want(name, False, str(fault))
        images = sum(self.starts.taken.values())
        print(f'images taken: {images}')
        return self.checks.end('kept_devices') or not images


def main():
    words = argparse.ArgumentParser()
    words.add_argument('built', type=Path)
    words.add_argument('folder', type=Path)
    words.add_argument('--loader', type=Path)
    words.add_argument('--only', nargs='*', default=())
    given = words.parse_args()
    if os.getuid():
        sys.exit(print('skipped: all of it: wants root'))
    folder, built = emptied(given.folder).resolve(), given.built.resolve()
    status = Devices(built, (given.loader or built / 'rlibreg-run').resolve(), folder).run(given.only)
    shutil.rmtree(folder)
    sys.exit(status)


if __name__ == '__main__':
    main()

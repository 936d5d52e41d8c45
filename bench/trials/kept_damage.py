#!/usr/bin/env python3
"""Damages images that `rlibreg-run -c` keeps. A start with `-c` has to have the same output and end as a start without
it.

    python3 bench/trials/kept_damage.py BUILT FOLDER [--loader RLIBREG_RUN] [--step N] [--only PART..]

BUILT has what c/build.sh makes. RLIBREG_RUN is another loader to try. The script changes each byte of an image's first
page (or every Nth), in three ways: the start has to notice it. Then it changes some of the other bytes, and prints how many
are noticed. As root, it makes each page of an image unreadable: on ext4 over device mapper, and on btrfs, whose checksums
refuse a changed block. A start has to notice a page that isn't mapped into the program, and the image has to be removed; a
page that is mapped may end the program with SIGBUS. The parts are `numbers` and `words` (changed bytes in the images of two
programs), `ext4` and `btrfs`. The script exits with status 1 if something is wrong.
"""

import argparse
import contextlib
import fcntl
import os
import shutil
import signal
import struct
import sys
import time
from pathlib import Path

sys.path[1:1] = map(str, Path(__file__).resolve().parents[1].glob('*/'))  # the folders of bench
from block_devices import forget_file, linear, load, mapped, with_errors
from checks import Checks, emptied
from kept_starts import MAPS, Registries, Starts, emptied_kept, images_in, made
from media import SECTOR, NotHere, loop, mounted, system, zeros

PAGE = 4096
MASKS = 0x01, 0x80, 0xff
OTHERS = 400
VERSIONS = [('a', 0), ('b', 0), ('c', 0), ('p', 0)]
SETTLED = 2.1
KEEPS_NOTHING = 'sh', '-c', 'ulimit -f 1 && exec "$@"', 'sh'


class Damage:
    def __init__(self, built, loader, folder, step):
        self.folder, self.checks, self.step = folder, Checks(), step
        self.registries = Registries(built / 'rlibreg', folder)
        self.starts = Starts(loader, folder, self.checks)
        for name, versions in self.registries.programs.items():
            (folder / name).write_bytes(versions[0])
            (folder / name).chmod(0o755)
        made(folder, 'maps', MAPS, ['liba.so', '-pie', '-Wl,-e,_start'])
        self.disk = folder / 'disk'
        self.disk.write_bytes(self.registries.image(VERSIONS))
        time.sleep(SETTLED)

    # Changed bytes.

    def bytes(self, name, kept):
        """Changes bytes of the image of a program, each in a start of its own."""
        program, first = f'./{name}', f'{name}: a changed byte of the first page'
        emptied_kept(kept)
        wanted = self.starts.start(self.disk, program)
        if not self.starts.compared(f'{name}: an image', kept, self.disk, program):
            raise NotHere(f'no image is kept and taken: {self.starts.said}')
        path, = images_in(kept)
        image = path.read_bytes()
        used = len(image[:PAGE].rstrip(b'\0'))
        for at in range(0, PAGE, self.step):
            for mask in MASKS:
                is_taken = self.changed(first, wanted, kept, path, image, program, at, mask)
                self.checks.note(first, 'taken' if is_taken else 'noticed')
                self.checks.want(first, at >= used or not is_taken, f'byte {at}, changed by {mask:#x}, isn\'t noticed')
        others = Checks()
        starts, self.starts.checks = self.starts, others
        for at in range(PAGE, len(image), max(1, (len(image) - PAGE) // OTHERS)):
            before = sum(others.wrong.values())
            with contextlib.redirect_stdout(None):
                is_taken = self.changed('other', wanted, kept, path, image, program, at, 0xff)
            told = 'noticed' if not is_taken else 'taken' if sum(others.wrong.values()) == before else 'taken, with other results'
            self.checks.note(f'{name}: other bytes', told)
        starts.checks = self.checks
        self.checks.want(f'{name}: other bytes', True)

    def changed(self, kind, wanted, kept, path, image, program, at, mask):
        """Starts a program from an image with a changed byte. Returns whether the image was used."""
        path.unlink(missing_ok=True)
        path.write_bytes(image[:at] + bytes([image[at] ^ mask]) + image[at + 1:])
        path.chmod(0o600)
        return self.starts.same_as(kind, wanted, kept, self.disk, program)

    # Pages that can't be read.

    def unreadable(self, kind, kept, places_of, spoil):
        """Makes each page of an image unreadable, one after the other, each in a new image. `places_of` returns where
        on the medium a page of a file lies, and `spoil` makes these places unreadable. The first start can't keep
        another image."""
        at, end = 0, 1
        while at < end:
            emptied_kept(kept)
            for _ in range(2):
                healthy, is_taken = self.starts.told(kept, self.disk, './maps')
            if not is_taken:
                raise NotHere(f'no image is kept and taken: {self.starts.said}')
            path, = images_in(kept)
            end, which = path.stat().st_size // PAGE, identity(path)
            places = places_of(path, at)
            if places:
                with spoil(places):
                    forget_file(path)
                    found = self.starts.start(self.disk, './maps', '-c', kept, wrapped=KEEPS_NOTHING)
                    went = not path.exists()
                    second = self.starts.start(self.disk, './maps', '-c', kept)
                    is_other = identity(path) not in (None, which)
                is_mapped = at in mapped_pages(healthy.output, path)
                self.judge(kind, at, is_mapped, healthy, found)
                if not is_mapped:
                    self.checks.want(f'{kind}: the image is removed', went, f'page {at}')
                    self.checks.want(f'{kind}: the next start keeps another', is_other and second.status == healthy.status, f'page {at}', second)
            at += 1

    def judge(self, kind, at, is_mapped, healthy, found):
        """Judges a start. An unreadable page that is mapped ends the program by SIGBUS, or lets a call of the kernel fail."""
        is_same = found.status == healthy.status and not found.errors and found.output.count(b'\n') >= healthy.output.count(b'\n') - 2
        self.checks.note(kind, 'as without -c' if is_same else 'SIGBUS' if found.status == -signal.SIGBUS else 'EFAULT')
        self.checks.want(kind, is_same or is_mapped, f'page {at} of the image, which isn\'t mapped into the program:', found)

    def on_ext4(self):
        image = zeros(self.folder / 'image', 65536)
        with loop(image) as device, mapped([linear(65536, device)]) as mapper:
            system('mkfs.ext4', '-q', '-b', '4096', mapper)
            with mounted(mapper, self.folder / 'mounted', '-t', 'ext4') as place:
                @contextlib.contextmanager
                def spoil(places):
                    load(mapper, with_errors(65536, device, [it // SECTOR for it in places], PAGE // SECTOR))
                    try:
                        yield
                    finally:
                        load(mapper, [linear(65536, device)])
                self.unreadable('unreadable pages on ext4', place / 'kept', place_by_extents, spoil)

    def on_btrfs(self):
        image = zeros(self.folder / 'image', 262144)
        system('mkfs.btrfs', '-q', '-M', '-m', 'single', '-d', 'single', image)

        @contextlib.contextmanager
        def spoil(places):
            with open(image, 'r+b', buffering=0) as file:
                for exchanged in (True, False):
                    for at in places:
                        file.seek(at)
                        content = file.read(PAGE)
                        file.seek(at)
                        file.write(bytes(it ^ 0xff for it in content))
                    os.fsync(file.fileno())
                    if exchanged:
                        yield
        with mounted(image, self.folder / 'mounted', '-t', 'btrfs', '-o', 'loop') as place:
            self.unreadable('unreadable pages on btrfs', place / 'kept', lambda path, at: places_by_bytes(path, at, image), spoil)

    def run(self, only):
        """Tries the parts. The disk is a loop device if there is one: then the file of an image has all bytes that a start compares."""
        with contextlib.ExitStack() as stack:
            try:
                self.disk = stack.enter_context(loop(self.disk)) if not os.getuid() else self.disk
            except NotHere as why:
                self.checks.skip('a device for the disk', why)
            self.run_parts(only)
        return self.checks.end('kept_damage')

    def run_parts(self, only):
        memory = Path('/dev/shm')
        kept = memory / f'rlibreg-{os.getpid()}' if os.access(memory, os.W_OK) else self.folder / 'kept'
        try:
            parts = {'numbers': lambda: self.bytes('numbers', kept), 'words': lambda: self.bytes('words', kept), 'ext4': self.on_ext4,
                     'btrfs': self.on_btrfs}
            for name in only or parts:
                try:
                    if name in ('ext4', 'btrfs') and os.getuid():
                        raise NotHere('wants root')
                    parts[name]()
                except NotHere as why:
                    self.checks.skip(name, why)
        finally:
            shutil.rmtree(kept, ignore_errors=True)


def identity(path):
    """Returns what distinguishes a file from another file of the same name."""
    found = path.stat() if path.exists() else None
    return found and (found.st_ino, found.st_ctime_ns)


def place_by_extents(path, at):
    """Returns the place of a page of a file on the medium, as the file system reports it (FS_IOC_FIEMAP)."""
    os.sync()
    request = bytearray(struct.pack('QQIIII', PAGE * at, PAGE, 0, 0, 1, 0) + bytes(56))
    with open(path, 'rb') as file:
        fcntl.ioctl(file, 0xC020660B, request)
    logical, physical, length = struct.unpack_from('QQQ', request, 32)
    is_there = struct.unpack_from('I', request, 20)[0] and logical <= PAGE * at < logical + length
    return [physical + PAGE * at - logical] if is_there else []


def places_by_bytes(path, at, medium):
    """Returns the places on a medium that have the bytes of a page of a file."""
    os.sync()
    content = path.read_bytes()[PAGE * at:PAGE * (at + 1)]
    whole, places, at = medium.read_bytes() if any(content) else b'', [], 0
    while (at := whole.find(content, at)) >= 0:
        places.append(at)
        at += PAGE
    return places


def mapped_pages(maps, path):
    """Returns the numbers of an image's pages that a program has in its memory. A map from the file's beginning is the
    loader's own."""
    pages = set()
    for line in maps.decode().splitlines():
        fields = line.split()
        if fields[-1] == str(path) and int(fields[2], 16):
            first, last = (int(it, 16) for it in fields[0].split('-'))
            pages |= set(range(int(fields[2], 16) // PAGE, (int(fields[2], 16) + last - first) // PAGE))
    return pages


def main():
    words = argparse.ArgumentParser()
    words.add_argument('built', type=Path)
    words.add_argument('folder', type=Path)
    words.add_argument('--loader', type=Path)
    words.add_argument('--step', type=int, default=1)
    words.add_argument('--only', nargs='*', default=())
    given = words.parse_args()
    folder, built = emptied(given.folder).resolve(), given.built.resolve()
    status = Damage(built, (given.loader or built / 'rlibreg-run').resolve(), folder, given.step).run(given.only)
    shutil.rmtree(folder)
    sys.exit(status)


if __name__ == '__main__':
    main()

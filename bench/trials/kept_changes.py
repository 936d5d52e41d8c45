#!/usr/bin/env python3
"""Makes random changes of registries, devices, programs and folders of images. After each change, a start with `-c` has
to have the same output and end as a start without it.

    python3 bench/trials/kept_changes.py BUILT FOLDER [--changes N] [--each N] [--first NUMBER] [--loader RLIBREG_RUN] [--kinds KIND..]

BUILT has what c/build.sh makes. RLIBREG_RUN is another loader to try. There are N disks of each kind (--each): files in
FOLDER; and for root, if the kernel has them, files on tmpfs, loop devices, partitions, zram, and devices of device mapper.
Most registries are made by the same commands with files of equal lengths, so their roots are equal. No image is kept over a
file that was changed in the last two seconds, so the script changes all disks, waits most of the time, and starts a program
over each. If there is a difference, it prints the disk's last changes. The same NUMBER makes the same choices. The script
exits with status 1 if something is wrong, or if no image of some kind of disk was used.
"""

import argparse
import contextlib
import mmap
import os
import random
import shutil
import subprocess
import sys
import time
from pathlib import Path

sys.path[1:1] = map(str, Path(__file__).resolve().parents[1].glob('*/'))  # the folders of bench
from block_devices import forget, linear, load, mapped, move, part, read, reset, write, zram
from checks import Checks, emptied
from kept_starts import LAST, OPTIONS, PATIENCE, PROGRAMS, SECTORS, VERSIONS, Registries, Starts, emptied_kept, images_in
from media import SECTOR, NotHere, loop, mounted, system

SETTLED = 2.1 # seconds
SHOWN = 8
FIRST_PAGE = 4096
BASES = ((), (), (), ('-b', '0x600000000000'), ('-b', '0x500000000000'))


class Disk:
    """A disk in a folder of its own, which has the programs and two folders of images too."""

    kind = 'a file'

    def __init__(self, trial, folder):
        self.trial, self.folder = trial, folder
        self.choose, self.registries = trial.choose, trial.registries
        self.path = folder / 'disk'
        self.made, self.recent, self.changes = [], [], []

    def begin(self, stack):
        """Makes the disk. `stack` removes everything that is made."""
        self.write(self.registry())

    def registry(self):
        """Returns the bytes of a registry. Most registries have equal roots."""
        choose = self.choose
        versions = [('a', choose.randrange(len(VERSIONS))), ('b', choose.choice((0, 0, LAST))), ('c', choose.choice((0, 1))),
                    ('p', choose.choice((0, LAST)))]
        if choose.random() < 0.1:
            versions[0] = 'long', choose.randrange(3)
        if choose.random() < 0.15:
            versions = [versions[1], versions[0], *versions[2:]]
        return self.registries.image(versions, choose.choice(((), (), (), ('p',), ('c',))))

    def write(self, content, at=0):
        write(self.path, content, at)

    def read(self):
        return read(self.path, SECTOR * SECTORS)

    # Changes of registries. Each returns a text that describes it.

    def other_bytes(self):
        content = self.registry()
        if self.choose.random() < 0.7:
            self.write(content)
            return 'other bytes'
        before = self.read()
        for at in range(0, len(content), SECTOR):
            if content[at:at + SECTOR] != before[at:at + SECTOR]:
                self.write(content[at:at + SECTOR], at)
        return 'other sectors'

    def command(self):
        choose, name = self.choose, self.choose.choice('abcp')
        version = choose.randrange(len(VERSIONS))
        preloads = choose.choice(((), ('libp.so',), ('libc.so', 'libp.so')))
        words = choose.choice((
            ['replace', self.path, self.registries.file(name, version)], ['replace', self.path, self.registries.file('a', version)],
            ['install', self.path, self.registries.file(name, version)], ['remove', self.path, f'lib{name}.so'],
            ['preload', self.path, *preloads]))
        ended = self.registries.run(*words)
        return f'{words[0]} {Path(words[-1]).name}: {(ended.stdout + ended.stderr).decode().strip()}'

    def update(self):
        lines = [b'replace ' + self.registries.libraries[name][self.choose.randrange(len(VERSIONS))].hex().encode() + b'\n'
                 for name in self.choose.sample('abcp', self.choose.randrange(1, 4))]
        given = b''.join(lines) + b'commit\n'
        ended = subprocess.run([self.trial.tool, 'update', str(self.path)], input=given, capture_output=True, timeout=PATIENCE)
        return f'update of {len(lines)}: {ended.stdout.decode().strip()}'

    def made_again(self):
        """Makes a registry by commands in place of the existing registry."""
        self.write(bytes(2 * SECTOR))
        self.registries.make(self.path, [('a', self.choose.randrange(len(VERSIONS))), ('b', 0), ('c', 0), ('p', 0)])
        return 'made again'

    def damaged(self):
        used = [at for at, byte in enumerate(self.read()) if byte]
        if not used:
            return 'nothing'
        at = self.choose.choice(used) if self.choose.random() < 0.5 else self.choose.choice([it for it in used if it < 8 * SECTOR] or used)
        self.write(bytes([self.read()[at] ^ 1 << self.choose.randrange(8)]), at)
        return f'byte {at} changed'

    def zeros(self):
        self.write(bytes(2 * SECTOR))
        return 'no registry'

    def other_place(self):
        """Changes the file or device below a disk, for the kinds of disks that have one."""
        return self.other_bytes()

    # Changes of programs.

    def program(self):
        return self.folder / self.choose.choice(self.recent)[1] if self.recent else self.folder / 'numbers'

    def program_replaced(self):
        path = self.program()
        new = self.folder / 'new'
        new.write_bytes(self.choose.choice(self.registries.programs[path.name]))
        new.chmod(0o755)
        new.rename(path)
        return f'{path.name} replaced'

    def program_changed(self):
        """Changes a program in place, and sets its modification time back."""
        path = self.program()
        if not path.exists():
            return self.program_replaced()
        before = path.stat()
        with open(path, 'r+b') as file:
            file.write(self.choose.choice(self.registries.programs[path.name]))
        os.utime(path, ns=(before.st_atime_ns, before.st_mtime_ns))
        return f'{path.name} changed'

    def program_cut(self):
        path = self.program()
        if path.exists():
            os.truncate(path, self.choose.randrange(path.stat().st_size + 1))
        return f'{path.name} cut'

    def program_removed(self):
        path = self.program()
        path.unlink(missing_ok=True)
        return f'{path.name} removed'

    def program_rights(self):
        path, mode = self.program(), self.choose.choice((0o755, 0o700, 0o644, 0))
        if path.exists():
            path.chmod(mode)
        return f'{path.name} has mode {mode:o}'

    # Changes of folders and of their images.

    def kept(self):
        return self.folder / self.choose.choice(('kept', 'kept-2'))

    def folder_emptied(self):
        return f'{emptied_kept(self.kept()).name} emptied'

    def folder_rights(self):
        path, mode = self.kept(), self.choose.choice((0o700, 0o700, 0o755, 0o777, 0o500))
        path.chmod(mode)
        return f'{path.name} has mode {mode:o}'

    def an_image(self):
        images = images_in(self.kept())
        return self.choose.choice(images) if images else None

    def image_byte(self):
        """Changes a byte of an image's first page, which has a checksum."""
        path = self.an_image()
        if not path or path.is_symlink():
            return 'no image'
        with open(path, 'r+b') as file:
            first = file.read(FIRST_PAGE)
            at = self.choose.choice([k for k, byte in enumerate(first) if byte] or [0])
            file.seek(at)
            file.write(bytes([first[at] ^ self.choose.choice((1, 2, 128, 255))]) if first else b'x')
        return f'byte {at} of an image changed'

    def image_cut(self):
        path = self.an_image()
        if not path:
            return 'no image'
        length = self.choose.randrange(path.stat().st_size + 1)
        os.truncate(path, length)
        return f'an image of {length} bytes'

    def images_exchanged(self):
        images = images_in(self.kept())
        if len(images) < 2:
            return 'one image'
        one, other = self.choose.sample(images, 2)
        one.rename(self.folder / 'moved')
        other.rename(one)
        (self.folder / 'moved').rename(other)
        return 'images exchanged'

    def image_copied(self):
        """Copies an image from a folder of this disk or of another one."""
        source = self.choose.choice((self, self.choose.choice(self.trial.disks))).an_image()
        if not source:
            return 'no image'
        target = self.an_image() or self.kept() / source.name
        if self.choose.random() < 0.3:
            target = self.kept() / source.name
        if source != target:
            target.unlink(missing_ok=True)
            shutil.copy(source, target)
        return f'an image of {source.parent} copied'

    def image_rights(self):
        path, mode = self.an_image(), self.choose.choice((0o600, 0o644, 0o666, 0o400))
        if path and not path.is_symlink():
            path.chmod(mode)
        return f'an image has mode {mode:o}'

    CHANGES = {
        'other_bytes': 22, 'command': 14, 'update': 5, 'made_again': 3, 'damaged': 7, 'zeros': 1, 'other_place': 16,
        'program_replaced': 7, 'program_changed': 6, 'program_cut': 1, 'program_removed': 1, 'program_rights': 2,
        'folder_emptied': 2, 'folder_rights': 3, 'image_byte': 4, 'image_cut': 2, 'images_exchanged': 4, 'image_copied': 4, 'image_rights': 2,
    }

    def change(self):
        name = self.choose.choices(list(self.CHANGES), list(self.CHANGES.values()))[0]
        self.changes.append(getattr(self, name)())

    def started(self):
        """Returns a folder of images, a program and options: mostly those of a recent start."""
        if self.recent and self.choose.random() < 0.75:
            return self.choose.choice(self.recent)
        name = self.choose.choice(list(PROGRAMS))
        it = self.choose.choice(('kept', 'kept-2')), name, (*OPTIONS.get(name, ()), *self.choose.choice(BASES))
        self.recent = [*self.recent[-3:], it]
        return it

    def compare(self):
        kept, name, options = self.started()
        self.trial.starts.compared(self.kind, self.folder / kept, self.path, self.folder / name, *options, more=f'{name}: {self.changes[-SHOWN:]}')


class File(Disk):
    """A file in FOLDER."""

    def begin(self, stack):
        self.path.write_bytes(self.registry())

    def other_place(self):
        if self.choose.random() < 0.5:
            return self.other_bytes()
        new = self.folder / 'new'
        new.write_bytes(self.registry())
        new.rename(self.path)
        return 'another file in its place'


class InMemory(Disk):
    """A file on tmpfs, which is also written through a map."""

    kind = 'a file on tmpfs'

    def begin(self, stack):
        self.path = stack.enter_context(mounted('tmpfs', self.folder / 'memory', '-t', 'tmpfs')) / 'disk'
        self.path.write_bytes(self.registry())
        file = stack.enter_context(open(self.path, 'r+b'))
        self.shared = stack.enter_context(mmap.mmap(file.fileno(), SECTOR * SECTORS))
        self.shared[:] = self.path.read_bytes()

    def other_place(self):
        self.shared[:] = self.registry()
        return 'other bytes through a map'


class Loop(Disk):
    kind = 'a loop device'

    def begin(self, stack):
        self.files = [self.folder / f'image-{k}' for k in range(2)]
        for it in self.files:
            it.write_bytes(self.registry())
        self.path = stack.enter_context(loop(self.files[0], f'--direct-io={self.choose.choice(("on", "off"))}'))

    def other_place(self):
        if self.choose.random() < 0.3:
            system('losetup', '-d', self.path)
            system('losetup', self.path, self.choose.choice(self.files))
            return 'attached again'
        for it in self.files:
            write(it, self.registry())
        forget(self.path)
        return 'other bytes in the file below'


class Partition(Disk):
    kind = 'a partition'
    places = 64, 64 + SECTORS

    def begin(self, stack):
        below = self.folder / 'image'
        below.write_bytes(bytes(64 * SECTOR) + self.registry() + self.registry())
        self.device = stack.enter_context(loop(below))
        self.path = stack.enter_context(part(self.device, self.places[0], SECTORS))

    def other_place(self):
        place = self.choose.choice(self.places)
        move(self.device, place, SECTORS)
        return f'begins at {place}'


class Zram(Disk):
    kind = 'zram'

    def begin(self, stack):
        self.path = stack.enter_context(zram(SECTORS))
        self.write(self.registry())

    def other_place(self):
        reset(self.path, SECTORS)
        self.registries.make(self.path, [('a', self.choose.randrange(len(VERSIONS))), ('b', 0), ('c', 0), ('p', 0)])
        return 'reset and made again'


class Mapped(Disk):
    kind = 'a device of device mapper'

    def begin(self, stack):
        self.below = []
        for k in range(2):
            (self.folder / f'image-{k}').write_bytes(self.registry())
            self.below.append(stack.enter_context(loop(self.folder / f'image-{k}')))
        self.path = stack.enter_context(mapped([linear(SECTORS, self.below[0])]))

    def other_place(self):
        one, other = self.choose.choice((self.below, self.below[::-1]))
        at = self.choose.choice((SECTORS, SECTORS, 8 * self.choose.randrange(1, SECTORS // 8)))
        load(self.path, [linear(at, one), linear(SECTORS - at, other, at)])
        return f'has {at} sectors of {one.name}, and then {other.name}'


KINDS = {'file': File, 'tmpfs': InMemory, 'loop': Loop, 'partition': Partition, 'zram': Zram, 'mapped': Mapped}


class Trial:
    def __init__(self, built, loader, folder, first):
        self.folder, self.choose, self.checks = folder, random.Random(first), Checks()
        self.registries = Registries(built / 'rlibreg', folder)
        self.tool = str(built / 'rlibreg-tool')
        self.starts = Starts(loader, folder, self.checks)
        self.disks = []

    def begin(self, kinds, each, stack):
        for kind in kinds:
            for k in range(each):
                folder = self.folder / f'{kind}-{k}'
                folder.mkdir()
                for name, versions in self.registries.programs.items():
                    (folder / name).write_bytes(versions[0])
                    (folder / name).chmod(0o755)
                for name in ('kept', 'kept-2'):
                    emptied_kept(folder / name)
                disk = KINDS[kind](self, folder)
                try:
                    if kind != 'file' and os.getuid():
                        raise NotHere('wants root')
                    disk.begin(stack)
                except NotHere as why:
                    self.checks.skip(disk.kind, why)
                    break
                self.disks.append(disk)

    def run(self, changes):
        made = 0
        while made < changes:
            for disk in self.disks:
                disk.change()
            if self.choose.random() < 0.7:
                time.sleep(SETTLED)
            for disk in self.disks:
                disk.compare()
            made += len(self.disks)
        return made


def main():
    words = argparse.ArgumentParser()
    words.add_argument('built', type=Path)
    words.add_argument('folder', type=Path)
    words.add_argument('--changes', type=int, default=2000)
    words.add_argument('--each', type=int, default=4)
    words.add_argument('--first', type=int, default=random.randrange(10**6))
    words.add_argument('--loader', type=Path)
    words.add_argument('--kinds', nargs='*', default=list(KINDS), choices=list(KINDS))
    given = words.parse_args()
    folder, built = emptied(given.folder).resolve(), given.built.resolve()
    print(f'--first {given.first}', flush=True)
    trial = Trial(built, (given.loader or built / 'rlibreg-run').resolve(), folder, given.first)
    with contextlib.ExitStack() as stack:
        trial.begin(given.kinds, given.each, stack)
        made = trial.run(given.changes)
    for disk in trial.disks:
        for name in ('kept', 'kept-2'):
            (disk.folder / name).chmod(0o700) # otherwise the user may not remove the files in it
    for kind in {it.kind: None for it in trial.disks}:
        print(f'{kind}: {trial.starts.taken[kind]} images taken, of {2 * trial.checks.looked[kind] // 3} starts that tell')
    print(f'{made} changes')
    status = trial.checks.end('kept_changes') or not all(trial.starts.taken[it.kind] for it in trial.disks)
    shutil.rmtree(folder)
    sys.exit(status)


if __name__ == '__main__':
    main()

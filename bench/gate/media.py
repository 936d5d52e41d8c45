#!/usr/bin/env python3
"""Tests the program `rlibreg` on disks that lie on read-only media, and on disks that are block devices: loop devices and
partitions of them. Needs root and the programs that make such media; if the machine lacks something, the part that needs
it is left out, and a line reports this.

    python3 bench/gate/media.py PROGRAM FOLDER [--run RLIBREG_RUN] [--clib TOOL]

The images are made by mksquashfs, mkfs.erofs, genisoimage and mkfs.ext4, and mounted read-only. Commands that only read
work as on an ordinary file; a change is answered with S1 (Device), or with the message that the disk can't be read. On
ext4, xfs and btrfs the roots of a file are changed underneath the page cache, also while somebody has that page mapped. On
a device each command does what it does on a file of as many bytes. A device is in use if it, its disk or one of its
partitions is mounted, swapped to or under device mapper: such a device is read, and not changed. RLIBREG_RUN is the
loader, which starts a program from each medium; TOOL is the program of c/tests/library/tool.c.
"""

import argparse
import contextlib
import fcntl
import mmap
import os
import re
import shutil
import stat
import subprocess
import sys
import threading
import time
from pathlib import Path

sys.path[1:1] = map(str, Path(__file__).resolve().parents[1].glob('*/'))  # the folders of bench
from checks import NOBODY, Checks, CLibrary, Program, emptied, for_others, has, held_file, soon
from libraries import Made

SECTOR, PAGE = 512, 4096
AT_ONCE, TRIES, LATE = 1.0, (1.5, 4.0), 0.7
S1 = b'refused S1 Device\n'
SOURCES = {
    'one.c': 'int one(void) { return 41; }\n',
    'start.c': 'extern int one(void);\n__attribute__((force_align_arg_pointer)) void _start(void) {\n'
               '    int status = one() + 1;\n    __asm__ volatile("syscall" : : "a"(60), "D"(status));\n    __builtin_unreachable();\n}\n',
}
OBJECT = ['gcc', '-O1', '-fPIC', '-nostdlib', '-Wl,--hash-style=sysv']
STARTED = 42
# The number of times that eight lists are started at once.
LISTS = 50
MEDIA = {
    'squashfs': ['mksquashfs', 'content', 'image', '-noappend', '-quiet'],
    'erofs': ['mkfs.erofs', 'image', 'content'],
    'iso9660': ['genisoimage', '-quiet', '-R', '-o', 'image', 'content'],
    'ext4': ['mkfs.ext4', '-q', '-F', '-d', 'content', 'image', '16M'],
}
# File systems on which a disk is a file, with their mount options: btrfs without its checksums.
FILE_SYSTEMS = {'ext4': ('loop', 'mkfs.ext4', '-q', '-F'), 'xfs': ('loop', 'mkfs.xfs', '-q', '-f'), 'btrfs': ('loop,nodatasum', 'mkfs.btrfs', '-q', '-f')}


class NotHere(Exception):
    """This machine lacks something that a part needs."""


def system(*words, **how):
    """Runs a tool of the system. If the machine lacks the tool, or the tool fails, raises NotHere with the reason."""
    if not has(words[0]):
        raise NotHere(f'there is no {words[0]}')
    path = os.environ.get('PATH', '') + ':/usr/sbin:/sbin'
    ended = subprocess.run([str(word) for word in words], capture_output=True, env={**os.environ, 'PATH': path}, **how)
    if ended.returncode:
        raise NotHere(ended.stderr.decode(errors='replace').strip().split('\n')[0])
    return ended.stdout.decode().strip()


@contextlib.contextmanager
def loop(image, *options):
    """Makes a loop device over an image."""
    path = system('losetup', '-f', '--show', *options, image)
    try:
        yield Path(path)
    finally:
        subprocess.run(['losetup', '-d', path], check=True)


def unmount(place):
    """Unmounts a file system. A detached loop device uses its file until every process has closed the device, so this
    waits as long as the file system is in use, but not for more than ten seconds."""
    until = time.monotonic() + 10
    while (ended := subprocess.run(['umount', str(place)], capture_output=True, text=True)).returncode:
        if time.monotonic() > until:
            raise OSError(ended.stderr.strip())
        time.sleep(0.1)


@contextlib.contextmanager
def mounted(what, place, *options):
    place.mkdir(exist_ok=True)
    system('mount', *options, what, place)
    try:
        yield place
    finally:
        unmount(place)


def zeros(path, sectors):
    """Makes a file of `sectors` sectors that takes no space."""
    path.unlink(missing_ok=True)
    with open(path, 'wb') as file:
        file.truncate(SECTOR * sectors)
    return path


def partition(device, number, start, sectors):
    """Makes a partition: by a table if the system reads the table, and otherwise by a call of the kernel."""
    path = Path(f'{device}p{number}')
    system('addpart', device, number, start, sectors)
    for _ in range(100):
        if path.is_block_device():
            return path
        time.sleep(0.02)
    raise NotHere('partitions get no nodes')


def are_in_order(calls, changes):
    """Returns whether a sync comes before all other calls, and whether a change also syncs directly before each write
    of a root, and after it."""
    made = [call for call in calls if call != 'read']
    roots = [at for at, call in enumerate(made) if call == 'root']
    return calls[:1] == ['sync'] and bool(roots) == changes and made[-1:] == ['sync'] and all(made[at - 1] == 'sync' for at in roots)


class Media:
    def __init__(self, by, runner, folder, checks):
        self.by, self.runner, self.folder, self.checks = by, runner, folder, checks
        self.by.folder = folder
        self.image, self.place = folder / 'image', folder / 'mounted'
        for name, made in {'a.so': Made(b'a', exports=[b'fa'], data=600), 'b.so': Made(b'b', exports=[b'fb'], data=900),
                           'b2.so': Made(b'b', exports=[b'other', b'fb'], data=2500), 'large.so': Made(b'c', exports=[b'fc'], data=9000),
                           'program': Made(needed=[b'a'], undefined=[b'fa'], relocations=[(1, 0, 1, 0)], behind=64)}.items():
            (folder / name).write_bytes(made.file)

    def want(self, kind, holds, *found):
        return self.checks.want(f'{self.by.name}: {kind}', holds, *found)

    def make(self, disk, sectors, *libraries):
        self.by.done('format', str(disk), str(sectors))
        for library in libraries:
            self.by.done('install', str(disk), library)

    def reads(self, disk):
        """Returns the commands that only read, with their input."""
        words = [(['list', disk], b''), (['bind', disk, 'program', '0x100000'], b'')]
        return words if self.is_library() else [*words, (['script', disk], b'list\n\n')]

    def changes(self, disk):
        words = [(['install', disk, 'large.so'], b''), (['replace', disk, 'b2.so'], b'')]
        words += [(['remove', disk, 'b'], b''), (['preload', disk, 'b', 'a'], b'')]
        return words if self.is_library() else [*words, (['script', disk], b'remove b\n')]

    def makings(self, disk, sectors):
        return [(['upgrade', disk], b''), (['format', disk, str(sectors)], b'')]

    def is_library(self):
        return isinstance(self.by, CLibrary)

    def answers(self, disk, **how):
        return [self.by.run(words, given, **how)[:3] for words, given in self.reads(str(disk))]

    def only_read(self, kind, disk, plain, **how):
        """Checks that these commands have the same answers as on a plain file, and that a change is refused and
        changes nothing."""
        self.want(kind, self.answers(disk, **how) == plain, self.answers(disk, **how), 'and not', plain)
        for words, given in self.changes(str(disk)) + self.makings(str(disk), 64):
            ended = self.by.run(words, given, **how)
            good = ended[:2] == (3, S1) or self.by.unread(ended, disk) or ended.status == 9
            good |= words[0] == 'format' and ended[:2] == (1, b'refused S4 AlreadyFormatted\n') or words[0] == 'upgrade' and ended[:2] == (0, b'ok\n')
            self.want(kind, good, words, ended)
        self.want(kind, self.answers(disk, **how) == plain, 'after the changes:', self.answers(disk, **how))

    # Read-only media.

    def read_only_media(self):
        content = emptied(self.folder / 'content')
        self.make(content / 'disk', 64, 'a.so', 'b.so')
        shutil.copy(self.folder / 'program', content)
        plain, started = self.answers(content / 'disk'), self.programs(content)
        for kind, words in MEDIA.items():
            kind_read = f'{kind}, mounted read-only'
            self.image.unlink(missing_ok=True)
            try:
                system(*words, cwd=self.folder)
                with mounted(self.image, self.place, '-t', kind, '-o', 'loop,ro'):
                    self.only_read(kind_read, self.place / 'disk', plain)
                    self.start(kind_read, started and self.place)
            except NotHere as why:
                self.checks.skip(f'{self.by.name}: {kind_read}', why)

    def programs(self, content):
        """Makes a registry with a library that a C compiler made, and a program that ends with a status by that
        library."""
        if not self.runner or not has('gcc'):
            return False
        for name, text in SOURCES.items():
            (self.folder / name).write_text(text)
        system(*OBJECT, '-shared', '-Wl,-soname,libone.so', '-o', 'libone.so', 'one.c', cwd=self.folder)
        system(*OBJECT, '-pie', '-Wl,-e,_start', '-o', content / 'start', 'start.c', 'libone.so', cwd=self.folder)
        self.make(content / 'real', 256, 'libone.so')
        return True

    def start(self, kind, place):
        if place:
            ended = subprocess.run([self.runner, str(place / 'real'), str(place / 'start')], capture_output=True)
            self.want(f'{kind}, a program is started', ended.returncode == STARTED, ended)

    def another_user(self):
        """Tries a file that only its owner may write, and a file that only its owner may read."""
        path = self.by.path
        self.by.path = for_others(path, self.folder) or path
        if self.by.path == path:
            return self.checks.skip('another user', 'may not get to FOLDER')
        disk = self.folder / 'owned'
        disk.unlink(missing_ok=True)
        self.make(disk, 64, 'a.so', 'b.so')
        plain = self.answers(disk)
        self.only_read('a file that only its owner may write', disk, plain, wrapped=NOBODY)
        disk.chmod(0o600)
        for words, given in self.reads(str(disk)) + self.changes(str(disk)):
            ended = self.by.run(words, given, wrapped=NOBODY)
            self.want('a file that only its owner may read', self.by.unread(ended, disk), words, ended)
        self.by.path = path

    # Devices.

    def sequence(self, disk, sectors):
        """Runs all commands, one after the other. Returns the answer of each."""
        given = b'install ' + (self.folder / 'large.so').read_bytes().hex().encode() + b'\nlist\nremove c\n'
        words = [['format', disk, str(sectors - 1)], ['format', disk, str(sectors + 1)], ['list', disk], ['format', disk, str(sectors)]]
        words += [['format', disk, str(it)] for it in (sectors, sectors + 8)]
        words += [['install', disk, 'a.so'], ['install', disk, 'b.so'], ['replace', disk, 'b2.so'], ['preload', disk, 'b', 'a'], ['list', disk]]
        words += [['bind', disk, 'program', '0x100000'], ['script', disk], ['remove', disk, 'b'], ['preload', disk, 'a'], ['remove', disk, 'b']]
        words += [['upgrade', disk], ['list', disk]]
        return [(it, self.by.run(it, given if it[0] == 'script' else b'')[:3]) for it in words if it[0] != 'script' or not self.is_library()]

    def devices(self):
        """Compares the answers on devices of some sizes with those on files of the same sizes."""
        for sectors, options in ((64, ()), (65, ()), (100, ()), (64, ('--sector-size', '4096')), (4096, ()), (4194304, ())):
            kind = f'a device of {sectors} sectors' + (' of 4,096 bytes' if options else '')
            plain = zeros(self.folder / 'plain', sectors)
            wanted = self.sequence(str(plain), sectors)
            try:
                with loop(zeros(self.image, sectors), *options) as device:
                    self.compared(kind, device, plain, self.sequence(str(device), sectors), wanted)
                    os.sync()
                if sectors < 2**16:
                    self.want(kind, self.image.read_bytes() == plain.read_bytes(), 'the medium has other bytes than a file')
            except NotHere as why:
                self.checks.skip(f'{self.by.name}: {kind}', why)

    def compared(self, kind, device, plain, found, wanted):
        for (words, ended), (_, other) in zip(found, wanted):
            expected = (other[0], other[1], other[2].replace(str(plain).encode(), str(device).encode()))
            self.want(kind, ended == expected, words, ended, 'and not', expected)

    def odd_sizes(self):
        for sectors in (7, 4194305):
            with loop(zeros(self.image, sectors)) as device:
                for words, given in self.reads(str(device)) + self.changes(str(device)) + self.makings(str(device), max(8, min(sectors, 4194304))):
                    ended = self.by.run(words, given)
                    self.want(f'a device of {sectors} sectors', ended[:3] == (1, b'refused S6 BadGeometry\n', b''), words, ended)
        node = self.folder / 'node'
        node.unlink(missing_ok=True)
        os.mknod(node, stat.S_IFBLK | 0o600, os.makedev(259, 1048000))
        for words, given in self.reads('node') + self.changes('node') + self.makings('node', 64):
            ended = self.by.run(words, given)
            self.want('the node of no device', self.by.unread(ended, 'node'), words, ended)

    def partitions(self):
        """Tries a partition; the sectors around it stay as they are."""
        with loop(zeros(self.image, 8192), '-P') as device:
            part = self.by_a_table(device) or partition(device, 1, 2048, 100)
            plain = zeros(self.folder / 'plain', 100)
            self.compared('a partition of 100 sectors', part, plain, self.sequence(str(part), 100), self.sequence(str(plain), 100))
            before = self.image.read_bytes()
            self.by.done('install', str(part), 'b.so')
            os.sync()
            after = self.image.read_bytes()
            apart = [at for at in range(8192) if before[SECTOR * at:SECTOR * (at + 1)] != after[SECTOR * at:SECTOR * (at + 1)]]
            self.want('a partition of 100 sectors', apart and 2048 <= apart[0] and apart[-1] < 2148, 'written:', apart)

    def by_a_table(self, device):
        """Makes the same partition by a table, if the machine writes and reads such tables."""
        path = Path(f'{device}p1')
        if has('sfdisk'):
            subprocess.run(['sfdisk', '-q', str(device)], input=b'label: dos\nstart=2048, size=100, type=83\n', capture_output=True)
            time.sleep(0.1)
        return path if path.is_block_device() else None

    def unseen(self):
        """Tries a loop device without direct I/O, and its partition, through which the medium can't be seen. Each change
        there writes the roots to the medium; on other devices, no change does so if nothing differs."""
        for option, wanted in (('off', True), ('on', False)):
            kind = f'a change over a loop device, direct I/O {option}'
            try:
                with loop(zeros(self.image, 8192), f'--direct-io={option}') as device:
                    if Path(f'/sys/block/{device.name}/loop/dio').read_text().strip() != str(int(option == 'on')):
                        raise NotHere('the file system has no direct I/O')
                    for disk, sectors in ((device, 8192), (partition(device, 1, 2048, 100), 100)):
                        self.by.done('format', str(disk), str(sectors))
                        self.want(f'{kind}, {disk.name}', self.is_written(disk) == wanted, 'written:', not wanted)
                    system('delpart', device, 1)
            except NotHere as why:
                self.checks.skip(f'{self.by.name}: {kind}', why)

    def is_written(self, disk):
        """Returns whether an `upgrade` that has nothing to do writes."""
        before = self.sectors_written(disk)
        self.by.done('upgrade', str(disk))
        return self.sectors_written(disk) > before

    def sectors_written(self, disk):
        return int(Path(f'/sys/class/block/{disk.name}/stat').read_text().split()[6])

    def in_use(self):
        """Checks that devices in use are read, and not changed."""
        for part in (self.mounted_device, self.mounted_partition, self.mounted_whole, self.swapped, self.mapped):
            try:
                part()
            except NotHere as why:
                self.checks.skip(f'{self.by.name}: {part.__doc__}', why)

    def busy(self, kind, device, sectors):
        """Checks the answers while the device is in use."""
        before = self.image.read_bytes()
        listed = self.by.run(['list', str(device)])
        self.want(kind, listed[:3] == (0, b'end\n', b''), listed)
        for words, given in self.changes(str(device)) + self.makings(str(device), sectors):
            ended = soon(lambda: self.by.run(words, given), TRIES[1])
            self.want(kind, self.by.unread(ended, device), words, ended)
            self.want(kind, ended.seconds < TRIES[1], words, 'took', ended.seconds)
        self.want(kind, self.image.read_bytes() == before, 'it was written')

    def free(self, kind, device):
        ended = self.by.run(['preload', str(device)])
        self.want(kind, ended[:2] == (0, b'ok\n'), 'once it is free:', ended)

    def mounted_device(self):
        """a device that is mounted"""
        kind = 'a device that is mounted'
        with loop(zeros(self.image, 8192)) as device:
            system('mkfs.ext2', '-q', '-F', device)
            self.by.done('format', str(device), '8192')
            with mounted(device, self.place, '-t', 'ext2', '-o', 'ro'):
                self.busy(kind, device, 8192)
            self.free(kind, device)

    def mounted_partition(self):
        """a device whose partition is mounted"""
        kind = 'a device whose partition is mounted'
        with loop(zeros(self.image, 16384), '-P') as device:
            self.by.done('format', str(device), '16384')
            part, sibling = partition(device, 1, 8192, 8192), partition(device, 2, 4096, 200)
            system('mkfs.ext2', '-q', '-F', part)
            with mounted(part, self.place, '-t', 'ext2', '-o', 'ro'):
                self.busy(kind, device, 16384)
                self.make(sibling, 200, 'a.so', 'b.so')
                listed = self.by.run(['list', str(sibling)])
                self.want('a partition beside one that is mounted', listed.output.count(b'library') == 2, listed)
            system('delpart', device, 1)
            system('delpart', device, 2)
            self.free(kind, device)

    def mounted_whole(self):
        """a partition whose disk is mounted"""
        kind = 'a partition whose disk is mounted'
        with loop(zeros(self.image, 8192), '-P') as device:
            system('mkfs.ext2', '-q', '-F', device)
            part = partition(device, 1, 7000, 200)
            os.sync()
            with open(device, 'r+b') as file:
                file.seek(7000 * SECTOR)
                file.write(bytes(200 * SECTOR))
            self.by.done('format', str(part), '200')
            system('delpart', device, 1)
            with mounted(device, self.place, '-t', 'ext2', '-o', 'ro'):
                self.busy(kind, partition(device, 1, 7000, 200), 200)
                system('delpart', device, 1)

    def swapped(self):
        """a device that is swapped to"""
        kind = 'a device that is swapped to'
        with loop(zeros(self.image, 8192)) as device:
            system('mkswap', device)
            self.by.done('format', str(device), '8192')
            system('swapon', '-p', '0', device)
            try:
                self.busy(kind, device, 8192)
            finally:
                subprocess.run(['swapoff', str(device)], check=True)
            self.free(kind, device)

    def mapped(self):
        """a device under device mapper"""
        kind, name = 'a device under device mapper', f'rlibreg-{os.getpid()}'
        with loop(zeros(self.image, 8192)) as device:
            self.by.done('format', str(device), '8192')
            system('dmsetup', 'create', name, '--table', f'0 8192 linear {device} 0')
            try:
                self.busy(kind, device, 8192)
                listed = self.by.run(['list', f'/dev/mapper/{name}'])
                self.want(kind, listed[:2] == (0, b'end\n'), 'the mapped device:', listed)
            finally:
                subprocess.run(['dmsetup', 'remove', name], check=True)
            self.free(kind, device)

    def two_nodes(self):
        """Tries another node of the same device."""
        kind, node = 'two nodes of a device', self.folder / 'node'
        with loop(zeros(self.image, 64)) as device:
            node.unlink(missing_ok=True)
            os.mknod(node, stat.S_IFBLK | 0o600, os.stat(device).st_rdev)
            try:
                open(node, 'rb').close()
            except OSError as why:
                raise NotHere(f'nodes in FOLDER: {why}') from why
            self.make(device, 64, 'a.so')
            self.by.done('install', 'node', 'b.so')
            listed = [self.by.run(['list', it])[:3] for it in ('node', str(device))]
            self.want(kind, listed[0] == listed[1] and listed[0][1].count(b'library') == 2, listed)
            if not self.is_library():
                for behind in (node, device):
                    self.streams(device, behind)

    def streams(self, device, behind):
        """Tries the device as the file of a standard stream: the program's output would go into it."""
        kind = 'a device behind a stream' + (', by another node' if behind != device else '')
        for stream in ('stdin', 'stdout', 'stderr'):
            for words, _ in self.reads(str(device)) + self.changes(str(device)) + self.makings(str(device), 64):
                os.sync()
                before = self.image.read_bytes()
                plain = self.by.run(words) if words[0] in ('list', 'bind') else None
                number = os.open(behind, os.O_RDWR)
                ended = self.by.run(words, **{stream: number})
                os.close(number)
                os.sync()
                changed = self.image.read_bytes() != before
                if stream == 'stdin' and words[0] != 'script':
                    self.want(kind, ended.status in (0, 1) and ended[:3] == (plain or ended)[:3], stream, words, ended)
                    self.again(device, before)
                else:
                    message = None if stream == 'stderr' else f'rlibreg: cannot read {device}\n'.encode()
                    self.want(kind, ended.status == 3 and not ended.output and ended.errors == message, stream, words, ended)
                    self.want(kind, not changed, stream, words, 'wrote')

    def again(self, device, content):
        with open(device, 'r+b') as file:
            file.write(content)
            file.flush()
            os.fsync(file.fileno())

    def locks(self):
        """Checks that a change waits some two seconds for a device, because other processes look at the device
        after each write. A command that only reads doesn't wait."""
        with loop(zeros(self.image, 64)) as device:
            self.make(device, 64, 'a.so')
            plain = self.answers(device)[0]
            kind = 'a device that is held for a moment'
            number = os.open(device, os.O_RDONLY)
            fcntl.flock(number, fcntl.LOCK_SH)
            timer = threading.Timer(LATE, os.close, (number,))
            timer.start()
            ended = self.by.run(['install', str(device), 'b.so'])
            timer.join()
            self.want(kind, ended[:2] == (0, b'ok\n'), ended)
            self.by.done('remove', str(device), 'b')
            for how, kind in ((fcntl.LOCK_SH, 'a device that a reader holds'), (fcntl.LOCK_EX, 'a device that a writer holds')):
                with held_file(device, how):
                    ended = soon(lambda: self.by.run(['install', str(device), 'b.so']), TRIES[1])
                    self.want(kind, self.by.held(ended, device), ended)
                    self.want(kind, TRIES[0] < ended.seconds < TRIES[1], 'a change took', ended.seconds)
                    ended = soon(lambda: self.by.run(['list', str(device)]), AT_ONCE)
                    self.want(kind, self.by.held(ended, device) if how == fcntl.LOCK_EX else ended[:3] == plain, ended)
                    self.want(kind, ended.seconds < AT_ONCE, 'a list took', ended.seconds)

    def under_the_cache(self):
        """Changes the medium while the system still has the bytes from before: an opening reads the medium."""
        kind = 'a device whose medium has changed'
        with loop(zeros(self.image, 64)) as device:
            self.make(device, 64, 'a.so', 'b.so')
            wanted = self.answers(device)
            os.sync()
            content = self.image.read_bytes()
            self.by.done('remove', str(device), 'b')
            os.sync()
            with open(device, 'rb') as file:
                file.read()
                with open(self.image, 'r+b') as image:
                    image.write(content)
                self.want(kind, self.answers(device) == wanted, self.answers(device)[0], 'and not', wanted[0])

    def eight_at_once(self):
        """Changes the medium again and again while the system still has the bytes from before, with eight lists at once."""
        kind = 'eight lists of a device whose medium has changed'
        with loop(zeros(self.image, 64)) as device:
            self.make(device, 64, 'a.so', 'b.so')
            states = []
            for change in (['preload', str(device)], ['remove', str(device), 'b']):
                self.by.done(*change)
                os.sync()
                states.append((self.image.read_bytes(), self.by.done('list', str(device))))
            for turn in range(LISTS):
                content, wanted = states[turn % 2]
                with open(self.image, 'r+b') as image:
                    image.write(content)
                lists = [self.by.begin(['list', str(device)]) for _ in range(8)]
                ends = [self.by.end(it).output for it in lists]
                self.want(kind, all(output == wanted for output in ends), turn, ends, 'and not', wanted)

    def under_a_file(self):
        """Gives the medium older roots of a file than the system has, in pages or larger pieces: an opening reads the
        medium."""
        for name, (options, *make) in FILE_SYSTEMS.items():
            kind = f'a file on {name} whose roots have changed on the medium'
            try:
                system(*make, zeros(self.image, 1 << 20))
                with mounted(self.image, self.place, '-t', name, '-o', options):
                    self.with_older_roots(kind, self.place / 'disk')
            except NotHere as why:
                self.checks.skip(f'{self.by.name}: {kind}', why)

    def with_older_roots(self, kind, disk):
        self.make(disk, 8192, 'a.so', 'b.so', 'large.so')
        for in_pieces, change in (False, ('remove', 'b')), (True, ('install', 'b.so')):
            if in_pieces:
                self.in_pieces(disk)
            wanted, older = self.answers(disk), self.roots(disk)
            self.by.done(change[0], str(disk), change[1])
            os.sync()
            later, newer = self.answers(disk), self.roots(disk)
            place = self.place_of(newer)
            self.write_at(self.image, place, older)
            self.want(kind, self.answers(disk) == wanted != later, self.answers(disk)[0], 'and not', wanted[0])
            self.write_at(self.image, place, newer)
            self.want(kind, self.answers(disk) == later, self.answers(disk)[0], 'and not', later[0])
        self.while_mapped(f'{kind}, and that somebody maps', disk, place, older)

    def while_mapped(self, kind, disk, place, older):
        """Checks that readers are refused, and that a change, even one that has nothing to do, writes the shown roots
        to the medium."""
        newer, shown = self.roots(disk), self.answers(disk)
        with open(disk, 'rb') as file, mmap.mmap(file.fileno(), SECTOR, prot=mmap.PROT_READ) as front:
            assert front[:SECTOR] == newer[:SECTOR]
            self.write_at(self.image, place, older)
            ended = self.by.run(['list', str(disk)])
            self.want(kind, ended[:2] == (3, S1) or self.by.unread(ended, disk), 'list', ended)
            self.want(kind, self.past_memory(disk) == older, 'a list has changed it')
            ended = self.by.run(['upgrade', str(disk)])
            self.want(kind, ended[:2] == (0, b'ok\n') and self.past_memory(disk) == newer, 'upgrade', ended)
            self.want(kind, self.answers(disk) == shown, self.answers(disk)[0], 'and not', shown[0])

    def in_pieces(self, disk):
        """Makes the system keep the file in larger pieces than pages, like data that was written in one call."""
        content = disk.read_bytes()
        os.sync()
        with open(disk, 'rb') as file:
            os.posix_fadvise(file.fileno(), 0, 0, os.POSIX_FADV_DONTNEED)
        self.write_at(disk, 0, content)

    def roots(self, disk):
        return disk.read_bytes()[:2 * SECTOR]

    def past_memory(self, disk):
        """Returns the roots that the medium has, wherever the file system puts them. btrfs would read its cache into
        memory that was never written."""
        with mmap.mmap(-1, PAGE) as page:
            page.write(bytes(PAGE))
            file = os.open(disk, os.O_RDONLY | os.O_DIRECT)
            os.preadv(file, [page], 0)
            os.close(file)
            return page[:2 * SECTOR]

    def place_of(self, content):
        """Returns the only place of some bytes in the image."""
        with open(self.image, 'rb') as image, mmap.mmap(image.fileno(), 0, prot=mmap.PROT_READ) as medium:
            at = medium.find(content)
            assert at >= 0 and medium.find(content, at + 1) < 0, f'the roots stand at {at}, and once more'
            return at

    def write_at(self, path, place, content):
        with open(path, 'r+b', buffering=0) as file:
            file.seek(place)
            assert file.write(content) == len(content)

    def shorter(self):
        """Tries a device that becomes shorter, before a command and within a script."""
        kind = 'a device that became shorter'
        with loop(zeros(self.image, 64)) as device:
            self.make(device, 64, 'a.so', 'b.so')
            plain = self.answers(device)
            self.resized(device, 40)
            before = self.image.read_bytes()
            for words, given in self.reads(str(device)) + self.changes(str(device)) + self.makings(str(device), 64):
                ended = self.by.run(words, given)
                good = ended.status in (1, 3) and ended.output in (S1, b'refused S5 Damaged\n', b'refused S6 BadGeometry\n')
                self.want(kind, good or self.by.unread(ended, device), words, ended)
            self.want(kind, self.image.read_bytes() == before, 'it was written')
            self.resized(device, 64)
            self.want(kind, self.answers(device) == plain, 'with its length again:', self.answers(device))
            if not self.is_library():
                self.within_a_script(kind, device, plain[0], lambda: self.resized(device, 20), lambda: self.resized(device, 64))

    def resized(self, device, sectors):
        os.truncate(self.image, SECTOR * sectors)
        system('losetup', '-c', device)

    def within_a_script(self, kind, device, plain, fail, heal):
        """Tries an `install` after which the device fails: it returns S1 (Device) or S2 (Reopen), and afterwards the
        disk holds the state from before or after."""
        process = self.by.begin(['script', str(device)])
        process.stdin.write(b'list\n')
        process.stdin.flush()
        listing = plain[1]
        self.want(kind, os.read(process.stdout.fileno(), len(listing)) == listing, 'within a script')
        fail()
        ended = self.by.end(process, b'install ' + (self.folder / 'large.so').read_bytes().hex().encode() + b'\nremove b\n')
        heal()
        found = self.by.run(['list', str(device)])
        self.checks.note(f'{self.by.name}: {kind}', ended.output.decode().replace('\n', ' ').strip())
        self.want(kind, ended.output == b'ok\nok\n' or ended.status == 3 and ended.output.startswith((S1, b'ok\n' + S1)), ended)
        done = found.output.count(b'library c '), found.output.count(b'library b ')
        self.want(kind, found.status == 0 and done == (1, 0) if ended.output == b'ok\nok\n' else done in ((0, 1), (1, 1)), ended, 'and then', found)

    def full_medium(self):
        """Tries a device whose medium has no space: the system accepts the write, and the sync fails. A loop device
        reports the error only if it can't write the first of several pages, so the test lets the making of a registry
        fail. The device is open meanwhile, because otherwise the system would drop its cached bytes."""
        kind = 'a device whose writes fail at the sync'
        options = ('-t', 'tmpfs', '-o', 'size=64k')
        with mounted('tmpfs', self.place, *options), loop(zeros(self.place / 'image', 64)) as device, open(device, 'rb'):
            with contextlib.suppress(OSError), open(self.place / 'filler', 'wb', buffering=0) as file:
                while file.write(bytes(4096)):
                    pass
            ended = self.by.run(['format', str(device), '64'])
            self.want(kind, ended[:2] == (3, S1), ended)
            for _ in range(2):
                ended = self.by.run(['list', str(device)])
                self.want(kind, ended[:2] == (1, b'refused S3 NotFormatted\n'), 'after it:', ended)
            (self.place / 'filler').unlink()
            ended = self.by.run(['format', str(device), '64'])
            self.want(kind, ended[:2] == (0, b'ok\n'), 'with room again:', ended)

    def read_only_device(self):
        """Tries a device that turned read-only, before a command and within a script."""
        kind = 'a device that turned read-only'
        with loop(zeros(self.image, 64)) as device:
            self.make(device, 64, 'a.so', 'b.so')
            plain = self.answers(device)
            system('blockdev', '--setro', device)
            self.only_read(kind, device, plain)
            system('blockdev', '--setrw', device)
            self.want(kind, self.answers(device) == plain, 'when it may be written again:', self.answers(device))
            if not self.is_library():
                fail, heal = [lambda how=how: system('blockdev', how, device) for how in ('--setro', '--setrw')]
                self.within_a_script(kind, device, plain[0], fail, heal)

    def synced(self):
        """Checks that a command syncs a device before it reads it, and that a change also syncs before it writes its
        root and after that. A sync that fails returns S1 (Device), and the device holds what it held before the change
        or after it."""
        if not has('strace'):
            raise NotHere('there is no strace')
        with loop(zeros(self.image, 64)) as device:
            self.make(device, 64, 'a.so', 'b.so')
            before, plain = device.read_bytes(), self.answers(device)
            for words, given in self.reads(str(device))[:2] + self.changes(str(device)):
                calls = self.calls_of(device, words, given)
                kind = f'the syncs of a device by {words[0]}'
                self.want(kind, are_in_order(calls, (words, given) in self.changes(str(device))), words, calls)
                after = self.answers(device)
                for number in range(1, calls.count('sync') + 1):
                    self.write_at(device, 0, before)
                    fault = ['strace', '-qq', '-o', '/dev/null', '-e', f'inject=fsync:error=EIO:when={number}']
                    ended = self.by.run(words, given, wrapped=fault)
                    self.want(kind, ended[:2] == (3, S1) or self.by.unread(ended, device), words, 'by sync', number, ended)
                    self.want(kind, self.answers(device) in (plain, after), words, 'by sync', number, self.answers(device))
                self.write_at(device, 0, before)

    def calls_of(self, device, words, given):
        """Returns the syncs, reads and writes of the device, in their order. `root` is the write of one root."""
        log = self.folder / 'calls'
        ended = self.by.run(words, given, wrapped=['strace', '-qq', '-y', '-o', str(log), '-e', 'trace=fsync,fdatasync,pread64,pwrite64'])
        assert ended.status == 0, (words, ended)
        calls = re.findall(rf'^(\w+)\(\d+<{device}>(?:\)|.*, (\d+), (\d+)\)) += \d+$', log.read_text(), re.M)
        names = {'fsync': 'sync', 'fdatasync': 'sync', 'pread64': 'read', 'pwrite64': 'write'}
        return ['root' if (name, size) == ('pwrite64', str(SECTOR)) and int(at) <= SECTOR else names[name] for name, size, at in calls]

    def run(self):
        for part in (self.read_only_media, self.another_user, self.devices, self.odd_sizes, self.partitions, self.unseen, self.in_use, self.two_nodes,
                     self.locks, self.under_the_cache, self.eight_at_once, self.under_a_file, self.full_medium, self.synced, self.shorter,
                     self.read_only_device):
            try:
                part()
            except NotHere as why:
                self.checks.skip(f'{self.by.name}: {part.__name__.replace("_", " ")}', why)
            except AssertionError as fault:
                self.want(part.__name__.replace('_', ' '), False, str(fault))


def main():
    words = argparse.ArgumentParser()
    words.add_argument('program', type=Path)
    words.add_argument('folder', type=Path)
    words.add_argument('--run', type=Path)
    words.add_argument('--clib', type=Path)
    given = words.parse_args()
    if os.getuid():
        sys.exit(print('skipped: all of it: wants root'))
    folder, checks = emptied(given.folder).resolve(), Checks()
    folder.chmod(0o755)
    runner = str(given.run.resolve()) if given.run else None
    Media(Program(given.program, folder), runner, folder, checks).run()
    if given.clib:
        Media(CLibrary(given.clib, folder), None, folder, checks).run()
    status = checks.end('media')
    shutil.rmtree(folder)
    sys.exit(status)


if __name__ == '__main__':
    main()

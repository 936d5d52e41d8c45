#!/usr/bin/env python3
"""Puts another file in the place of a disk, as a process without the lock could, while the program `rlibreg`, or `update`,
`replace` or `remove` of `rlibreg-tool`, changes the disk. A change that nobody would see must never be answered with `ok`.
Some parts need strace, root or loop devices, and say so if they are left out.

    python3 bench/gate/replaced.py PROGRAM FOLDER [--tool RLIBREG_TOOL]

In a `script`, and in an `update`, the disk is replaced, moved or removed between two lines: the next change answers S1
(Device), and the one after it S2 (Reopen). Each changing command is stopped after each of its syncs, and the disk is
replaced, moved or removed: the answer is S1, or that the disk can't be read, and the file that was put there keeps its
bytes. The old file holds the registry from before the change or from after it. A change is `ok` if the path names the
same file again, if the path is that of an open file (/dev/fd/N), or if `format` makes the disk; `list` and `bind` don't
notice the replacement. DISK is given as a path from the folder or from the root, as a link, and as the node of a
device, in whose place another node of the same device may be put.
"""

import argparse
import contextlib
import os
import shutil
import signal
import stat
import subprocess
import sys
import time
from pathlib import Path

sys.path[1:1] = map(str, Path(__file__).resolve().parents[1].glob('*/'))  # the folders of bench
from checks import Checks, Program, emptied, has
from libraries import Made
from old_disks import old_disk
from registries import state_of

SECTORS = '64'
S1, S2 = b'refused S1 Device\n', b'refused S2 Reopen\n'
SECONDS = 20


class Tool(Program):
    name = 'rlibreg-tool'

    def unread(self, ended, disk):
        return ended[:3] == (3, b'', f'rlibreg-tool: cannot read {disk}\n'.encode())


def is_refused(by, ended, disk):
    """Returns whether a change was refused: S1 (Device) as the last reply; from the tool, if the disk isn't open yet,
    on standard error; or the disk can't be read."""
    replied = ended.status == 3 and ended.output.replace(b'planned\n', b'') == S1 and not ended.errors
    return replied or ended[:3] == (3, b'', b'rlibreg-tool: ' + S1) or by.unread(ended, disk)


# The ways to replace, move or remove the disk.

def rename_over(folder):
    os.rename(folder / 'other', folder / 'disk')


def remove(folder):
    os.unlink(folder / 'disk')


def move_away(folder):
    os.rename(folder / 'disk', folder / 'moved')


def move_and_back(folder):
    os.rename(folder / 'disk', folder / 'moved')
    os.rename(folder / 'moved', folder / 'disk')


def link_again(folder):
    """Gives the same file the same name again, by another entry of the folder."""
    os.link(folder / 'disk', folder / 'again')
    os.unlink(folder / 'disk')
    os.rename(folder / 'again', folder / 'disk')


def lead_elsewhere(folder):
    """Makes a link that led to the disk lead to another one."""
    os.symlink('other', folder / 'next')
    os.rename(folder / 'next', folder / 'link')


def lead_there(folder):
    """Makes the link lead to the disk by another path."""
    os.symlink(folder / 'disk', folder / 'next')
    os.rename(folder / 'next', folder / 'link')


GONE = (rename_over, remove, move_away)
STAYS = (move_and_back, link_again)


class Replaced:
    def __init__(self, program, tool, folder, checks):
        self.program, self.tool, self.checks = Program(program, folder), tool and Tool(tool, folder), checks
        self.files = folder
        self.folder = self.program.folder = folder / 'place'
        if self.tool:
            self.tool.folder = self.folder
        for name, made in {'a.so': Made(b'a', exports=[b'fa'], data=600), 'b.so': Made(b'b', exports=[b'fb'], data=900),
                           'b2.so': Made(b'b', exports=[b'other', b'fb'], data=2500), 'alone': Made()}.items():
            (folder / name).write_bytes(made.file)
        self.clear()
        for words in (['format', 'disk', SECTORS], ['install', 'disk', '../b.so']):
            self.program.done(*words)
        self.one = self.disk.read_bytes()
        self.old = old_disk(int(SECTORS), [(b'b', (folder / 'b.so').read_bytes())])

    @property
    def disk(self):
        return self.folder / 'disk'

    @property
    def log(self):
        return self.files / 'log'

    def want(self, by, kind, holds, *found):
        return self.checks.want(f'{by.name}: {kind}', holds, *found)

    def clear(self):
        emptied(self.folder)

    def put(self, content):
        """Makes the disk, a second name of it, another disk beside it, and a link to the first."""
        self.clear()
        self.disk.write_bytes(content)
        os.link(self.disk, self.folder / 'old')
        (self.folder / 'other').write_bytes(self.one)
        os.symlink('disk', self.folder / 'link')

    # Between two lines.

    def lines(self, by, words, first, replies, rest, do):
        """Returns the answers to the lines `rest`, if `do` is called after the answers to the lines `first`."""
        self.put(self.one)
        with subprocess.Popen([by.path, *words], cwd=self.folder, stdin=subprocess.PIPE, stdout=subprocess.PIPE) as process:
            process.stdin.write(first)
            process.stdin.flush()
            found = b''.join(process.stdout.readline() for _ in range(replies.count(b'\n')))
            self.want(by, 'the lines before', found == replies, words, found)
            do(self.folder)
            output, _ = process.communicate(rest, timeout=SECONDS)
            return process.returncode, output

    def between_lines(self):
        install = b'install %s\n' % (self.files / 'a.so').read_bytes().hex().encode()
        looks = b'library b %d\nend\n' % len((self.files / 'b.so').read_bytes())
        scripts = [('a script', install, b'ok\n'), ('a script before its first change', b'list\n', looks)]
        for do in GONE:
            for kind, first, replies in scripts:
                ended = self.lines(self.program, ['script', 'disk'], first, replies, b'remove b\nremove b\nlist\n', do)
                self.want(self.program, f'{kind}, {do.__name__}', ended == (3, S1 + S2 + S2), ended)
            other = self.disk if do is rename_over else self.folder / 'other'
            self.want(self.program, f'the other file, {do.__name__}', other.read_bytes() == self.one)
            if self.tool:
                ended = self.lines(self.tool, ['update', 'disk'], install, b'planned\n', b'commit\n', do)
                self.want(self.tool, f'an update, {do.__name__}', ended == (3, S1), ended)
        for do in STAYS:
            for kind, first, replies in scripts:
                ended = self.lines(self.program, ['script', 'disk'], first, replies, b'remove b\n', do)
                self.want(self.program, f'{kind}, {do.__name__}', ended == (0, b'ok\n'), ended)
            if self.tool:
                ended = self.lines(self.tool, ['update', 'disk'], install, b'planned\n', b'commit\n', do)
                self.want(self.tool, f'an update, {do.__name__}', ended == (0, b'ok\n'), ended)

    # After each sync.

    def traced(self, by, words, given=b'', more=(), number=None):
        """Starts a command and logs its syncs. With `number`, the command stops after its sync of
        this number."""
        self.log.unlink(missing_ok=True)
        stops = ['-e', f'inject=fsync:signal=STOP:when={number}'] if number else []
        wrapped = ['strace', '-D', '-qq', '-o', str(self.log), '-e', 'trace=fsync', *stops]
        streams = {name: subprocess.PIPE for name in ('stdin', 'stdout', 'stderr')}
        process = subprocess.Popen([*wrapped, by.path, *words], cwd=self.folder, pass_fds=more, **streams)
        process.begun = time.perf_counter()
        process.stdin.write(given)
        process.stdin.close()
        process.stdin = None
        return process

    def syncs_of(self, by, words, given=b''):
        """Returns the number of syncs of a command that nobody disturbs, and how the command ended."""
        ended = by.end(self.traced(by, words, given))
        return self.log.read_text().count('fsync('), ended

    def stopped(self, by, words, number, do, given=b'', more=()):
        """Returns the end of a command if `do` is called after the command's sync number `number`."""
        process = self.traced(by, words, given, more, number)
        end = time.monotonic() + SECONDS
        while process.poll() is None and time.monotonic() < end:
            if self.log.exists() and 'stopped by SIGSTOP' in self.log.read_text():
                do(self.folder)
                process.send_signal(signal.SIGCONT)
                return by.end(process)
            time.sleep(0.002)
        ended = by.end(process)
        self.want(by, 'it stops behind a sync', False, words, number, ended)
        return ended

    def each_sync(self, by, words, content, given, ways):
        """Replaces the disk after each sync of a command: the command's change is refused."""
        self.put(content)
        syncs, ended = self.syncs_of(by, words, given)
        whole = ended.status == 0 and ended.output.endswith(b'ok\n') and syncs >= 2
        self.want(by, 'a disk that nobody replaces', whole, words, syncs, ended)
        states = state_of(content), state_of(self.disk.read_bytes())
        for do in ways:
            kind = f'{words[0]}, {do.__name__}'
            for number in range(1, syncs + 1):
                self.put(content)
                ended = self.stopped(by, words, number, do, given)
                self.want(by, kind, is_refused(by, ended, words[1]), 'behind sync', number, ended)
                self.want(by, kind, state_of((self.folder / 'old').read_bytes()) in states, 'behind sync', number, 'torn')
                other = self.disk if do is rename_over else self.folder / 'other'
                self.want(by, kind, other.read_bytes() == self.one, 'behind sync', number, 'the other file has changed')

    def each_command(self):
        hex_of_b = (self.files / 'b2.so').read_bytes().hex().encode()
        update = b'replace %s\npreload b\ncommit\n' % hex_of_b
        only, all_ways = GONE[:1], GONE
        for by, words, content, given, ways in (
                (self.program, ['install', 'disk', '../a.so'], self.one, b'', only),
                (self.program, ['replace', 'disk', '../b2.so'], self.one, b'', only),
                (self.program, ['remove', 'disk', 'b'], self.one, b'', all_ways),
                (self.program, ['preload', 'disk', 'b'], self.one, b'', only),
                (self.program, ['upgrade', 'disk'], self.old, b'', only),
                (self.program, ['format', 'disk', SECTORS], bytes(len(self.one)), b'', only),
                (self.program, ['script', 'disk'], self.one, b'remove b\n', only),
                (self.tool, ['replace', 'disk', '../b2.so'], self.one, b'', only),
                (self.tool, ['remove', 'disk', 'b'], self.one, b'', only),
                (self.tool, ['update', 'disk'], self.one, update, only)):
            if by:
                self.each_sync(by, words, content, given, ways)

    def other_paths(self):
        """Tries other paths by which the disk is changed."""
        words = ['remove', 'disk', 'b']
        for path, do, is_ok in (('link', rename_over, False), ('link', lead_elsewhere, False), ('link', lead_there, True),
                                ('./../place/disk', rename_over, False), (str(self.disk), remove, False),
                                ('disk', link_again, True), ('disk', move_and_back, True)):
            for number in (1, 2):
                self.put(self.one)
                ended = self.stopped(self.program, [words[0], path, words[2]], number, do)
                good = ended[:2] == (0, b'ok\n') if is_ok else is_refused(self.program, ended, path)
                self.want(self.program, f'a disk at {path}, {do.__name__}', good, ended)

    def open_files(self):
        """Checks that the path of an open file's descriptor names the file, even if the file's own path changes."""
        for form in ('/dev/fd/{}', '/proc/self/fd/{}'):
            self.put(self.one)
            fd = os.open(self.disk, os.O_RDWR)
            try:
                ended = self.stopped(self.program, ['remove', form.format(fd), 'b'], 2, rename_over, more=(fd,))
                self.want(self.program, 'a disk that is an open file', ended[:2] == (0, b'ok\n'), ended)
            finally:
                os.close(fd)

    def others_take_no_notice(self):
        """Checks that commands that only read have the same answers as without the replacement, and that a missing
        disk is made."""
        for words in (['list', 'disk'], ['bind', 'disk', '../alone', '0x100000']):
            self.put(self.one)
            plain = self.program.run(words)
            for do in GONE[:2]:
                self.put(self.one)
                ended = self.stopped(self.program, words, 1, do)
                self.want(self.program, f'{words[0]}, {do.__name__}', plain.status == 0 and ended[:3] == plain[:3], ended)
        self.clear()
        syncs, ended = self.syncs_of(self.program, ['format', 'disk', SECTORS])
        self.want(self.program, 'a disk that is made', syncs > 2 and ended[:3] == (0, b'ok\n', b''), syncs, ended)

    # Mounts and devices.

    def mounts(self):
        """Mounts another file over the disk."""
        def mount_over(folder):
            subprocess.run(['mount', '--bind', 'other', 'disk'], cwd=folder, check=True)
        self.put(self.one)
        try:
            mount_over(self.folder)
        except (OSError, subprocess.CalledProcessError) as why:
            return self.checks.skip('another file that is mounted over the disk', why)
        subprocess.run(['umount', str(self.disk)], check=True)
        for number in (1, 2):
            self.put(self.one)
            try:
                ended = self.stopped(self.program, ['remove', 'disk', 'b'], number, mount_over)
            finally:
                subprocess.run(['umount', str(self.disk)], check=True)
            self.want(self.program, 'another file that is mounted over the disk', ended[:2] == (3, S1) or self.program.unread(ended, 'disk'), ended)
        self.clear()

    def devices(self):
        """Replaces a device's node by another node."""
        with contextlib.ExitStack() as stack:
            try:
                devices = [stack.enter_context(loop(self.files / f'image-{i}', self.one)) for i in range(2)]
                numbers = [os.stat(path).st_rdev for path in devices]
                os.mknod(self.folder / 'node', stat.S_IFBLK | 0o600, numbers[0])
                os.close(os.open(self.folder / 'node', os.O_RDONLY))
            except (OSError, subprocess.CalledProcessError) as why:
                return self.checks.skip('nodes of devices', why)
            for which, is_ok in ((0, True), (1, False)):
                def put_node(folder):
                    os.mknod(folder / 'next', stat.S_IFBLK | 0o600, numbers[which])
                    os.rename(folder / 'next', folder / 'disk')
                for number in (1, 2):
                    self.clear()
                    Path(devices[0]).write_bytes(self.one)
                    os.mknod(self.disk, stat.S_IFBLK | 0o600, numbers[0])
                    ended = self.stopped(self.program, ['remove', 'disk', 'b'], number, put_node)
                    good = ended[:2] == (0, b'ok\n') if is_ok else is_refused(self.program, ended, 'disk')
                    self.want(self.program, f'a node of {"the same" if is_ok else "another"} device', good, ended)
            self.clear()

    def run(self):
        self.between_lines()
        if not has('strace'):
            return self.checks.skip('a disk that is replaced behind a sync', 'there is no strace')
        self.each_command()
        self.other_paths()
        self.open_files()
        self.others_take_no_notice()
        self.mounts()
        self.devices()


@contextlib.contextmanager
def loop(image, content):
    """Makes a loop device over a file."""
    image.write_bytes(content)
    ended = subprocess.run(['losetup', '-f', '--show', str(image)], check=True, capture_output=True,
                           env={**os.environ, 'PATH': os.environ.get('PATH', '') + ':/usr/sbin:/sbin'})
    path = ended.stdout.decode().strip()
    try:
        yield path
    finally:
        subprocess.run(['losetup', '-d', path], check=True, env={**os.environ, 'PATH': os.environ.get('PATH', '') + ':/usr/sbin:/sbin'})


def main():
    words = argparse.ArgumentParser()
    words.add_argument('program', type=Path)
    words.add_argument('folder', type=Path)
    words.add_argument('--tool', type=Path)
    given = words.parse_args()
    checks = Checks()
    folder = emptied(given.folder.resolve())
    Replaced(given.program, given.tool, folder, checks).run()
    status = checks.end('replaced')
    shutil.rmtree(folder)
    sys.exit(status)


if __name__ == '__main__':
    main()

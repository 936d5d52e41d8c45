#!/usr/bin/env python3
"""Has the program `rlibreg` make a disk that doesn't exist, kills it on entry to each of its system calls, and makes each of
them fail in turn. Needs strace; some parts need root, and say so if they are left out.

    python3 bench/gate/making.py PROGRAM FOLDER [--clib TOOL]

Afterwards DISK is absent or a whole empty registry, and `format`, run again, makes it or answers S4 (AlreadyFormatted). A
fault before DISK has its name leaves no file. A fault at the sync of the folder, or when the folder is asked whether it
accepts changes, leaves the whole registry with S1 (Device).

Then the script tries all kinds of files under the name in which a disk is made (`.NAME.rlibreg-new`), and a kill that
leaves a finished registry under that name; long names; folders that may not be written or are full; file systems
without hard links; and a DISK that is no file. TOOL is the program of c/tests/library/tool.c, which has to do the same.
"""

import argparse
import collections
import fcntl
import os
import re
import shutil
import socket
import stat
import subprocess
import sys
from pathlib import Path

sys.path[1:1] = map(str, Path(__file__).resolve().parents[1].glob('*/'))  # the folders of bench
from checks import NOBODY, Checks, CLibrary, Program, emptied, for_others, has, held_file, looks, soon
from libraries import Made

SECTORS = '64'
FORMAT = ['format', 'disk', SECTORS]
AT_ONCE, WAIT = 1.0, 5
OTHER = '.disk.rlibreg-new'
S1, S4 = b'refused S1 Device\n', b'refused S4 AlreadyFormatted\n'
FAULTS = ('EIO', 'ENOSPC', 'EDQUOT', 'EINTR')
FULL = {'a full file system': 'size=8k', 'a file system without a free number': 'size=1m,nr_inodes=2', 'a read-only file system': 'size=1m'}
NO_LINKS = ('EPERM', 'EOPNOTSUPP', 'ENOSYS', 'EMLINK')
LINKS = ('link', 'linkat')
# Calls about memory and about the process itself. Their failure says nothing about files.
NO_FILES = set('brk mmap munmap mprotect madvise mremap arch_prctl set_tid_address set_robust_list rseq prlimit64 rt_sigaction '
               'rt_sigprocmask sigaltstack getrandom futex getpid gettid uname personality sched_getaffinity clock_gettime'.split())
# If a call fails before the program's own code runs, the loader of the C library reports it.
LOADER = 127

Call = collections.namedtuple('Call', 'name number text')


def injected(faults):
    return [it for fault in faults for it in ('-e', f'inject={fault}')]


def without_links(error):
    return [f'{name}:error={error}' for name in LINKS]


class Making:
    def __init__(self, by, folder, checks):
        self.by, self.folder, self.checks = by, folder, checks
        self.place = self.by.folder = emptied(folder / 'place')
        self.disk, self.other = self.place / 'disk', self.place / OTHER
        self.by.done(*FORMAT)
        self.whole = self.disk.read_bytes()
        (folder / 'library').write_bytes(Made(b'a', exports=[b'fa'], data=600).file)

    def want(self, kind, holds, *found):
        self.checks.want(f'{self.by.name}: {kind}', holds, *found)

    def clear(self):
        emptied(self.place)

    def names(self):
        return sorted(path.name for path in self.place.iterdir())

    def found(self):
        """Returns the disk's bytes, or None."""
        return self.disk.read_bytes() if self.disk.exists() else None

    def listed(self, name='disk'):
        return self.by.run(['list', name])

    def is_unread(self, ended):
        return self.by.unread(ended, 'disk')

    # Faults.

    def calls(self, faults=()):
        """Returns the system calls of a making, in their order."""
        self.clear()
        log = self.folder / 'calls'
        self.by.run(FORMAT, wrapped=['strace', '-qq', '-y', '-o', str(log), *injected(faults)])
        count, calls = collections.Counter(), []
        for line in log.read_text(errors='replace').splitlines():
            name = line.split('(')[0]
            if '(' in line and name not in ('execve', 'exit_group'):
                count[name] += 1
                calls.append(Call(name, count[name], line))
        return calls

    def with_fault(self, call, fault, more=()):
        self.clear()
        faults = [it for it in more if it.split(':')[0] != call.name] + [f'{call.name}:{fault}:when={call.number}']
        ended = self.by.run(FORMAT, wrapped=['strace', '-qq', '-o', '/dev/null', *injected(faults)])
        self.judge(call, fault, ended)
        return ended

    def judge(self, call, fault, ended):
        """Judges the files that a fault or a kill leaves, and the next answer."""
        kind = 'killed' if fault == 'signal=KILL' else f'faults, {fault}'
        told, found = (call.text[:100], ended), self.found()
        self.want(kind, found in (None, self.whole), 'left half:', *told)
        self.want(kind, ended.output != b'ok\n' or found == self.whole, 'ok, and not there:', *told)
        self.want(kind, set(self.names()) <= {'disk', OTHER}, self.names(), *told)
        if kind != 'killed':
            unlink_failed = call.name in ('unlink', 'unlinkat')
            self.want(kind, not self.other.exists() or found is not None and unlink_failed, 'the other name is left:', *told)
            self.want(kind, self.is_fault_answer(ended, found), 'the answer:', *told)
        self.checks.note(f'{self.by.name}: {kind}', 'made' if found else 'absent')
        self.again(kind, told)

    def is_fault_answer(self, ended, found):
        """Returns whether an answer fits a fault: `ok`; status 3 with S1 (Device) or a message; or, once the making is
        over, status 3 without a message, as when standard output fails."""
        if ended.output == b'ok\n' or ended.status == LOADER:
            return True
        if isinstance(self.by, CLibrary):
            return ended.status in (0, 3, 9) if found else ended.status in (3, 9)
        return ended.status == 3 and ended.output in ((S1, b'') if found else (S1, b'')) and (not found or not ended.errors)

    def again(self, kind, told):
        """Runs `format` again, at most twice: it has to succeed, or report that the disk exists."""
        for _ in range(2):
            ended = self.by.run(FORMAT)
            if ended.status == 0 or ended.output == S4:
                break
        self.want(kind, ended[:2] in ((0, b'ok\n'), (1, S4)), 'asked again:', ended, *told)
        listed = self.listed()
        self.want(kind, listed[:3] == (0, b'end\n', b'') and self.found() == self.whole, 'listed:', listed, *told)
        left = self.names() == ['disk'] or self.other.exists() and os.path.samefile(self.other, self.disk)
        self.want(kind, left, 'left beside it:', self.names(), *told)

    def study(self, more=()):
        """Kills the program at each call of a making, and makes each call fail."""
        calls = self.calls(more)
        self.want('a making', self.found() == self.whole and self.names() == ['disk'], self.names())
        if more:
            calls = calls[[call.name in LINKS for call in calls].index(True):] if any(call.name in LINKS for call in calls) else []
        for call in calls:
            self.with_fault(call, 'signal=KILL', more)
            for fault in FAULTS if call.name not in NO_FILES else ():
                ended = self.with_fault(call, f'error={fault}', more)
                told = fault != 'EINTR' if self.is_sync_of_folder(call) else fault == 'EIO' and call.name == 'fremovexattr'
                if told:
                    self.want('the sync of the folder fails', ended[:2] == (3, S1) and self.found() == self.whole, call.text, ended)
        return calls

    def is_sync_of_folder(self, call):
        synced = re.match(r'f(?:data)?sync\(\d+<(.*)>\)', call.text)
        return bool(synced) and synced[1] == str(self.place)

    def order(self, calls, kind):
        """Checks that the file is synced before it has its name, and the folder after that."""
        def last(is_it, before=len(calls)):
            return max((at for at, call in enumerate(calls[:before]) if is_it(call)), default=-1)
        named = last(lambda it: it.name in LINKS or it.name.startswith('rename'))
        wrote = last(lambda it: 'write' in it.name and OTHER in it.text or it.name == 'ftruncate')
        synced = last(lambda it: it.name in ('fsync', 'fdatasync') and OTHER in it.text, named if named >= 0 else 0)
        taken = last(lambda it: it.name.startswith('unlink'))
        folder = last(self.is_sync_of_folder)
        asked = last(lambda it: it.name == 'fremovexattr')
        told = f'written {wrote}, synced {synced}, named {named}, other name taken away {taken}, folder synced {folder}, asked {asked}'
        self.want(kind, 0 <= wrote < synced < named < folder < asked and taken < folder, told)

    # Things under the other name.

    def leftovers(self):
        """Checks that the leftovers of a dead process are removed."""
        for what, content in (('empty', b''), ('short', b'RLIBREG2'), ('zeros', bytes(len(self.whole))), ('long', bytes(2 * len(self.whole)))):
            self.clear()
            self.other.write_bytes(content)
            self.made_over(f'{what} file as leftover')
        self.clear()
        self.by.done('format', 'elsewhere', SECTORS)
        self.by.done('install', 'elsewhere', str(self.folder / 'library'))
        os.link(self.place / 'elsewhere', self.other)
        before = looks(self.place / 'elsewhere')
        self.made_over('a second name of a finished registry', ['disk', 'elsewhere'])
        self.want('a second name of a finished registry', looks(self.place / 'elsewhere') == before, 'has changed')

    def made_over(self, kind, names=('disk',)):
        ended = self.by.run(FORMAT)
        self.want(kind, ended[:3] == (0, b'ok\n', b''), ended)
        self.want(kind, self.found() == self.whole and self.names() == list(names), self.names())

    def odd_leftovers(self):
        """Checks that a leftover that isn't a regular file stays as it is, and so does a file to which it leads."""
        links = [('a link to a file', lambda path: make_link(path, self.folder / 'linked'))]
        for kind, make in [*odd_things(self.folder), *links]:
            self.clear()
            end = make(self.other)
            self.refused(f'leftover: {kind}')
            self.want(f'leftover: {kind}', not end or looks(end[0]) == end[1], 'what it leads to has changed')

    def refused(self, kind, wrapped=()):
        before = {name: looks(self.place / name) for name in self.names()}
        ended = soon(lambda: self.by.run(FORMAT, wrapped=wrapped, wait=WAIT), AT_ONCE)
        after = {name: looks(self.place / name) for name in self.names()}
        self.want(kind, self.is_unread(ended), ended)
        self.want(kind, ended.seconds < AT_ONCE, 'took', ended.seconds)
        self.want(kind, before == after, 'changed:', before.keys(), after.keys())

    def locked_leftover(self):
        for how in (fcntl.LOCK_SH, fcntl.LOCK_EX):
            self.clear()
            self.other.write_bytes(bytes(len(self.whole)))
            with held_file(self.other, how):
                self.refused('a leftover that is locked')
            self.made_over('a leftover whose lock has gone')

    def killed_between(self, calls):
        """Kills the program before the other name is removed. The registry is moved, and made again: the first one
        stays whole."""
        kind = 'killed between link and unlink, then moved'
        links = [at for at, call in enumerate(calls) if call.name in LINKS]
        unlinks = [call for call in calls[links[0]:] if call.name.startswith('unlink')] if links else []
        self.want(kind, len(unlinks) == 1, 'no link and unlink among the calls')
        for there in ('moved', '../moved') if unlinks else ():
            self.clear()
            self.by.run(FORMAT, wrapped=['strace', '-qq', '-o', '/dev/null', '-e', f'inject={unlinks[0].name}:signal=KILL:when={unlinks[0].number}'])
            self.want(kind, self.names() == [OTHER, 'disk'] and os.path.samefile(self.disk, self.other), self.names())
            moved = self.place / there
            os.replace(self.disk, moved)
            self.by.done('install', there, str(self.folder / 'library'))
            before = looks(moved)
            ended = self.by.run(FORMAT)
            self.want(kind, ended[:2] == (0, b'ok\n') and self.found() == self.whole, ended)
            self.want(kind, looks(moved) == before and os.stat(moved).st_nlink == 1, 'the moved registry has changed')
            self.by.done('install', 'disk', str(self.folder / 'library'))
            self.want(kind, looks(moved) == before, 'the moved registry has changed')
            self.want(kind, not self.other.exists(), 'the other name is left')
            moved.unlink()

    # Names, folders and file systems.

    def long_names(self):
        """Tries the other name, for names up to the longest."""
        for length in (1, 241, 242, 243, 254, 255):
            kind, long = 'long names', 'n' * length
            expected = f'.{long}.rlibreg-new' if length <= 242 else '.rlibreg-new'
            self.clear()
            words = ['format', long, SECTORS]
            self.by.run(words, wrapped=['strace', '-qq', '-o', '/dev/null', *injected(f'{name}:signal=KILL' for name in LINKS)])
            self.want(kind, self.names() == [expected], length, self.names())
            ended = self.by.run(words)
            self.want(kind, ended[:2] == (0, b'ok\n') and self.names() == [long], length, ended, self.names())
            self.want(kind, self.listed(long)[:2] == (0, b'end\n'), length)
        self.clear()
        ended = self.by.run(['format', 'n' * 256, SECTORS])
        self.want(kind, self.by.unread(ended, 'n' * 256) and not self.names(), ended)

    def paths(self):
        """Tries a DISK in other folders, and paths that lead to no folder."""
        good = {'./disk': 'disk', 'sub/disk': 'sub/disk', 'sub/../disk': 'disk', str(self.disk): 'disk', 'link/disk': 'sub/disk'}
        for path, there in good.items():
            self.clear()
            (self.place / 'sub').mkdir()
            (self.place / 'link').symlink_to('sub')
            ended = self.by.run(['format', path, SECTORS])
            made = ended[:2] == (0, b'ok\n') and (self.place / there).is_file() and self.listed(path)[:2] == (0, b'end\n')
            self.want('paths', made and not list(self.place.rglob('*.rlibreg-new')), path, ended)
        for path in ('none/disk', 'disk/', 'disk/.', 'file/disk', '.', '..', '/', 'sub'):
            self.clear()
            (self.place / 'file').write_bytes(b'')
            (self.place / 'sub').mkdir()
            ended = self.by.run(['format', path, SECTORS])
            self.want('paths', self.by.unread(ended, path) and self.names() == ['file', 'sub'], path, ended, self.names())

    def no_links(self):
        """Checks that the name is given by a rename if links aren't supported."""
        for error in NO_LINKS:
            kind = f'no hard links: {error}'
            self.clear()
            ended = self.by.run(FORMAT, wrapped=['strace', '-qq', '-o', '/dev/null', *injected(without_links(error))])
            self.want(kind, ended[:2] == (0, b'ok\n') and self.found() == self.whole and self.names() == ['disk'], ended, self.names())
            calls = self.calls(without_links(error))
            self.want(kind, any(call.name.startswith('rename') for call in calls), 'no rename among the calls')
        self.order(calls, 'the order of calls, without links')
        self.clear()
        ended = self.by.run(FORMAT, wrapped=['strace', '-qq', '-o', '/dev/null', *injected(without_links('EEXIST'))])
        self.want('something stands there at the link', ended.status in (3, 9) and not self.names(), ended, self.names())
        self.study(without_links('EPERM'))

    def limits(self):
        """Tries a limit of the file's length: the signal at the limit kills the program."""
        if not has('prlimit'):
            return self.checks.skip('a limit of file sizes', 'there is no prlimit')
        self.clear()
        ended = self.by.run(FORMAT, wrapped=['prlimit', '--fsize=4096', '--core=0'])
        self.want('a limit of file sizes', ended.status != 0 and self.found() is None, ended)
        self.made_over('after a limit of file sizes')

    def other_users(self):
        """Tries folders and leftovers that another user may not write."""
        if os.getuid():
            return self.checks.skip('another user', 'wants root')
        path, self.by.path = self.by.path, for_others(self.by.path, self.folder)
        if not self.by.path:
            self.by.path = path
            return self.checks.skip('another user', 'may not get to FOLDER')
        for mode, kind, leftover in ((0o755, 'a folder that may not be written', None), (0o777, 'a leftover that may not be read', 0o600),
                                     (0o1777, "another's leftover in a sticky folder", 0o644)):
            self.clear()
            if leftover:
                self.other.write_bytes(bytes(len(self.whole)))
                self.other.chmod(leftover)
            self.place.chmod(mode)
            self.refused(kind, NOBODY)
        for mode, kind in ((0o1777, 'a sticky folder'), (0o733, 'a folder that may not be read')):
            self.clear()
            self.place.chmod(mode)
            ended = self.by.run(FORMAT, wrapped=NOBODY)
            good = ended[:2] == (0, b'ok\n') or mode == 0o733 and ended.status in (3, 9)
            self.want(kind, good and self.found() in ((None, self.whole) if mode == 0o733 else (self.whole,)), ended)
            self.want(kind, not self.other.exists(), 'the other name is left')
        self.by.path = path
        self.clear()

    def full(self):
        """Tries file systems that are full, or that may not be written."""
        for kind, options in FULL.items():
            self.clear()
            if not self.mount('-t', 'tmpfs', '-o', options, 'tmpfs'):
                return self.checks.skip(kind, 'nothing can be mounted')
            try:
                self.fill()
                if kind.startswith('a read-only'):
                    subprocess.run(['mount', '-o', 'remount,ro', str(self.place)], check=True, capture_output=True)
                ended = self.by.run(FORMAT)
                self.want(kind, ended.status in (3, 9) and self.names() == ['filler'], ended, self.names())
            finally:
                subprocess.run(['umount', '-l', str(self.place)], check=True)

    def mount(self, *words):
        """Mounts a file system at the place of the disk, if the user may do so."""
        return not os.getuid() and not subprocess.run(['mount', *words, str(self.place)], capture_output=True).returncode

    def fill(self):
        """Makes a file that takes the free space, up to 64 KiB."""
        with open(self.place / 'filler', 'wb', buffering=0) as file:
            try:
                for _ in range(16):
                    file.write(bytes(4096))
            except OSError:
                pass

    def vfat(self):
        """Tries a file system without hard links."""
        self.clear()
        image = self.folder / 'image'
        with open(image, 'wb') as file:
            file.truncate(2**21)
        made = has('mkfs.vfat') and not subprocess.run(['mkfs.vfat', str(image)], capture_output=True).returncode
        if not made or not self.mount('-t', 'vfat', '-o', 'loop', str(image)):
            return self.checks.skip('vfat', 'no such file system can be mounted')
        clear, self.clear = self.clear, self.clear_mounted
        try:
            self.clear()
            calls = self.calls()
            self.order([call for call in calls if call.name not in LINKS], 'the order of calls, on vfat')
            for call in calls:
                for fault in ('signal=KILL', 'error=EIO'):
                    if fault == 'signal=KILL' or call.name not in NO_FILES:
                        self.with_fault(call, fault)
            self.clear()
            self.other.write_bytes(b'')
            self.made_over('a leftover on vfat')
        finally:
            self.clear = clear
            subprocess.run(['umount', '-l', str(self.place)], check=True)

    def clear_mounted(self):
        for path in self.place.iterdir():
            path.unlink()

    # A DISK that is no file.

    def odd_disks(self):
        """Checks that the program answers at once for a DISK that is no file, never opens the DISK, and makes nothing."""
        (self.folder / 'program').write_bytes(Made().file)
        for kind, make in [*odd_things(self.folder), *linked_things(self.folder), ('a folder', lambda path: path.mkdir())]:
            for words in self.commands():
                self.clear()
                make(self.disk)
                self.refused_disk(f'DISK is {kind}', words)
        for path in ('/dev/null', '/dev/zero', '/dev/full', '/dev/tty'):
            for words in self.commands():
                words[1] = path
                ended = self.by.run(words, wait=WAIT)
                self.want(f'DISK is {path}', self.by.unread(ended, path), words, ended)

    def commands(self):
        library, program = str(self.folder / 'library'), str(self.folder / 'program')
        words = [list(FORMAT), ['upgrade', 'disk'], ['install', 'disk', library], ['replace', 'disk', library], ['remove', 'disk', 'a'],
                 ['preload', 'disk'], ['list', 'disk'], ['bind', 'disk', program, '0x10000']]
        return words if isinstance(self.by, CLibrary) else [*words, ['script', 'disk']]

    def refused_disk(self, kind, words):
        before = {name: looks(self.place / name) for name in self.names()}
        log = self.folder / 'calls'
        traced = ['strace', '-qq', '-o', str(log), '-e', 'trace=open,openat,openat2']
        ended = soon(lambda: self.by.run(words, wrapped=traced, wait=WAIT), AT_ONCE)
        opened = any('"disk"' in line and '= -1' not in line for line in log.read_text().splitlines())
        after = {name: looks(self.place / name) for name in self.names()}
        self.want(kind, self.is_unread(ended), words, ended)
        self.want(kind, ended.seconds < AT_ONCE, words, 'took', ended.seconds)
        self.want(kind, before == after, words, 'changed:', before, after)
        self.want(kind, isinstance(self.by, CLibrary) or not opened, words, 'it was opened')

    def run(self):
        calls = self.study()
        self.order(calls, 'the order of calls')
        for part in (self.leftovers, self.odd_leftovers, self.locked_leftover):
            part()
        self.killed_between(calls)
        for part in (self.long_names, self.paths, self.no_links, self.limits, self.other_users, self.full, self.vfat, self.odd_disks):
            part()


def make_socket(path):
    """Makes a socket, by a short path, because the paths of sockets are short."""
    here = os.open('.', os.O_RDONLY)
    try:
        os.chdir(path.parent)
        with socket.socket(socket.AF_UNIX) as it:
            it.bind(path.name)
    finally:
        os.fchdir(here)
        os.close(here)


def make_folder(path):
    path.mkdir()
    (path / 'file').write_bytes(b'kept')


def make_link(path, target):
    target.write_bytes(bytes(512 * int(SECTORS)))
    path.symlink_to(target)
    return target, looks(target)


def odd_things(folder):
    """Returns things that are neither a regular file nor a block device, and how each is made."""
    things = [('a folder with a file', make_folder), ('a fifo', os.mkfifo), ('a socket', make_socket),
              ('a symbolic link to nothing', lambda path: path.symlink_to('nothing')),
              ('a symbolic link to itself', lambda path: path.symlink_to(path.name))]
    if not os.getuid():
        things.append(('a character device', lambda path: os.mknod(path, stat.S_IFCHR | 0o666, os.makedev(1, 3))))
    return things


def linked_things(folder):
    """Returns symbolic links to things that are neither a regular file nor a block device."""
    def linked(make):
        def both(path):
            make(path.with_name('target'))
            path.symlink_to('target')
        return both
    return [(f'a symbolic link to {kind}', linked(make)) for kind, make in odd_things(folder) if 'link' not in kind]


def main():
    words = argparse.ArgumentParser()
    words.add_argument('program', type=Path)
    words.add_argument('folder', type=Path)
    words.add_argument('--clib', type=Path)
    given = words.parse_args()
    folder = emptied(given.folder).resolve()
    folder.chmod(0o755)
    checks = Checks()
    if not has('strace'):
        print('skipped: the making of a disk: there is no strace')
        return
    Making(Program(given.program, folder), folder, checks).run()
    if given.clib:
        Making(CLibrary(given.clib, folder), folder, checks).run()
    status = checks.end('making')
    shutil.rmtree(folder)
    sys.exit(status)


if __name__ == '__main__':
    main()

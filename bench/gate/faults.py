#!/usr/bin/env python3
"""Runs each changing command of the program `rlibreg`, and `update` of `rlibreg-tool`, on a disk in a file. In each run one
system call fails, or the program is killed at it. Needs strace.

    python3 bench/gate/faults.py PROGRAM FOLDER [--tool RLIBREG_TOOL] [--dynamic DYNAMIC]

After each run the script lists the disk, as the running machine shows it, and binds a program from it. Both results have to
be those from before the command or those from after it, and those from after it if the command answered `ok`. So a `format`
of a disk that doesn't exist leaves no disk or a whole registry. The other name under which the disk is made may stay only
after a kill, or if it can't be removed (`making.py` tries more of this). Finally, every two syncs of a command fail. For
each command and each kind of fault, the script prints the number of runs for each way to end.

Before that, standard streams are closed or fail (`streams.py`), also those of RLIBREG_TOOL. After it, reads and writes
transfer fewer bytes than the program asked for (`short.py`). Some of these runs need DYNAMIC, a folder that
`DYNAMIC=yes c/build.sh` has made.
"""

import argparse
import collections
import shutil
import subprocess
import sys
from pathlib import Path

sys.path[1:1] = map(str, Path(__file__).resolve().parents[1].glob('*/'))  # the folders of bench
from libraries import Made
from old_disks import old_disk
from short import try_short_calls
from streams import Streams, ToolStreams, try_streams

SECTORS = '64'
# If a call fails before the program's own code runs, the loader of the C library reports it and exits with 127.
LOADER = 127
CALLS = ('openat,read,pread64,readv,write,pwrite64,writev,lseek,fsync,fdatasync,fstat,stat,lstat,newfstatat,statx,close,ftruncate,'
         'flock,fadvise64,link,linkat,unlink,unlinkat,rename,renameat,renameat2,readlink,readlinkat,getdents64,fremovexattr')
GROWING = {'openat', 'write', 'pwrite64', 'writev', 'ftruncate', 'fsync', 'fdatasync', 'link', 'linkat', 'rename', 'renameat', 'renameat2'}
UNLINKS = {'unlink', 'unlinkat'}
# A quota that is used up is tried only at the calls that take space.
FAULTS = {'error=EIO': None, 'error=ENOSPC': None, 'error=EINTR': None, 'error=EDQUOT': GROWING, 'signal=KILL': None}
TWO_SYNCS = 'two syncs'


def made_files(folder):
    """Makes two libraries, another version of the second one, a program that needs the first one, and a program that needs
    no library."""
    files = {
        'a.so': Made(b'a', exports=[b'fa'], data=600),
        'b.so': Made(b'b', exports=[b'fb'], data=900),
        'b2.so': Made(b'b', exports=[b'other', b'fb'], data=2500),
        'alone': Made(),
        'program': Made(needed=[b'a'], undefined=[b'fa'], relocations=[(1, 0, 1, 0)], behind=64),
    }
    for name, made in files.items():
        (folder / name).write_bytes(made.file)


class Bench:
    def __init__(self, program, tool, folder):
        self.program, self.tool, self.folder = str(program.resolve()), tool and str(tool.resolve()), folder
        self.disk, self.other = folder / 'disk', folder / '.disk.rlibreg-new'
        self.wrong = 0

    def run(self, words, wrapped=()):
        program, lines = (self.tool, self.lines()) if words[0] == 'update' else (self.program, None)
        ended = subprocess.run([*wrapped, program, *words], cwd=self.folder, input=lines, capture_output=True, timeout=120)
        return ended.returncode, ended.stdout

    def lines(self):
        return b'replace %s\npreload b a\ncommit\n' % (self.folder / 'b2.so').read_bytes().hex().encode()

    def done(self, *words):
        status, text = self.run(words)
        assert status == 0, (words, status, text)
        return text

    def seen(self):
        """Returns the contents of the disk, as its user sees them; for version 1, also the contents after an
        upgrade."""
        listed = self.run(['list', 'disk'])
        if listed[1] == b'refused S12 OldFormat\n':
            self.done('upgrade', 'disk')
            return listed, self.run(['list', 'disk']), self.run(['bind', 'disk', 'program', '0x100000'])
        return listed, self.run(['bind', 'disk', 'program', '0x100000'])

    def calls(self, words):
        """Returns the number of times that each system call is made, in the order of their first occurrences."""
        log = self.folder / 'calls'
        self.run(words, ['strace', '-qq', '-o', str(log), '-e', f'trace={CALLS}'])
        return collections.Counter(line.split('(')[0] for line in log.read_text().splitlines() if '(' in line)

    def trial(self, words, start):
        """Tries each fault at each call in turn, each time from a copy of the disk `start` (or without a disk if there
        is none)."""
        self.put(start)
        before = self.seen()
        self.put(start)
        calls = self.calls(words)
        states = before, self.seen()
        assert states[0] != states[1], words
        for fault, among in FAULTS.items():
            tried = [call for call in calls if among is None or call in among]
            faults = [(call, f'{call}:{fault}:when={number}') for call in tried for number in range(1, calls[call] + 1)]
            self.tell(words, fault, [self.faulted(words, start, states, *it) for it in faults])
        self.tell(words, TWO_SYNCS, [self.faulted(words, start, states, *it) for it in two_syncs(calls)])

    def faulted(self, words, start, states, call, fault):
        """Makes one run with a fault. Returns how it ended."""
        self.put(start)
        status, text = self.run(words, ['strace', '-qq', '-o', '/dev/null', '-e', f'inject={fault}'])
        left = self.other.exists() and call not in UNLINKS and 'KILL' not in fault
        found, told = self.seen(), 'done' if text.endswith(b'ok\n') else 'not told'
        if left or found not in states or told == 'done' and found != states[1]:
            self.wrong += 1
            print(f'WRONG: {words} {fault}: {status} {text} {found}' + (', and the other name is left' if left else ''))
            return told, 'WRONG', status
        return told, 'after' if found == states[1] else 'before', 'loader' if status == LOADER else status

    def tell(self, words, fault, ends):
        counted = sorted(collections.Counter(ends).items(), key=str)
        told = ', '.join(f'{count} {told}, {which}, status {status}' for (told, which, status), count in counted)
        print(f'{words[0]} with {fault}: {len(ends)} runs: {told}', flush=True)

    def put(self, start):
        self.other.unlink(missing_ok=True)
        if start is None:
            self.disk.unlink(missing_ok=True)
        else:
            self.disk.write_bytes(start)


def two_syncs(calls):
    """Yields every two of the syncs, as faults."""
    for call in ('fsync', 'fdatasync'):
        for first in range(1, calls[call]):
            for second in range(first + 1, calls[call] + 1):
                yield call, f'{call}:error=EIO:when={first}..{second}+{second - first}'


def main():
    words = argparse.ArgumentParser()
    words.add_argument('program', type=Path)
    words.add_argument('folder', type=Path)
    words.add_argument('--tool', type=Path)
    words.add_argument('--dynamic', type=Path)
    given = words.parse_args()
    program, folder = given.program, given.folder
    folder.mkdir(parents=True, exist_ok=True)
    made_files(folder)
    bench = Bench(program, given.tool, folder)
    bench.put(None)
    bench.done('format', 'disk', SECTORS)
    bench.done('install', 'disk', 'a.so')
    one = bench.disk.read_bytes()
    bench.done('install', 'disk', 'b.so')
    two = bench.disk.read_bytes()
    old = old_disk(int(SECTORS), [(b'a', (folder / 'a.so').read_bytes()), (b'b', (folder / 'b.so').read_bytes())])
    held = try_streams(Streams, bench.program, folder, one, two, old)
    if given.tool:
        held &= try_streams(ToolStreams, given.tool.resolve(), folder, one, two, old)
    commands = [
        (['format', 'disk', SECTORS], None), (['install', 'disk', 'b.so'], one), (['replace', 'disk', 'b2.so'], two),
        (['remove', 'disk', 'b'], two), (['preload', 'disk', 'b', 'a'], two), (['upgrade', 'disk'], old),
    ]
    if given.tool:
        commands.append((['update', 'disk'], two))
    if not shutil.which('strace'):
        print('skipped: calls that fail: there is no strace')
        commands = []
    for words, start in commands:
        bench.trial(words, start)
    dynamic = given.dynamic and Bench(given.dynamic / 'rlibreg', given.dynamic / 'rlibreg-tool', folder)
    if commands:
        held &= try_short_calls(bench, dynamic, commands, two)
    print(f'faults: {bench.wrong} wrong')
    shutil.rmtree(folder)
    sys.exit(0 if held and not bench.wrong else 1)


if __name__ == '__main__':
    main()

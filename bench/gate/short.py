"""Runs commands of the programs `rlibreg` and `rlibreg-tool` while a read or a write of the disk transfers fewer bytes than
the program requests; `faults.py` calls it.

There are three ways to make a call short:

- strace makes a call return that it transferred a part of a sector, and transfer nothing.
- A limit of the file's size (RLIMIT_FSIZE) stops a write within a sector or at the end of one. The next write transfers
  less than a sector, fails, or ends the program by SIGXFSZ.
- `short.c` makes each call, or one of them, transfer a part of what was asked for. It can do so only in a program that
  isn't static.

A run has one of two outcomes. Either it ends, and leaves the disk, as if no call were short. Or it is answered S1
(Device), or is ended by the signal, and then the disk holds the registry from before the command or from after it. If
each call transfers a sector or more, the run has to go on to its end.
"""

import collections
import re
import shutil
import subprocess
from pathlib import Path

from checks import shortened

SECTOR, ROOTS = 512, 1024
PARTS_OF_A_SECTOR = {'pwrite64': (100, 511), 'pread64': (511,)}
# The maximum number of bytes that a call transfers: a part of a sector, one sector, one and a part, nearly two. No
# write transfers only a part of a sector, because that would tear a root: no registry is claimed to survive a sector
# that isn't written whole.
MOST_BYTES = {'pwrite': (512, 612, 1023), 'pread': (100, 512, 612, 1023)}
OF_ONE_CALL = 612
FAILED, S1, XFSZ = 3, b'refused S1 Device\n', -25
READS = (['list', 'disk'], ['bind', 'disk', 'program', '0x100000'])

Plain = collections.namedtuple('Plain', 'start ended content states')


def is_unanswered(words, ended, plain):
    """Returns whether a failed run printed S1 (Device) in place of `ok` or the text of a complete run. An `update`
    prints S1 on standard error before the first line, and after its answers to lines that were planned. A run that a
    signal ends prints nothing more."""
    status, output = ended
    said = output.removesuffix(S1)
    if words[0] == 'update':
        return not said.endswith(b'ok\n') and plain.ended[1].startswith(said)
    return not said and (output == S1 or status == XFSZ)


class Short:
    """Runs the programs of a Bench of `faults.py`, and makes their calls short in one of the ways."""

    def __init__(self, bench):
        self.bench = bench
        self.known, self.ends = {}, collections.defaultdict(collections.Counter)
        self.wrong = 0

    def found(self):
        """Returns the disk's bytes, and its contents."""
        content = self.bench.disk.read_bytes() if self.bench.disk.exists() else None
        if content not in self.known:
            self.known[content] = self.bench.seen()
        return content, self.known[content]

    def plain(self, words, start):
        """Returns how the command ends if no call is short, and the disk's contents before and after it."""
        self.bench.put(start)
        before = self.found()[1]
        self.bench.put(start)
        ended = self.bench.run(words)
        content, after = self.found()
        return Plain(start, ended, content, (before, after))

    def judge(self, kind, words, plain, wrapped, may_end=FAILED):
        """Judges one run with short calls. It has to end as the plain run, or unanswered with the status `may_end`."""
        self.bench.put(plain.start)
        ended = self.bench.run(words, wrapped)
        left = self.bench.other.exists()
        content, holds = self.found()
        done = ended == plain.ended and content == plain.content
        failed = ended[0] == may_end and is_unanswered(words, ended, plain) and holds in plain.states
        if left or not done and not failed:
            self.wrong += 1
            print(f'WRONG: {kind}: {words} {wrapped}: {shortened(ended)}, and the disk holds', shortened(holds[0]),
                  'and has the other name' if left else '')
        self.ends[kind]['as if none were short' if done else f'status {ended[0]}'] += 1

    def calls(self, words, plain):
        """Returns each read and each write: its name, the requested number of bytes, and the offset."""
        log = self.bench.folder / 'calls'
        self.bench.put(plain.start)
        self.bench.run(words, ['strace', '-qq', '-o', str(log), '-e', 'trace=pread64,pwrite64'])
        return [(name, int(asked), int(at)) for name, asked, at in
                re.findall(r'^(\w+)\(.*, (\d+), (\d+)\) = \d+$', log.read_text(), re.M)]

    def by_strace(self, words, plain, calls):
        counts = collections.Counter(name for name, _, _ in calls)
        for name, parts in PARTS_OF_A_SECTOR.items():
            for part in parts:
                for number in range(1, counts[name] + 1):
                    fault = f'inject={name}:retval={part}:when={number}'
                    self.judge(f'{name} that answers {part}', words, plain, ['strace', '-qq', '-o', '/dev/null', '-e', fault])

    def by_limit(self, words, plain, calls):
        """Tries limits within each write and at the end of its first sector. A limit within the roots would tear a
        root."""
        for name, asked, at in calls:
            if name != 'pwrite64' or at < ROOTS:
                continue
            for part in {100, SECTOR - 1, SECTOR, SECTOR + 100, asked - 1}:
                if part < asked:
                    limit = ['prlimit', f'--fsize={at + part}', '--']
                    self.judge('a limit of the size', words, plain, ['env', '--ignore-signal=XFSZ', *limit])
                    if part == SECTOR:
                        self.judge('a limit of the size, by a signal', words, plain, limit, XFSZ)

    def by_library(self, library, words, plain, calls):
        """Tries calls that really transfer a part."""
        for name, sizes in MOST_BYTES.items():
            wrapped = ['env', f'LD_PRELOAD={library}', f'SHORT_CALL={name}']
            for size in sizes:
                self.judge(f'{name} of {size} bytes at most', words, plain, [*wrapped, f'SHORT_BYTES={size}'], FAILED if size < SECTOR else None)
            for number in range(1, 1 + sum(it == f'{name}64' for it, _, _ in calls)):
                self.judge(f'one {name} of {OF_ONE_CALL} bytes', words, plain, [*wrapped, f'SHORT_BYTES={OF_ONE_CALL}', f'SHORT_NUMBER={number}'])

    def tell(self):
        for kind, ends in self.ends.items():
            print(f'{kind}: {sum(ends.values())} runs: ' + ', '.join(f'{count} {end}' for end, count in sorted(ends.items())))
        runs = sum(sum(ends.values()) for ends in self.ends.values())
        print(f'short calls: {runs} runs, {self.wrong} wrong', flush=True)
        return not self.wrong


def library_in(folder):
    """Compiles the stand-in for calls."""
    library = folder / 'short.so'
    source = Path(__file__).resolve().parent / 'short.c'
    subprocess.run(['gcc', '-std=c11', '-O1', '-Wall', '-Wextra', '-shared', '-fPIC', '-o', str(library), str(source)], check=True)
    return library


def try_short_calls(bench, dynamic, changes, disk):
    """Tries the changes, each with the disk that it starts from, and the commands that only read a disk. `dynamic` is
    a Bench of programs that aren't static, or None."""
    commands = [*changes, *((words, disk) for words in READS)]
    has_limits = shutil.which('prlimit')
    if not has_limits:
        print('skipped: writes that a limit of the size makes short: there is no prlimit')
    if not dynamic:
        print('skipped: calls that move a part of what is asked, for which DYNAMIC is needed')
    short, moving = Short(bench), dynamic and Short(dynamic)
    library = dynamic and library_in(dynamic.folder)
    for words, start in commands:
        plain = short.plain(words, start)
        calls = short.calls(words, plain)
        short.by_strace(words, plain, calls)
        if has_limits:
            short.by_limit(words, plain, calls)
        if dynamic:
            moving.by_library(library, words, moving.plain(words, start), calls)
    held = short.tell()
    return moving.tell() and held if dynamic else held

#!/usr/bin/env python3
"""Checks which sectors of a disk rlibreg-tool reads, how much memory it uses, and the answers of the programs if a
library is damaged or can't be read. Needs strace, and root for sectors that can't be read.

    python3 bench/trials/tool.py PROGRAMS FOLDER

PROGRAMS has rlibreg, rlibreg-run and rlibreg-tool (c/build.sh). Each sector that describes the registry is requested
once, and so is each sector of a file that a form needs; nothing is requested of any other file. The system reads more
sectors, because it reads ahead. The script prints how many. The memory of a dump, or of digests, grows by less than 1 KiB
for each library, whatever its length. If a library has a wrong byte, or sectors that can't be read (a loop device whose
image has lost its end), the other libraries are reported as before; the script prints the answer of each program.
"""

import collections
import hashlib
import os
import re
import subprocess
import sys
from pathlib import Path

sys.path[1:1] = map(str, Path(__file__).resolve().parents[1].glob('*/'))  # the folders of bench
import registries
from checks import Checks, Program, emptied, has
from disks import install, library
from libraries import Made, name, symbol
from media import NotHere, loop

SECTOR, PAGE = registries.SECTOR, 4096
READ = re.compile(r'^pread64\(\d+<([^>]*)>, .*, (\d+)\) += (\d+)$')
TRACED = ['strace', '-qq', '-y', '-s', '0', '-e', 'trace=pread64', '-o', 'log']
EACH, SIZES = 1024, (3000, 5000, 90_000)

# The sectors that describe a registry, and those of each library's file.
Layout = collections.namedtuple('Layout', 'told files')


class Tool(Program):
    name = 'rlibreg-tool'


class Runner(Program):
    name = 'rlibreg-run'


def layout(disk):
    def at(number):
        return disk[SECTOR * number:SECTOR * (number + 1)]

    top = registries.current(*(registries.root(at(number)) for number in (0, 1)))
    entries, files = [], {}
    for k, place in enumerate(top.listed):
        entries += registries.catalogue(at(place), min(64, top.libraries - 64 * k))
    for place in entries:
        _, called, extents = registries.entry(at(place))
        files[called] = [it for first, count in extents for it in range(first, first + count)]
    return Layout({0, 1, *top.listed, *entries}, files)


def reads(log, disk):
    """Returns the sectors of each read of a disk in a log of strace."""
    calls = (READ.match(line) for line in log.read_text().splitlines())
    begun = ((int(call[2]), int(call[3])) for call in calls if call and call[1] == str(disk))
    return [range(place // SECTOR, (place + length) // SECTOR) for place, length in begun]


class Bench:
    def __init__(self, programs, folder, checks):
        self.folder, self.disk, self.checks = folder, folder / 'disk', checks
        self.rlibreg = Program(programs / 'rlibreg', folder)
        self.runner = Runner(programs / 'rlibreg-run', folder)
        self.tool = Tool(programs / 'rlibreg-tool', folder)

    def fill(self, files):
        """Makes a disk with these libraries and room for some more."""
        self.disk.unlink(missing_ok=True)
        sectors = sum(len(file) // SECTOR + 3 for file in files) + 200
        self.rlibreg.done('format', 'disk', str(sectors))
        install(self.rlibreg.path, self.disk, files)

    # The sectors that are read.

    def reads(self):
        self.fill([library(i, 2000 + i * 37 % 40 * 1000).file for i in range(200)])
        it = layout(self.disk.read_bytes())
        all_of = list(it.files)
        forms = {'info': [], 'check': all_of, 'digest': all_of, 'dump': all_of, 'file': [name(57)]}
        for form, needed in forms.items():
            words = [form, 'disk', *(needed if form == 'file' else [])]
            words = [word if isinstance(word, str) else word.decode() for word in words]
            assert self.tool.run(words, wrapped=TRACED).status == 0
            self.look(form, it, needed, reads(self.folder / 'log', self.disk))

    def look(self, form, it, needed, found):
        told = collections.Counter(read.start for read in found if read.start in it.told)
        near = {sector for read in found for sector in read}
        self.checks.want(f'{form} reads', set(told.values()) <= {1}, 'asked for twice', told)
        self.checks.want(f'{form} reads', it.told <= near, 'not read', it.told - near)
        wanted = [sector for called in needed for sector in it.files[called]]
        asked = [sector for read in found if read.start not in it.told for sector in read]
        if wanted:
            asked = [sector for sector in asked if sector in set(wanted)]
        self.checks.want(f'{form} reads', sorted(asked) == sorted(wanted), len(asked), len(wanted))
        print(f'{form}: {len(it.told) + len(wanted)} sectors are needed; {len(found)} reads have '
              f'{sum(map(len, found))}', flush=True)

    # Memory.

    def memory(self, form):
        """Returns the maximum memory of a form, in bytes."""
        words = ['/usr/bin/time', '-f', '%M', self.tool.path, form, 'disk']
        ended = subprocess.run(words, cwd=self.folder, check=True, stdout=subprocess.DEVNULL,
                               stderr=subprocess.PIPE)
        return int(ended.stderr) * 1024

    def memories(self):
        few, many = 20, 2000
        taken = collections.defaultdict(list)
        for count in (few, many):
            self.fill([library(i, 64 * 1024).file for i in range(count)])
            for form in ('dump', 'digest'):
                taken[form].append(self.memory(form))
                print(f'{form} of {count} libraries of 64 KiB: {taken[form][-1] / 2**20:.1f} MiB',
                      flush=True)
        for form, (least, most) in taken.items():
            self.checks.want(f'memory of a {form}', most - least < EACH * (many - few), least, most)

    # Damage.

    def three(self):
        """Makes three libraries, the last of which has the last sectors of all, and a program for each."""
        self.fill([library(i, size).file for i, size in enumerate((2000, *SIZES))])
        self.rlibreg.done('remove', 'disk', name(0).decode())
        self.rlibreg.done('preload', 'disk', name(1).decode())
        for i in (1, 3):
            words = {'needed': [name(i)], 'undefined': [symbol(i)], 'relocations': [(1, 0, 1, 0)]}
            (self.folder / f'needs-{i}').write_bytes(Made(behind=8, **words).file)
            (self.folder / f'needs-{i}').chmod(0o755)
        return layout(self.disk.read_bytes())

    def digests(self, kind, disk, files, line):
        """Checks the digests of files, and the message about the library that can't be read."""
        sums = [b'%s  %s\n' % (hashlib.sha256(file).hexdigest().encode(), called)
                for called, file in sorted(files.items())]
        wanted = (1, b''.join(sums), b'rlibreg-tool: ' + line) if line else (0, b''.join(sums), b'')
        ended = self.tool.run(['digest', disk])
        self.checks.want(f'{kind}: digests', ended[:3] == wanted, ended, wanted)

    def answers(self, kind, disk, wrong, line, status):
        """Checks the answer of each form if `line` reports one library, of the name `wrong`."""
        others = [called for called in map(name, (1, 2, 3)) if called != wrong]
        files = {called: self.files[called] for called in others}
        lengths = {called: b'ok %s %d\n' % (called, len(file)) for called, file in files.items()}
        lines = [lengths.get(called, line) for called in map(name, (1, 2, 3))]
        ended = self.tool.run(['check', disk])
        self.checks.want(kind, ended[:2] == (1, b''.join(lines) + b'end\n'), ended)
        self.checks.want(kind, self.tool.run(['info', disk]).status == 0)
        for called, file in files.items():
            ended = self.tool.run(['file', disk, called.decode()])
            self.checks.want(kind, ended[:2] == (0, file), called)
        ended = self.tool.run(['dump', disk])
        self.checks.want(kind, ended.output.endswith(b'\ncut') and ended.status == status, ended)
        self.checks.want(kind, ended.errors == b'rlibreg-tool: ' + line, ended)
        self.tell(kind, disk, wrong.decode())

    def tell(self, kind, disk, wrong):
        asked = [(self.tool, ['file', disk, wrong]), (self.rlibreg, ['list', disk])]
        for program in ('needs-1', 'needs-3'):
            asked.append((self.rlibreg, ['bind', disk, program, '0x10000']))
            asked.append((self.runner, [disk, program]))
        asked += [(self.rlibreg, ['remove', disk, it.decode()]) for it in map(name, (2, 3))]
        for by, words in asked:
            it = by.run(words)
            self.checks.want(kind, it.status is not None and it.status >= 0, words, it)
            words = ' '.join(Path(word).name for word in words)
            text = (it.errors + it.output)[:70].decode(errors='replace').replace('\n', ' | ')
            print(f'{kind}: {by.name} {words}: {it.status}, {text}', flush=True)

    def damaged(self):
        it = self.three()
        disk = bytearray(self.disk.read_bytes())
        disk[SECTOR * it.files[name(3)][0]] ^= 1
        self.disk.write_bytes(disk)
        self.answers('damaged', 'disk', name(3), b'damaged %s E2 BadMagic\n' % name(3), 1)
        file = bytearray(self.files[name(3)])
        file[0] ^= 1
        self.digests('damaged', 'disk', {**self.files, name(3): file}, None)

    def unread(self):
        it = self.three()
        last = it.files[name(3)][-1]
        end = SECTOR * last // PAGE * PAGE
        assert max(it.told | set(it.files[name(2)])) * SECTOR < end
        try:
            with loop(self.disk) as device:
                os.truncate(self.disk, end)
                line = b'unreadable %s\n' % name(3)
                self.answers('unreadable', str(device), name(3), line, 3)
                others = {called: self.files[called] for called in map(name, (1, 2))}
                self.digests('unreadable', str(device), others, line)
        except NotHere as why:
            self.checks.skip("what can't be read", why)

    def run(self):
        if has('strace'):
            self.reads()
        else:
            self.checks.skip('what is read', 'there is no strace')
        self.memories()
        self.files = {name(i): library(i, size).file for i, size in enumerate(SIZES, 1)}
        self.damaged()
        self.unread()


def main():
    folder, checks = emptied(Path(sys.argv[2]).resolve()), Checks()
    Bench(Path(sys.argv[1]).resolve(), folder, checks).run()
    sys.exit(checks.end('tool'))


if __name__ == '__main__':
    main()

#!/usr/bin/env python3
"""Runs random updates of `rlibreg-tool` on small disks, and compares each answer, and the registry on the disk
afterwards, with those that this script itself computes from the lines (`registries.py`). Then updates of 20 libraries are
killed at random.

    python3 bench/trials/updates.py RLIBREG_TOOL FOLDER [--updates N] [--cuts N] [--kills N] [--first NUMBER]

If strace is there, a power cut comes after each call of N of the updates (--cuts): the disk has each sector that was
written since the last sync, or doesn't have it (all such disks if at most 6 sectors are unsynced, else some). Up to the
write of the root, this disk has to hold the old registry; from that write on, the old or the updated registry; and after
the last sync, only the updated registry. After a kill the disk has to hold the old 20 libraries or the new ones, and the
new ones if `ok` was answered. The script exits with status 1 if something is wrong.
"""

import argparse
import collections
import itertools
import random
import re
import statistics
import struct
import sys
import time
from pathlib import Path

sys.path[1:1] = map(str, Path(__file__).resolve().parents[1].glob('*/'))  # the folders of bench
from checks import Checks, Program, emptied, has
from libraries import Made
from registries import CHANGES, PAGE, REGISTRY, SECTOR, State, listing, root, state_of

OK, FULL = b'ok\n', b'refused S7 Full\n'
END = 2 ** 47 - PAGE
SET, KILLED_SECTORS = 20, 4096
# The facts about a file: its name, and the names that it needs, exports and refers to.
Known = collections.namedtuple('Known', 'soname needs exports wants')
Ending = collections.namedtuple('Ending', 'output status state generation')


class Files:
    """Libraries and programs, with the facts about each."""

    def __init__(self):
        self.known = {}

    def made(self, soname=None, needs=(), exports=(), wants=(), data=0):
        rows = [(1, 8 * i, 1 + i, 0) for i in range(len(wants))]
        file = Made(soname, needs, exports, wants, rows, data, behind=8 * len(wants)).file
        self.known[file] = Known(soname, needs, exports, wants)
        return file

    def library(self, choose, name):
        """Returns one of the libraries of this name, which has 1 to 13 sectors, or rarely more. Some of these
        libraries export another symbol, and some need a library."""
        size = choose.choice((0, 0, 500, 1500, choose.randrange(6000), choose.randrange(15000)))
        return self.made(name, choose.choice(((), (), (), (b'a',), (b'b', b'a'))), (choose.choice((b'f', b'f', b'g')) + name,), (), size)

    def program(self, choose, names):
        needs = tuple(choose.sample(names, choose.randrange(3)))
        return self.made(None, needs, (), tuple(b'f' + name for name in needs[:choose.randrange(3)]))


def lists(count):
    """Returns the number of catalogues of `count` libraries."""
    return -(-count // 64)


def cost(data):
    return -(-len(data) // SECTOR) + 1


class Draft:
    """The changes that the lines of an update have planned so far, besides the current state."""

    def __init__(self, stands, known):
        self.stands = self.state = stands
        self.known, self.changed, self.staged = known, False, {}
        self.catalogues = lists(len(stands.libraries))
        self.used = 2 + self.catalogues + sum(cost(data) for _, data in stands.libraries)

    def answer(self, command, *words):
        if command == 'list':
            return listing(self.state)
        if command == 'bind':
            return self.bind(*words)
        answer, after = self.refused_first(command, words) or CHANGES[command](self.state, *words)
        if answer == OK and command in ('install', 'replace') and self.lacks_room(command, words[1]):
            answer = FULL
        if answer != OK:
            return answer
        if command != 'preload':
            self.used -= self.staged.pop(words[0], 0)
        if command in ('install', 'replace'):
            self.staged[words[0]] = cost(words[1])
            self.used += cost(words[1])
        self.state, self.changed = after, True
        return b'planned\n'

    def refused_first(self, command, words):
        """Returns the refusal of a command with C1, C5 (RepeatedPreload) or C6 (TooManyPreloads). CHANGES doesn't have these
        refusals."""
        if command in ('install', 'replace') and words[0] is None:
            return b'refused C1 E2 BadMagic\n', None
        if command == 'preload' and len(words) > 16:
            return b'refused C6 TooManyPreloads\n', None
        if command == 'preload' and len(set(words)) < len(words):
            return b'refused C5 RepeatedPreload\n', None
        return None

    def lacks_room(self, command, data):
        """Returns whether there are fewer free sectors than the file needs. The following sectors aren't free: the
        roots, the files and entries of the current state and of the plan, and twice as many as the larger of the two
        numbers of catalogues."""
        count = len(self.state.libraries)
        kept = 2 * max(self.catalogues, lists(count)) - self.catalogues
        more = 2 if command == 'install' and count % 64 == 0 else 0
        return self.stands.sectors - self.used < cost(data) + kept + more

    def bind(self, base, program):
        if base % PAGE:
            return b'refused B2 BadBase\n'
        libraries, order = dict(self.state.libraries), [None, *self.state.preloads]
        for name in order:
            for need in self.known[program if name is None else libraries[name]].needs:
                if need not in libraries:
                    return b'refused B3 Missing %s %s\n' % (name or b'/program', need)
                if need not in order:
                    order.append(need)
        if base >= END:
            return b'refused B4 NoRoom\n'
        exports = {symbol for name in order[1:] for symbol in self.known[libraries[name]].exports}
        for symbol in self.known[program].wants:
            if symbol not in exports:
                return b'refused B5 Undefined /program %s\n' % symbol
        return b'bound\n'


class Lines:
    """The lines of a random update, and how they have to end."""

    def __init__(self, choose, files, names, stands, generation):
        self.choose, self.files, self.names = choose, files, names
        self.draft, self.text, self.output = Draft(stands, files.known), b'', b''
        self.stands, self.generation = stands, generation
        self.refused = not all(self.ask(*self.line()) for _ in range(choose.randrange(1, choose.choice((3, 9, 20)))))

    def line(self):
        choose, listed = self.choose, [name for name, _ in self.draft.state.libraries]
        few = choose.random() < 0.04 or not listed
        command = choose.choice(('install',) * 6 + ('replace',) * 5 + ('remove', 'remove', 'preload', 'list', 'bind', 'bind'))
        new = [name for name in self.names if name not in listed]
        if not few and command == 'install' and not new:
            command = 'replace'
        name = choose.choice(self.names if few else new if command == 'install' else listed)
        if command == 'preload':
            count = choose.choice((1, 2, 3, 17)) if few else min(len(listed), choose.choice((0, 1, 1, 2, 3)))
            return command, *(choose.choices(self.names, k=count) if few else choose.sample(listed, count))
        if command == 'bind':
            base = choose.choice((0, PAGE, 0x100000) * 8 + (0x100, END + PAGE))
            return command, base, self.files.program(choose, self.names if few or len(listed) < 2 else listed)
        if command in ('install', 'replace'):
            return (command, name, self.files.library(choose, name)) if choose.random() < 0.99 else (command, None, bytes(64))
        return (command, name) if command == 'remove' else (command,)

    def ask(self, command, *words):
        """Adds a line. Returns whether it is accepted."""
        if command in ('install', 'replace'):
            said = [words[1].hex().encode()]
        elif command == 'bind':
            said = [b'0x%x' % words[0], words[1].hex().encode()]
        else:
            said = words
        self.text += b' '.join([command.encode(), *said]) + b'\n'
        answer = self.draft.answer(command, *words)
        self.output += answer
        return not answer.startswith(b'refused')

    def end(self):
        """Adds the last line. Returns how the update ends."""
        behind, answer = self.choose.choice([(b'commit\n', OK)] * 12 + [
            (b'commit\ncommit\n', OK), (b'commit\nnothing of this is read', OK), (b'', b'refused L3 NoCommit\n'),
            (b'commit', b'refused L2 CutLine\n'), (b'remove a', b'refused L2 CutLine\n'), (b'commit \ncommit\n', b'refused L1 BadLine\n'),
            (b'begin 0x0 00\ncommit\n', b'refused L1 BadLine\n')])
        self.text += behind
        if not self.refused:
            self.output += answer
        made = not self.refused and answer == OK
        if not (made and self.draft.changed):
            return Ending(self.output, 0 if made else 1, self.stands, self.generation)
        return Ending(self.output, 0, self.draft.state, self.generation + 1)


def empty(sectors):
    """Returns a disk that holds an empty registry."""
    return struct.pack('<8sQI', b'RLIBREG2', 0, sectors).ljust(SECTOR * sectors, b'\0')


def generation_of(disk):
    return max(it.generation for it in (root(disk[:SECTOR]), root(disk[SECTOR:2 * SECTOR])) if it)


def holds(disk, state, generation):
    return state_of(disk) == state and generation_of(disk) == generation


class Bench:
    def __init__(self, tool, folder, cuts):
        self.tool, self.folder, self.cuts = Program(tool, folder), folder, cuts if has('strace') else 0
        self.disk, self.checks, self.files = folder / 'disk', Checks(), Files()
        if cuts and not self.cuts:
            self.checks.skip('power cuts', 'there is no strace')

    def updates(self, count, choose):
        """Runs `count` updates, up to 29 of them one after the other on each disk."""
        while count:
            many = choose.random() < 0.1
            names = [b'l%d' % i for i in range(70)] if many else list(b'abcdefg'[i:i + 1] for i in range(7))
            sectors = choose.randrange(200, 400) if many else choose.randrange(8, 120)
            state, generation = State(REGISTRY, sectors, (), ()), 0
            self.disk.write_bytes(empty(sectors))
            if many:
                state, generation = self.filled(names[:choose.randrange(60, 67)], state), 1
            for _ in range(min(count, choose.randrange(1, 30))):
                state, generation = self.update(Lines(choose, self.files, names, state, generation), choose)
                count -= 1

    def filled(self, names, state):
        """Returns the state with a small library of each of these names, made by one update."""
        pairs = tuple((name, self.files.made(name, (), (b'f' + name,))) for name in names)
        text = b''.join(b'install %s\n' % data.hex().encode() for _, data in pairs) + b'commit\n'
        ended = self.tool.run(['update', 'disk'], text)
        self.checks.want('installs', ended[:3] == (0, b'planned\n' * len(pairs) + OK, b''), ended)
        return state._replace(libraries=pairs)

    def update(self, lines, choose):
        """Runs one update. Returns the state and generation after it."""
        before, wanted = self.disk.read_bytes(), lines.end()
        wrapped = []
        if self.cuts and lines.draft.changed:
            self.cuts -= 1
            wrapped = ['strace', '-qq', '-o', 'calls', '-xx', '-s', '1000000', '-e', 'trace=pwrite64,fsync']
        ended = self.tool.run(['update', 'disk'], lines.text, wrapped)
        after = self.disk.read_bytes()
        self.checks.want('updates', ended[:3] == (wanted.status, wanted.output, b''), ended, wanted.output)
        self.checks.note('updates', b' '.join(wanted.output.split(b'\n')[-2].split(b' ')[:2]).decode())
        self.checks.want('states', holds(after, wanted.state, wanted.generation), wanted)
        if wanted.generation == lines.generation:
            self.checks.want('roots that stay', after[:2 * SECTOR] == before[:2 * SECTOR])
        if wrapped:
            self.cut(before, (lines.stands, lines.generation), (wanted.state, wanted.generation), choose)
        return wanted.state, wanted.generation

    def cut(self, before, stood, stands, choose):
        """Cuts the power after each call."""
        synced, unsynced, ways = bytearray(before), [], {stood}
        for call in (self.folder / 'calls').read_text().splitlines():
            if call.startswith('fsync('):
                for at, data in unsynced:
                    synced[at:at + SECTOR] = data
                ways, unsynced = {stood} if len(ways) == 1 else {stands}, []
            else:
                data, at = re.match(r'pwrite64\(\d+, "(.*)", \d+, (\d+)\)', call).groups()
                data = bytes.fromhex(data.replace('\\x', ''))
                unsynced += [(int(at) + k, data[k:k + SECTOR]) for k in range(0, len(data), SECTOR)]
                ways |= {stands} if int(at) < 2 * SECTOR else set()
            for written in mixtures(unsynced, choose):
                disk = bytearray(synced)
                for at, data in written:
                    disk[at:at + SECTOR] = data
                self.checks.want('cuts', any(holds(bytes(disk), *it) for it in ways), call[:60], len(unsynced))

    def kills(self, count, choose):
        """Runs `count` updates of 20 libraries, from the old ones to the new ones or back, each of which is killed at
        some time."""
        sets = [tuple((b'k%d' % i, self.files.made(b'k%d' % i, (), (b'f',), (), 1000 * i + 3000 * k)) for i in range(SET)) for k in range(2)]
        texts = [b''.join(b'replace %s\n' % data.hex().encode() for _, data in it) + b'preload k%d\ncommit\n' % k for k, it in enumerate(sets)]
        states = [State(REGISTRY, KILLED_SECTORS, it, (b'k%d' % k,)) for k, it in enumerate(sets)]
        self.disk.write_bytes(empty(KILLED_SECTORS))
        self.filled_with(sets[0])
        took = statistics.median(self.killed(texts[k % 2], None) for k in range(1, 10))
        now = 1
        for _ in range(count):
            ended = self.killed(texts[1 - now], choose.uniform(0, 1.2 * took))
            found = state_of(self.disk.read_bytes())
            told = ended.output.endswith(OK)
            good = self.checks.want('kills', found == states[1 - now] or found == states[now] and not told, ended, found.preloads)
            self.checks.note('kills', ('new, told' if told else 'new') if found == states[1 - now] else 'old')
            now = 1 - now if good and found == states[1 - now] else now

    def filled_with(self, pairs):
        text = b''.join(b'install %s\n' % data.hex().encode() for _, data in pairs) + b'preload k0\ncommit\n'
        self.checks.want('installs', self.tool.run(['update', 'disk'], text).status == 0)

    def killed(self, text, seconds):
        """Runs an update that is killed `seconds` after its start. Without `seconds` it isn't killed, and its time is returned."""
        (self.folder / 'lines').write_bytes(text)
        with open(self.folder / 'lines', 'rb') as lines:
            process = self.tool.begin(['update', 'disk'], stdin=lines)
            if seconds is None:
                ended = self.tool.end(process)
                assert ended.output.endswith(OK), ended
                return ended.seconds
            time.sleep(seconds)
            process.kill()
            return self.tool.end(process)


def mixtures(unsynced, choose):
    """Returns the choices of unsynced writes that a disk may have after a cut: all choices if they are few, and
    otherwise some of them."""
    if len(unsynced) <= 6:
        return itertools.chain.from_iterable(itertools.combinations(unsynced, k) for k in range(len(unsynced) + 1))
    return [[], unsynced, *([it for it in unsynced if choose.random() < 0.5] for _ in range(30))]


def main():
    words = argparse.ArgumentParser()
    words.add_argument('tool', type=Path)
    words.add_argument('folder', type=Path)
    for name, count in (('updates', 1000), ('cuts', 100), ('kills', 500), ('first', 1)):
        words.add_argument(f'--{name}', type=int, default=count)
    given = words.parse_args()
    bench = Bench(given.tool, emptied(given.folder.resolve()), given.cuts)
    bench.updates(given.updates, random.Random(given.first))
    bench.kills(given.kills, random.Random(given.first + 1))
    sys.exit(bench.checks.end('updates'))


if __name__ == '__main__':
    main()

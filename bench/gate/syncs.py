#!/usr/bin/env python3
"""Runs the commands of the program `rlibreg` over a stand-in for a kernel (`medium.c`) in which syncs fail, processes end
and the machine loses its power, and checks that the answers stay true. Needs gcc, and a PROGRAM that isn't static
(`DYNAMIC=yes c/build.sh`).

    python3 bench/gate/syncs.py PROGRAM FOLDER [--all] [--body NAME]

Each sync of each changing command fails in turn, also two in a row, and brings none, all or a part of what was written to
the medium; or the process ends before one of its steps. Then come a `list`, and each further change, also with a failing
sync or a cut at each of its steps. After all of these comes a power cut, after which the medium has each dirty page, or
each sector of these pages, or doesn't have it. If the medium is left with other roots than those that are shown, the script
also tries a process that has the shown roots mapped, and a system in which no read gets past its memory.

The failing command has to end with S1 (Device) or with status 3. The disk has to hold the acknowledged state, or the
state after the one command that wasn't acknowledged. It must never be damaged, and from an opening on it has to hold
what that opening has shown. The script has its own record of the states (`registries.py`), and reads the medium by
itself. The calls in between have an order: lock, sync, the roots compared with the medium's, the first read; all writes
before the sync, and the sync before the reply; the lock until the last sync.

The script prints a line for each command, and exits with status 1 if something is wrong. --all tries more mixtures, parts
and chains of faults. --body NAME makes the body NAME of `bodies.c` make other calls than PROGRAM does: then something has to
be wrong, except with the body `right`.
"""

import argparse
import collections
import errno
import itertools
import sys
import tempfile
import time
from pathlib import Path

sys.path[1:1] = map(str, Path(__file__).resolve().parents[1].glob('*/'))  # the folders of bench
from machines import (
    CUT_STATUS, DISK, LIBRARIES, NEW, PROGRAM, SECTORS, Machine, clean, found, has_failed, is_shown_otherwise, steps_of, syncs_of)
from old_disks import old_disk
from orders import Order
from registries import DAMAGED, NO_FILE, REGISTRY, SECTOR, answer, image, state_of

# The number of faults of each kind that are shown.
SHOWN = 6
FAILED, REOPEN = b'refused S1 Device\n', b'refused S2 Reopen\n'
LIST = ('list',)
BASE = 0x100000
BIND = ('bind', 'program', b'0x%x' % BASE)
FORMAT = ('format', b'%d' % SECTORS)
SCRIPT = ('script', ('install', 'c.so'), ('replace', 'b2.so'), ('preload', b'c', b'a'), ('remove', b'b'))
# The further changes after a first format, after other commands, and after those with many states.
FIRST = [FORMAT, ('install', 'a.so')]
FURTHER = [
    ('install', 'c.so'), ('replace', 'a2.so'), ('remove', b'a'), ('preload', b'a'), ('upgrade',), FORMAT,
    ('script', ('remove', b'b'), ('install', 'c.so'), LIST),
]
FEW_FURTHER = [('replace', 'a2.so'), ('remove', b'b')]
# The parts that a failing sync may write to the medium, by their names in `medium.c`.
PARTS = ['none', 'all', 'first', 'rest', 'half', 'kept']
FEW_PARTS = ['none', 'rest']
BODIES = [
    'right', 'none', 'small', 'before', 'after_read', 'second_page', 'compared_early', 'one_root', 'failed_equal', 'written_unsynced',
    'compared_once', 'not_compared', 'unlocked', 'shared', 'lock_late', 'lock_let_go', 'no_sync', 'no_last_sync', 'named_early', 'folder',
    'unasked', 'asked_early', 'left', 'dead_written', 'einval', 'erofs',
]
# A held state, the states that its disk may hold, and how it came about.
Way = collections.namedtuple('Way', 'held allowed what')


def told(state):
    libraries = ', '.join(f'{name.decode()} {len(data)}' for name, data in state.libraries)
    return f'{state.kind}' + (f' ({libraries}; {b" ".join(state.preloads).decode()})' if state.kind == REGISTRY else '')


def unanswered(state, replies):
    """Returns the states to which lines without answers may have led: at most the first accepted change was made,
    because no other change is made before it is answered."""
    return {state, *[after for reply, after in replies if reply == b'ok\n'][:1]}


class Book:
    """This script's own computation of the states to which commands lead."""

    def __init__(self, files):
        self.files, self.image = files, image(BASE, PROGRAM, LIBRARIES['a.so'][1], 'a')

    def answer(self, state, words):
        if words == BIND and state.kind == REGISTRY:
            return self.image, state
        rest = [part for word in words[1:] for part in (self.files[word] if isinstance(word, str) else (word,))]
        return answer(state, words[0], *rest)

    def answers(self, state, command):
        """Returns the replies to a command, or to a script's lines, each with the state after it, and the status."""
        replies = []
        script = command[0] == 'script'
        if script and state.kind != REGISTRY:
            command, script = LIST, False
        for words in command[1:] if script else [command]:
            reply, state = self.answer(state, words)
            replies.append((reply, state))
        if state.kind == NO_FILE:
            return replies, 3
        return replies, int(any(reply.startswith(b'refused') for reply, _ in replies))

    def after(self, state, command, ended):
        """Returns the states that are possible after a run of `command` from `state` that ended as `ended`. Returns
        none if no such run can end in this way."""
        replies, status = self.answers(state, command)
        text, number = ended.output, 0
        while number < len(replies) and text.startswith(replies[number][0]) and (text or ended.status == status):
            text, state, number = text[len(replies[number][0]):], replies[number][1], number + 1
        left = len(replies) - number
        failed = has_failed(ended.log)
        if not left and not failed:
            return {state} if not text and ended.status in (status, CUT_STATUS) else set()
        as_failed = failed and ended.status == 3 and text in (b'', FAILED, FAILED + REOPEN * (left - 1))
        if ended.status == CUT_STATUS and not text:
            return unanswered(state, replies[number:])
        if as_failed:
            return {state, replies[number][1]} if left else {state}
        return set()


class Bench:
    def __init__(self, machine, everything):
        self.machine, self.all = machine, everything
        self.book = Book(machine.files)
        self.trials = 24 if everything else 4
        self.faults, self.ordered, self.judged = collections.Counter(), set(), 0
        self.of_disks, self.of_cuts = {}, {}

    def wrong(self, kind, what, more=''):
        self.faults[kind] += 1
        if self.faults[kind] <= SHOWN:
            print(f'WRONG: {kind}: {what}{more}', flush=True)

    def states(self, held):
        """Returns the number of disks that machines may find after a cut of `held`, and the set of
        the states of these disks."""
        if held not in self.of_cuts:
            disks = {machine.content if DISK in machine.names else None for machine in found(held, self.trials)}
            self.of_disks.update((disk, state_of(disk)) for disk in disks if disk not in self.of_disks)
            self.of_cuts[held] = len(disks), {self.of_disks[disk] for disk in disks}
        return self.of_cuts[held]

    def after_cuts(self, way):
        """Checks that what machines find after a cut is allowed."""
        count, states = self.states(way.held)
        self.judged += count
        for state in states - way.allowed:
            kind = 'damaged after a cut' if state.kind == DAMAGED else 'lost after a cut'
            self.wrong(kind, way.what, f': {told(state)} in the place of {" or ".join(map(told, way.allowed))}')

    def check_order(self, command, ended, what):
        if id(ended) not in self.ordered:
            self.ordered.add(id(ended))
            for fault in Order(ended.log, command in (LIST, BIND)).run():
                self.wrong(fault, what)

    def run(self, way, command, what, **how):
        """Makes a run, which has to end in a permitted way. Returns the way that follows, or None if the run ended
        otherwise."""
        ended = self.machine.run(way.held, command, **how)
        allowed = frozenset().union(*(self.book.after(state, command, ended) for state in way.allowed))
        self.judged += 1
        if not allowed:
            self.wrong('another answer', what, f': {ended.status} {ended.output} on {" or ".join(map(told, way.allowed))}')
            return ended, None
        if 'cut' not in how:
            self.check_order(command, ended, what)
            if command == FORMAT and not way.held.names and NEW in ended.held.names:
                self.wrong('the other name is left', what)
        on = Way(ended.held, allowed, what)
        self.after_cuts(on)
        return ended, on

    def opened(self, way, **how):
        """Runs a `list`. Later commands have to show the same state again, even after a cut. Returns the way that
        follows."""
        what = way.what + ', list'
        ended, shown = self.run(way, LIST, what, **how)
        if shown:
            for machine in {ended.held, *found(ended.held, 0)}:
                self.run(shown._replace(held=machine), LIST, what + ', dropped, list')
        return shown

    def failing(self, way, command, syncs, parts, what, **how):
        """Yields each sync failing with each part that it writes to the medium, and the next sync too if it is still
        made."""
        for number, brought in itertools.product(range(1, syncs + 1), parts):
            words = f'{what}, sync {number} fails and brings {brought}'
            ended, on = self.run(way, command, words, fail=number, brought=brought, **how)
            yield on
            if syncs_of(ended.log) > number:
                yield self.run(way, command, words + ', the next too', fail=f'{number},{number + 1}', brought=brought, **how)[1]

    def ways(self, way, command, parts, **how):
        """Yields each way to which a command leads, once: the command ends, a sync fails, or the process ends before
        a step."""
        what = f'{way.what}, {command[0]}' if way.what else command[0]
        ended, on = self.run(way, command, what, **how)
        cuts = (self.run(way, command, f'{what} ended before step {n}', cut=n, **how)[1] for n in range(1, steps_of(ended.log) + 1))
        seen = {None}
        for later in itertools.chain([on], self.failing(way, command, syncs_of(ended.log), parts, what, **how), cuts):
            if later and later[:2] not in seen:
                seen.add(later[:2])
                yield later

    def hidden(self, way):
        """Makes the sync of the next opening fail, or succeed because the failure was reported to another process."""
        for brought in PARTS if way.held.dirty else ():
            what = f'{way.what}, list whose sync brings {brought}'
            ways = [self.run(way, LIST, what, fail=1, brought=brought)[1]]
            if brought == 'kept':
                ways.append(self.run(way, LIST, what + ' and answers EROFS', fail=1, brought=brought, error=errno.EROFS)[1])
            else:
                ways.append(self.run(way, LIST, what + ' unseen', fail=1, brought=brought, silent=1)[1])
            for later in filter(None, ways):
                self.opened(later)

    def other_errors(self, way, command):
        """Tries syncs that return other errors: EINVAL is forgiven only for a file that is open only for reading,
        EROFS never."""
        syncs = syncs_of(self.machine.run(way.held, command).log)
        errors = [errno.EROFS] if command in (LIST, BIND) else [errno.EINVAL, errno.EROFS]
        for number, error in itertools.product(range(1, syncs + 1), errors):
            what = f'{command[0]}, sync {number} answers {errno.errorcode[error]}'
            on = self.run(way, command, what, fail=number, brought='none', error=error)[1]
            if on:
                self.opened(on)

    def read_only(self, way, command):
        """Tries a medium that can't be written, whose syncs return EINVAL: a `list` or a `bind` works, a change writes
        nothing."""
        ended = self.machine.run(way.held, command, read_only=1, brought='none', error=errno.EINVAL)
        self.judged += 1
        if command in (LIST, BIND):
            holds = way.allowed == self.book.after(*way.allowed, command, ended._replace(log=()))
        else:
            holds = ended.status == 3 and ended.output.replace(REOPEN, b'') in (b'', FAILED)
        if not holds or ended.held != way.held:
            self.wrong('another answer', f'{command[0]} of a medium that is read alone', f': {ended.status} {ended.output}')

    def moved(self):
        """Ends a first format while its file has both names. Then the registry is moved away, and DISK formatted
        again."""
        for number in range(1, steps_of(self.machine.run(clean(None), FORMAT).log) + 1):
            held = self.machine.run(clean(None), FORMAT, cut=number).held
            if held.names != {DISK, NEW}:
                continue
            self.machine.put(held)
            moved = (self.machine.folder / 'disk').rename(self.machine.folder / 'moved')
            ended = self.machine.run_here(FORMAT, {})
            self.judged += 1
            whole = moved.read_bytes() == held.content and state_of(ended.held.content).kind == REGISTRY
            if ended[:2] != (0, b'ok\n') or ended.held.names != {DISK} or not whole:
                self.wrong('another answer', 'format, its registry moved, format', f': {ended.status} {ended.output} {whole}')

    def lost(self):
        """Tries a journal that the system couldn't write before the sync of the folder, which doesn't report it."""
        start = Way(clean(None), frozenset([state_of(None)]), '')
        way = self.run(start, FORMAT, 'format whose name is lost', lost=1)[1]
        if way:
            self.run(way, FORMAT, f'{way.what}, asked again')

    def further(self, way, command):
        """Makes a further change, with its own faults."""
        for later in self.ways(way, command, PARTS if self.all else FEW_PARTS):
            if self.all:
                self.hidden(later)
            self.opened(later)

    def refused(self, way, command, what, **how):
        """Makes a run that has to be refused, and to leave everything as it was."""
        ended = self.machine.run(way.held, command, **how)
        self.judged += 1
        if ended.status != 3 or ended.output.replace(REOPEN, b'') not in (b'', FAILED) or ended.held != way.held:
            self.wrong('another answer', f'{way.what}, {command[0]}, {what}', f': {ended.status} {ended.output}')

    def shown_otherwise(self, way, further):
        """Tries a medium whose roots differ from the shown ones: a read past the system's memory fails, or isn't
        available, or another process has the roots mapped."""
        changes = [command for command in further if command[0] not in ('script', 'format')]
        mapped = way._replace(what=way.what + ', mapped')
        self.refused(mapped, LIST, 'which only looks', mapped=1)
        self.opened(way, past='refused')
        for number, change in enumerate(changes):
            self.refused(way, change, 'no read past memory', past=errno.EIO)
            self.refused(mapped, change, 'which the medium does not take', mapped=1, fail=2, brought='none', silent=1)
            how = {'past': 'refused'} if number else {'mapped': 1}
            for later in self.ways(mapped, change, FEW_PARTS, **how):
                self.opened(later)

    def faulty(self, start, command, further):
        """Runs a command with its faults, and after each of them an opening and each further change. Returns the
        number of states to which it led."""
        states = 0
        for way in self.ways(start, command, PARTS):
            states += 1
            self.hidden(way)
            if is_shown_otherwise(way.held):
                self.shown_otherwise(way, further)
            for number in range(1, 4):
                self.run(way, LIST, f'{way.what}, list ended before step {number}', cut=number)
            shown = self.opened(way)
            for change in further:
                self.further(way, change)
                if shown:
                    self.further(shown, change)
        return states

    def row(self, name, command, disk, further):
        """Tries everything for one command from one disk, and prints the line about it."""
        began, runs, judged, faults = time.monotonic(), self.machine.runs, self.judged, sum(self.faults.values())
        start = Way(clean(disk), frozenset([state_of(disk)]), '')
        states = self.faulty(start, command, further)
        self.read_only(start, command)
        self.other_errors(start, command)
        print(f'{name}: {states} states after faults, {self.machine.runs - runs} runs, {self.judged - judged} answers and disks judged, '
              f'{sum(self.faults.values()) - faults} wrong ({time.monotonic() - began:.1f} s)', flush=True)


def disk_with(machine, *commands):
    """Returns the bytes of a disk after a format and these commands, if nothing fails."""
    held = clean(None)
    for command in (FORMAT, *commands):
        ended = machine.run(held, command)
        assert ended.status == 0, (command, ended)
        assert syncs_of(ended.log), 'the stand-in was not loaded'
        held = clean(ended.held.content)
    return held.content


def rows(machine, everything):
    """Yields the commands, each with its name, the disk that it is run on, and the further changes after it."""
    one = disk_with(machine, ('install', 'a.so'))
    two = disk_with(machine, ('install', 'a.so'), ('install', 'b.so'))
    old = old_disk(SECTORS, [machine.files[file] for file in ('a.so', 'b.so')])
    few = FURTHER if everything else FEW_FURTHER
    yield 'format of no file', FORMAT, None, FIRST
    yield 'format of zeros', FORMAT, bytes(SECTORS * SECTOR), FIRST
    yield 'install', ('install', 'b.so'), one, FURTHER
    yield 'replace', ('replace', 'b2.so'), two, FURTHER
    yield 'remove', ('remove', b'b'), two, FURTHER
    yield 'preload', ('preload', b'b', b'a'), two, FURTHER
    yield 'upgrade', ('upgrade',), old, FURTHER
    yield 'script', SCRIPT, two, few
    yield 'list', LIST, two, few
    yield 'bind', BIND, two, []


def try_all(program, folder, body, everything):
    """Tries everything. Returns the number of faults."""
    bench = Bench(Machine(program, folder, body), everything)
    for row in rows(bench.machine, everything):
        bench.row(*row)
    bench.moved()
    bench.lost()
    wrong = sum(bench.faults.values())
    print(f'{bench.machine.runs} runs, {bench.judged} answers and disks judged, {wrong} wrong')
    for kind, count in bench.faults.most_common():
        print(f'  {count} times: {kind}')
    return wrong


def main():
    words = argparse.ArgumentParser(description='See the head of this script.')
    words.add_argument('program', type=Path)
    words.add_argument('folder', type=Path)
    words.add_argument('--all', action='store_true')
    words.add_argument('--body', choices=BODIES)
    words = words.parse_args()
    words.folder.mkdir(parents=True, exist_ok=True)
    with tempfile.TemporaryDirectory(dir=words.folder.resolve()) as folder:
        wrong = try_all(words.program.resolve(), Path(folder), words.body, words.all)
    sys.exit(1 if wrong else 0)


if __name__ == '__main__':
    main()

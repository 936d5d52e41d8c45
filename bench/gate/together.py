#!/usr/bin/env python3
"""Runs twelve processes at once on one disk, round after round: the program `rlibreg` by itself, and together with the C
library.

    python3 bench/gate/together.py PROGRAM FOLDER [--clib TOOL] [--rounds N]

TOOL is the program of c/tests/library/tool.c, built as c/tests/run.sh builds it. Every change that was answered `ok` has to be
present at the end. All other commands have to report that the disk is locked: a change by PROGRAM after two seconds,
and any other command at once. A `list` has to show a state between those before and after it.

The rounds are: installs; installs that are each repeated until they succeed; all commands; both programs; lists beside one
writer; a file that is put in another's place (mv); and two and twelve `format`s of one name. Before them come a disk that
another process has locked, shared or exclusively, and, if strace is there, a file system that can't lock and a file that
is put in another's place between opening and locking. The script makes 10 rounds of each; 200 take some minutes.
"""

import argparse
import contextlib
import fcntl
import os
import random
import shutil
import sys
import threading
import time
from pathlib import Path

sys.path[1:1] = map(str, Path(__file__).resolve().parents[1].glob('*/'))  # the folders of bench
from checks import Checks, CLibrary, Program, emptied, has, held_file, looks, soon
from libraries import Made, name, symbol

COUNT, SECTORS = 12, '512'
# Seconds: the limit of "at once", how long a change tries, and how long a command is repeated.
AT_ONCE, TRIES, AGAIN = 1.0, 2.0, 60.0
LOOKS = ('list', 'bind')
READS = {'read', 'pread64', 'readv', 'write', 'pwrite64', 'writev', 'ftruncate', 'mmap', 'fsync', 'fdatasync'}
SAID = b'refused S4 AlreadyFormatted\n'


def library(i, version):
    return f'library-{i:02}-{version}'


def made_files(folder):
    """Makes two versions of each library, of different lengths, and a program that needs the first library."""
    for i in range(COUNT + 4):
        for version in (0, 1):
            made = Made(name(i), exports=[symbol(i)], data=700 + 1000 * version + 100 * i)
            (folder / library(i, version)).write_bytes(made.file)
    made = Made(needed=[name(0)], undefined=[symbol(0)], relocations=[(1, 0, 1, 0)], behind=64)
    (folder / 'program').write_bytes(made.file)


class State:
    """The state that a listing shows: the libraries with their lengths, in their order, and the preloads."""

    def __init__(self, text):
        words = [line.split() for line in text.decode().splitlines()]
        self.whole = bool(words) and words[-1] == ['end']
        self.libraries = {word[1]: int(word[2]) for word in words if word[0] == 'library'}
        self.preloads = [word[1] for word in words if word[0] == 'preload']

    def changed(self, change):
        """Applies a change that was made: its command, the library or the preloads, and the length."""
        what, names, length = change
        if what in ('install', 'replace'):
            self.libraries[names[0]] = length
        elif what == 'remove':
            del self.libraries[names[0]]
        elif what == 'preload':
            self.preloads = names

    def between(self, before, after):
        """Returns whether this state may be found between `before` and `after`: of the libraries that are installed in
        between, in the order of `after`, it has the first ones."""
        kept = [it for it in before.libraries if it in self.libraries]
        grown = list(self.libraries)[len(kept):]
        good = self.whole and list(self.libraries)[:len(kept)] == kept
        good &= grown == [it for it in after.libraries if it not in before.libraries][:len(grown)]
        good &= all(it in self.libraries for it in before.libraries if it in after.libraries)
        good &= all(length in (before.libraries.get(it), after.libraries.get(it)) for it, length in self.libraries.items())
        return good and self.preloads in (before.preloads, after.preloads)


def change_of(folder, words):
    """Returns the change that a command requests, as `State.changed` takes it."""
    if words[0] in ('install', 'replace'):
        return words[0], [name(int(words[2].split('-')[1])).decode()], (folder / words[2]).stat().st_size
    return words[0], words[2:], 0


def side_by_side(calls):
    """Makes all calls at the same time. Returns their results."""
    found = [None] * len(calls)
    def one(i):
        found[i] = calls[i]()
    threads = [threading.Thread(target=one, args=(i,)) for i in range(len(calls))]
    for thread in threads:
        thread.start()
    for thread in threads:
        thread.join()
    return found


def same(one, other):
    return one.whole and other.whole and one.libraries == other.libraries and one.preloads == other.preloads


class Rounds:
    def __init__(self, program, tool, folder, count):
        self.folder, self.count = folder, count
        self.checks, self.program = Checks(), Program(program, folder)
        self.tool = CLibrary(tool, folder) if tool else None
        self.disk = folder / 'disk'
        made_files(folder)
        self.program.done('format', 'disk', SECTORS)
        self.empty = self.disk.read_bytes()
        for i in range(3):
            self.program.done('install', 'disk', library(i, 0))
        self.three = self.disk.read_bytes()
        self.images = self.all_images()

    def all_images(self):
        """Returns the images of the program over each state that a round of all commands may go through."""
        images = set()
        for first in (0, 1):
            for second in (0, 1):
                for preloads in ([], [name(1).decode()]):
                    self.disk.write_bytes(self.three)
                    self.program.done('replace', 'disk', library(0, first))
                    self.program.done('replace', 'disk', library(1, second))
                    self.program.done('preload', 'disk', *preloads)
                    images.add(self.program.done('bind', 'disk', 'program', '0x10000'))
        return images

    def put(self, content):
        self.disk.unlink(missing_ok=True)
        self.disk.write_bytes(content)

    def state(self):
        ended = self.program.run(['list', 'disk'])
        return State(ended.output if ended.status == 0 else b''), ended

    def at_once(self, asked):
        """Runs all commands at the same time. Each command is a program, its arguments, and its input."""
        begun = [(by, words, given, by.begin(words)) for by, words, given in asked]
        return [(by, words, by.end(process, given)) for by, words, given, process in begun]

    def judge(self, kind, before, answers, others=False):
        """Compares the end of a round with its answers. If no other process has locked the disk, one of the runs has to
        succeed."""
        wanted = State(before)
        for by, words, ended in answers:
            if words[0] in ('install', 'replace', 'remove', 'preload', 'script') and ended.output[:3] == b'ok\n':
                wanted.changed(change_of(self.folder, words if words[0] != 'script' else ['install', 'disk', library(COUNT, 0)]))
        after, said = self.state()
        self.checks.want(kind, same(after, wanted), 'at the end:', said.output or said, 'wanted', wanted.libraries, wanted.preloads)
        for by, words, ended in answers:
            answer = self.answer(by, words, ended, State(before), after)
            self.checks.note(kind, answer)
            self.checks.want(kind, answer != 'wrong', by.name, words, ended)
        self.checks.want(kind, others or any(not by.held(ended, 'disk') for by, _, ended in answers), 'nobody got the disk')

    def answer(self, by, words, ended, before, after):
        """Returns the answer of a run as one word."""
        what, listing = words[0], ended.output
        if by.held(ended, 'disk'):
            return 'held'
        if ended.errors or ended.status is None:
            return 'wrong'
        if what == 'format' and ended[:2] == (1, SAID):
            return 'S4'
        if what == 'bind':
            return 'image' if ended.status == 0 and listing in self.images else 'wrong'
        if what == 'list' or what == 'script':
            listing = listing[3:] if what == 'script' and listing.startswith(b'ok\n') else listing
            good = ended.status == 0 and State(listing).between(before, after)
            return ('listing' if what == 'list' else 'script') if good else 'wrong'
        return 'ok' if ended[:2] == (0, b'ok\n') else 'wrong'

    def round(self, kind, start, asked):
        self.put(start)
        before = self.program.done('list', 'disk')
        answers = self.at_once(asked)
        self.judge(kind, before, answers)

    def installs(self):
        for _ in range(self.count):
            self.round('12 installs', self.empty, [(self.program, ['install', 'disk', library(i, 0)], b'') for i in range(COUNT)])

    def until_done(self):
        """Repeats each command until the disk isn't locked for it. Then all libraries have to be installed."""
        kind = '12 installs, each until it is done'
        for _ in range(self.count):
            self.put(self.empty)
            answers = []
            def one(i):
                by, words = self.by_turns(i), ['install', 'disk', library(i, 0)]
                answers.append((by, words, self.until(by, words)))
            threads = [threading.Thread(target=one, args=(i,)) for i in range(COUNT)]
            for thread in threads:
                thread.start()
            for thread in threads:
                thread.join()
            self.judge(kind, b'end\n', answers)
            self.checks.want(kind, len(self.state()[0].libraries) == COUNT, self.state()[1])

    def by_turns(self, i):
        return self.tool if self.tool and i % 2 else self.program

    def commands(self):
        """Returns all commands, to be run at once. Each of them may be answered `ok` after any other one."""
        given = b'install ' + (self.folder / library(COUNT, 0)).read_bytes().hex().encode() + b'\nlist\n'
        words = [['install', 'disk', library(i, 0)] for i in (3, 4, 5)] + [['replace', 'disk', library(i, 1)] for i in (0, 1)]
        words += [['remove', 'disk', name(2).decode()], ['preload', 'disk', name(1).decode()], ['list', 'disk']]
        words += [['bind', 'disk', 'program', '0x10000'], ['format', 'disk', SECTORS], ['upgrade', 'disk'], ['script', 'disk']]
        return [(self.program, it, given if it[0] == 'script' else b'') for it in words]

    def all_commands(self):
        for turn in range(self.count):
            asked = self.commands()
            random.Random(turn).shuffle(asked)
            self.round('all commands', self.three, asked)

    def beside(self):
        """Runs half of the commands by the C library."""
        for turn in range(self.count):
            asked = [(by, ['install', 'disk', library(i, 0)], b'') for i, by in zip(range(3, 11), [self.program, self.tool] * 4)]
            for i, by in enumerate((self.program, self.tool)):
                asked += [(by, ['list', 'disk'], b''), (by, ['replace', 'disk', library(i, 1)], b'')]
            random.Random(turn).shuffle(asked)
            self.round('program beside C library', self.three, asked)

    def lists(self):
        """Runs one writer, which replaces one library after the other, beside eleven processes that list."""
        kind, steps = 'lists beside a writer', [(0, 1), (1, 1), (2, 1), (0, 0), (1, 0), (2, 0)]
        states = [State(self.listing_of(self.three))]
        for i, version in steps:
            states.append(State(b'end\n'))
            states[-1].libraries = {**states[-2].libraries, name(i).decode(): (self.folder / library(i, version)).stat().st_size}
        for _ in range(self.count):
            self.put(self.three)
            begun, acknowledged, over = [0], [0], threading.Event()
            def write():
                for step, (i, version) in enumerate(steps, 1):
                    begun[0] = step
                    ended = self.until(self.program, ['replace', 'disk', library(i, version)])
                    if not self.checks.want(kind, ended[:2] == (0, b'ok\n'), 'the writer:', ended):
                        break
                    acknowledged[0] = step
                over.set()
            def read(by):
                while not over.is_set():
                    least = acknowledged[0]
                    ended = by.run(['list', 'disk'])
                    most = begun[0]
                    shown = any(same(State(ended.output), states[k]) for k in range(least, most + 1)) and ended.status == 0
                    self.checks.note(kind, 'held' if by.held(ended, 'disk') else 'listing' if shown else 'wrong')
                    self.checks.want(kind, shown or by.held(ended, 'disk'), by.name, ended, 'between', least, most)
                    time.sleep(0.02)
            threads = [threading.Thread(target=write)] + [threading.Thread(target=read, args=(self.by_turns(i),)) for i in range(COUNT - 1)]
            for thread in threads:
                thread.start()
            for thread in threads:
                thread.join()

    def until(self, by, words):
        """Repeats a command until the disk isn't locked."""
        end = time.monotonic() + AGAIN
        ended = by.run(words)
        while by.held(ended, 'disk') and time.monotonic() < end:
            time.sleep(random.random() / 100)
            ended = by.run(words)
        return ended

    def listing_of(self, content):
        self.put(content)
        return self.program.done('list', 'disk')

    def moved(self):
        """Puts a copy in the disk's place again and again, while locking the file that was there before."""
        kind = 'a copy put in its place, beside installs'
        for _ in range(self.count):
            self.put(self.three)
            before, over = self.program.done('list', 'disk'), threading.Event()
            mover = threading.Thread(target=self.move_copies, args=(over,))
            mover.start()
            asked = [(self.by_turns(i), ['install', 'disk', library(i, 0)], b'') for i in range(3, COUNT)]
            if self.tool:
                asked += [(Waiting(self.tool), ['install', 'disk', library(i, 0)], b'') for i in (COUNT + 1, COUNT + 2)]
            answers = self.at_once(asked)
            over.set()
            mover.join()
            self.judge(kind, before, answers, others=True)

    def move_copies(self, over):
        while not over.is_set():
            number = os.open(self.disk, os.O_RDONLY)
            try:
                fcntl.flock(number, fcntl.LOCK_EX | fcntl.LOCK_NB)
                if os.path.samestat(os.fstat(number), os.stat(self.disk)):
                    shutil.copyfile(self.disk, self.folder / 'other')
                    os.replace(self.folder / 'other', self.disk)
            except BlockingIOError:
                pass
            finally:
                os.close(number)
            time.sleep(0.002)

    def exchanged(self):
        """Exchanges two registries again and again, without a lock: a list shows one of the two."""
        kind, good = 'other registries put in its place, beside lists', []
        for content in (self.empty, self.three):
            good.append(self.listing_of(content))
        for turn in range(self.count):
            over = threading.Event()
            def move():
                while not over.is_set():
                    for content in (self.empty, self.three):
                        (self.folder / 'other').write_bytes(content)
                        os.replace(self.folder / 'other', self.disk)
            mover = threading.Thread(target=move)
            mover.start()
            answers = self.at_once([(self.by_turns(i), ['list', 'disk'], b'') for i in range(COUNT)])
            over.set()
            mover.join()
            for by, _, ended in answers:
                shown = ended.status == 0 and ended.output in good
                self.checks.note(kind, 'listing' if shown else 'held' if by.unread(ended, 'disk') else 'wrong')
                self.checks.want(kind, shown or by.unread(ended, 'disk'), by.name, ended)

    def formats(self):
        for number in (2, COUNT):
            for turn in range(self.count):
                self.format_at_once(f'{number} formats', [self.program] * number)
                if self.tool:
                    self.format_at_once(f'{number} formats, half by the C library', [self.by_turns(i + turn) for i in range(number)])

    def format_at_once(self, kind, programs):
        self.disk.unlink(missing_ok=True)
        answers = self.at_once([(by, ['format', 'disk', SECTORS], b'') for by in programs])
        made = 0
        for by, words, ended in answers:
            answer = self.answer(by, words, ended, None, None)
            made += answer == 'ok'
            self.checks.note(kind, answer)
            self.checks.want(kind, answer != 'wrong', by.name, ended)
        listed = self.program.run(['list', 'disk'])
        self.checks.want(kind, made == 1, made, 'were answered ok')
        self.checks.want(kind, listed[:3] == (0, b'end\n', b''), 'at the end:', listed)
        self.checks.want(kind, looks(self.disk) and looks(self.disk)[1] == self.empty, 'other bytes than one format leaves')
        self.checks.want(kind, not (self.folder / '.disk.rlibreg-new').exists(), 'the other name is left')

    def holders(self):
        """Tries a locked disk: the answers of the commands, and the times until they come."""
        for by in filter(None, (self.program, self.tool)):
            for how, kind in ((fcntl.LOCK_SH, f'{by.name}: a reader holds the disk'), (fcntl.LOCK_EX, f'{by.name}: a writer holds the disk')):
                self.put(self.three)
                plain = {what: by.done(what, 'disk', *words) for what, words in (('list', []), ('bind', ['program', '0x10000']))}
                asked = [it[1:] for it in self.commands() if by is self.program or it[1][0] != 'script']
                tries = [it for it in asked if by is self.program and it[0][0] not in LOOKS]
                allowed = plain if how == fcntl.LOCK_SH else {}
                with held_file(self.disk, how):
                    for words, given in [it for it in asked if it not in tries]:
                        ended = soon(lambda: by.run(words, given), AT_ONCE)
                        self.held_command(kind, by, words, ended, allowed)
                    ended = side_by_side([lambda it=it: by.run(*it) for it in tries])
                    for (words, _), one in zip(tries, ended):
                        self.held_command(kind, by, words, one, allowed, TRIES)
                    self.before_the_disk(kind)
        kind = 'a dead process holds nothing'
        self.put(self.three)
        process = self.program.begin(['script', 'disk'])
        time.sleep(0.1)
        process.kill()
        self.program.end(process)
        self.checks.want(kind, self.program.run(['remove', 'disk', name(2).decode()])[:2] == (0, b'ok\n'), 'after a kill of a script')

    def held_command(self, kind, by, words, ended, allowed, least=0.0):
        good = ended[:3] == (0, allowed[words[0]], b'') if words[0] in allowed else by.held(ended, 'disk')
        self.checks.want(kind, good, words, ended)
        self.checks.want(kind, least <= ended.seconds < least + (AGAIN if least else AT_ONCE), words, 'took', ended.seconds)
        self.checks.want(kind, self.disk.read_bytes() == self.three, words, 'wrote')
        self.checks.note(kind, 'held' if by.held(ended, 'disk') else 'done' if good else 'wrong')

    def before_the_disk(self, kind):
        """Tries refusals that come before the disk is opened."""
        for words, status, errors in ((['install', 'disk', 'none'], 3, b'rlibreg: cannot read none\n'),
                                      (['bind', 'disk', 'none', '0x10000'], 3, b'rlibreg: cannot read none\n'),
                                      (['bind', 'disk', 'program', '10'], 2, b'rlibreg: bad base\n')):
            ended = self.program.run(words)
            self.checks.want(kind, ended[:3] == (status, b'', errors), words, ended)

    def traced(self, words, given, injected=()):
        """Runs the command under strace. Returns how the command ended, and the reads that it made of the disk."""
        log = self.folder / f'calls-{threading.get_ident()}'
        wrapped = ['strace', '-f', '-qq', '-o', str(log), '-P', str(self.disk)] + [it for one in injected for it in ('-e', f'inject={one}')]
        ended = self.program.run(words, given, wrapped)
        calls = [line.split()[1].split('(')[0] for line in log.read_text().splitlines() if '(' in line]
        return ended, [call for call in calls if call in READS]

    def unlocked(self):
        """Checks that no command reads a locked disk, or a disk on a file system that can't lock."""
        for fault in (None, 'ENOLCK', 'EOPNOTSUPP', 'ENOSYS', 'EIO', 'EBADF'):
            kind, injected = (f'no lock: {fault}', [f'flock:error={fault}']) if fault else ('nothing is read of a held disk', [])
            self.put(self.three)
            with contextlib.nullcontext() if fault else held_file(self.disk, fcntl.LOCK_EX):
                asked = self.commands()
                found = side_by_side([lambda it=it: self.traced(it[1], it[2], injected) for it in asked])
            for (_, words, _), (ended, calls) in zip(asked, found):
                good = self.program.held(ended, 'disk') and not calls and self.disk.read_bytes() == self.three
                self.checks.want(kind, good, words, ended, calls)

    def interrupted(self):
        """Checks that the program repeats a request for a lock that a signal interrupts, or gives up."""
        for _, words, given in self.commands():
            self.put(self.three)
            before = self.program.done('list', 'disk')
            ended, _ = self.traced(words, given, ['flock:error=EINTR:when=1'])
            listed = self.program.run(['list', 'disk'])
            self.judge('an interrupted lock', before, [(self.program, words, ended), (self.program, ['list', 'disk'], listed)])

    def between_opening_and_locking(self):
        """Delays the lock by a second; by then another registry is in the disk's place."""
        kind = 'put in its place between opening and locking'
        for words in (['install', 'disk', library(3, 0)], ['list', 'disk']):
            self.put(self.empty)
            os.link(self.disk, self.folder / 'first')
            late = ['-e', 'trace=flock', '-e', 'inject=flock:delay_enter=1000000:when=1']
            process = self.program.begin(words, ['strace', '-f', '-qq', '-o', '/dev/null', *late])
            time.sleep(0.5)
            (self.folder / 'other').write_bytes(self.three)
            os.replace(self.folder / 'other', self.disk)
            ended = self.program.end(process)
            wanted = State(b'end\n')
            wanted.libraries = {name(i).decode(): (self.folder / library(i, 0)).stat().st_size for i in range(3 + (words[0] == 'install'))}
            self.checks.want(kind, same(self.state()[0], wanted) and ended.status == 0, words, ended, self.state()[1])
            self.checks.want(kind, words[0] != 'list' or same(State(ended.output), wanted), words, ended)
            self.checks.want(kind, (self.folder / 'first').read_bytes() == self.empty, words, 'wrote into the file that stood there')
            (self.folder / 'first').unlink()

    def run(self):
        self.holders()
        if has('strace'):
            self.unlocked()
            self.interrupted()
            self.between_opening_and_locking()
        else:
            self.checks.skip('locks that fail or come late', 'there is no strace')
        for part in (self.installs, self.until_done, self.all_commands, self.lists, self.moved, self.exchanged, self.formats):
            part()
        if self.tool:
            self.beside()
        else:
            self.checks.skip('the program beside the C library', 'without --clib TOOL')
        return self.checks.end('together')


class Waiting:
    """The C library's program, which waits for a locked disk."""

    def __init__(self, tool):
        self.tool, self.name = tool, 'C library, waiting'

    def begin(self, words):
        return self.tool.begin(['wait', *words])

    def end(self, process, given):
        return self.tool.end(process, given)

    def held(self, ended, disk):
        return False


def main():
    words = argparse.ArgumentParser()
    words.add_argument('program', type=Path)
    words.add_argument('folder', type=Path)
    words.add_argument('--clib', type=Path)
    words.add_argument('--rounds', type=int, default=10)
    given = words.parse_args()
    folder = emptied(given.folder)
    status = Rounds(given.program, given.clib, folder.resolve(), given.rounds).run()
    shutil.rmtree(folder)
    sys.exit(status)


if __name__ == '__main__':
    main()

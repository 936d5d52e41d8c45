"""Machines that run the program `rlibreg` over the stand-in for a kernel in `medium.c`: their files and media before and
after a run, the log of the calls that were made, and the contents after a power cut. For the other scripts here; needs
gcc."""

import collections
import itertools
import os
import random
import signal
import subprocess
import zlib
from pathlib import Path

from libraries import Made
from registries import SECTOR

SECTORS, ROOTS, PAGE, PAGES, CUT_STATUS = 64, 1024, 4096, 1024, 86
# The script ends if a run takes more than this number of seconds.
LONGEST = 60
DISK, NEW = 'disk', 'new'
FILES = {DISK: 'disk', NEW: '.disk.rlibreg-new'}
LIBRARIES = {
    'a.so': (b'a', Made(b'a', exports=[b'fa'], data=600)), 'a2.so': (b'a', Made(b'a', exports=[b'fa', b'more'], data=1500)),
    'b.so': (b'b', Made(b'b', exports=[b'fb'], data=900)), 'b2.so': (b'b', Made(b'b', exports=[b'other', b'fb'], data=2500)),
    'c.so': (b'c', Made(b'c', exports=[b'fc'], data=700)),
}
PROGRAM = Made(needed=[b'a'], undefined=[b'fa'], relocations=[(1, 0, 1, 0)], behind=64)
STEPS = ('sync', 'write', 'truncate', 'link', 'unlink', 'rename')
SOURCES = Path(__file__).resolve().parent

# The bytes of the file and the names that lead to it; the medium's bytes and names; the dirty pages; and whether the
# medium gets no more names.
Held = collections.namedtuple('Held', 'content names medium named dirty lost', defaults=[False])
Ended = collections.namedtuple('Ended', 'status output held log')


def clean(content, names=frozenset([DISK])):
    """Returns a machine that has just started, whose medium has a file with these bytes, or no file."""
    names = frozenset() if content is None else names
    return Held(content, names, content or b'', names, frozenset())


def is_shown_otherwise(held):
    """Returns whether the medium has other roots than the file shows, and the pages of the roots aren't dirty."""
    return bool(held.names) and 0 not in held.dirty and held.content[:ROOTS] != held.medium[:ROOTS]


def steps_of(log):
    """Returns the number of steps of a run, as the stand-in counts them."""
    return sum(line[0] in STEPS or line[0] == 'open' and line[3] == 'made' for line in log)


def syncs_of(log):
    return sum(line[0] == 'sync' for line in log)


def has_failed(log):
    return any(line[0] in ('sync', 'names') and line[-1] == '-1' for line in log)


class Machine:
    """Runs commands. Each is a tuple of its name and its arguments; a script has its lines as such tuples. An argument
    that is text is a file's name, and an argument of bytes is passed as it is. The same run is made only once."""

    def __init__(self, program, folder, body):
        self.program, self.folder, self.kept = str(program), folder, folder / 'kept'
        self.known, self.contents, self.files, self.runs = {}, {}, {}, 0
        assert b'/ld-' in Path(program).read_bytes()[:PAGE], f'{program} is static, and takes no library before its own'
        self.kept.mkdir()
        for file, (name, made) in LIBRARIES.items():
            self.files[file] = name, made.file
            (folder / file).write_bytes(made.file)
        (folder / 'program').write_bytes(PROGRAM.file)
        loaded = [self.compiled(name) for name in (['bodies'] if body else []) + ['medium']]
        self.facts = {'MEDIUM': str(self.kept), 'MEDIUM_DISK': str(folder / 'disk'), 'LD_PRELOAD': ' '.join(loaded), 'BODY': body or ''}

    def compiled(self, name):
        library = str(self.folder / f'{name}.so')
        words = ['gcc', '-std=c11', '-O2', '-U_FORTIFY_SOURCE', '-Wall', '-Wextra', '-shared', '-fPIC', '-o', library]
        subprocess.run([*words, str(SOURCES / f'{name}.c')], check=True)
        return library

    def put(self, held):
        for file in FILES.values():
            (self.folder / file).unlink(missing_ok=True)
        for number, name in enumerate(sorted(held.names)):
            if number:
                os.link(self.folder / FILES[min(held.names)], self.folder / FILES[name])
            else:
                (self.folder / FILES[name]).write_bytes(held.content)
        (self.kept / 'medium').write_bytes(held.medium)
        dirty = bytearray(PAGES)
        for page in held.dirty:
            dirty[page] = 1
        (self.kept / 'state').write_bytes(bytes([*(name in held.named for name in (DISK, NEW)), held.lost]) + dirty)

    def once(self, content):
        """Returns the content. Equal bytes are kept only once."""
        return self.contents.setdefault(content, content)

    def held(self):
        names = frozenset(name for name, file in FILES.items() if (self.folder / file).exists())
        content = self.once((self.folder / FILES[min(names)]).read_bytes()) if names else None
        state = (self.kept / 'state').read_bytes()
        named = frozenset(name for name, there in zip((DISK, NEW), state) if there)
        medium = self.once((self.kept / 'medium').read_bytes())
        return Held(content, names, medium, named, frozenset(page for page in range(PAGES) if state[3 + page]), bool(state[2]))

    def words(self, command):
        others = [] if command[0] == 'script' else [word if isinstance(word, str) else word.decode() for word in command[1:]]
        return [self.program, command[0], 'disk', *others]

    def line(self, words):
        others = [self.files[word][1].hex().encode() if isinstance(word, str) else word for word in words[1:]]
        return b' '.join([words[0].encode(), *others]) + b'\n'

    def run(self, held, command, **how):
        """Runs a command on a machine. `how` has variables of the stand-in."""
        key = held, command, tuple(sorted(how.items()))
        if key not in self.known:
            self.put(held)
            self.known[key] = self.run_here(command, how)
        return self.known[key]

    def run_here(self, command, how):
        """Runs a command on the current files and medium."""
        self.runs += 1
        (self.kept / 'log').write_bytes(b'')
        (self.folder / 'lines').write_bytes(b''.join(map(self.line, command[1:])) if command[0] == 'script' else b'')
        facts = {**self.facts, **{f'MEDIUM_{name.upper()}': str(value) for name, value in how.items()}}
        signal.alarm(LONGEST)
        with open(self.folder / 'lines', 'rb') as lines:
            ended = subprocess.run(
                self.words(command), cwd=self.folder, env=facts, close_fds=False,
                stdin=lines, stdout=subprocess.PIPE, stderr=subprocess.DEVNULL)
        signal.alarm(0)
        log = tuple(tuple(line.split()) for line in (self.kept / 'log').read_text().splitlines())
        return Ended(ended.returncode, ended.stdout, self.held(), log)


def some_of(places, trials, chance):
    """Yields sets of the sectors that have reached the medium: none, all, those of the page of the roots, all others,
    and mixtures."""
    yield from (set(), set(places), {at for at in places if at < PAGE}, {at for at in places if at >= PAGE})
    if len(places) <= 4:
        yield from (set(some) for count in range(1, len(places)) for some in itertools.combinations(places, count))
        return
    for _ in range(trials):
        pages = {page for page in sorted({at // PAGE for at in places}) if chance.random() < 0.5}
        yield {at for at in places if at // PAGE in pages}
        yield {at for at in places if chance.random() < 0.5}


def mixtures(held, trials):
    """Yields the bytes that may be found after a cut: the medium's, with all, some or none of the sectors of dirty
    pages."""
    old = held.medium.ljust(len(held.content), b'\0')
    places = [at for at in range(0, len(old), SECTOR) if at // PAGE in held.dirty and old[at:at + SECTOR] != held.content[at:at + SECTOR]]
    for new in set(map(frozenset, some_of(places, trials, random.Random(zlib.crc32(held.content))))):
        mixed = bytearray(old)
        for at in new:
            mixed[at:at + SECTOR] = held.content[at:at + SECTOR]
        yield bytes(mixed)


def found(held, trials):
    """Yields the machines that may be found after a cut: each name, and the length, is that of the medium or the latest
    one."""
    sure, perhaps = held.names & held.named, sorted(held.names ^ held.named)
    for count in range(len(perhaps) + 1):
        for some in itertools.combinations(perhaps, count):
            names = sure.union(some)
            if not names or held.content is None:
                yield clean(None)
                continue
            for length, mixed in itertools.product({len(held.medium), len(held.content)}, mixtures(held, trials)):
                yield clean(mixed[:length], names)

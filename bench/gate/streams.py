"""Runs each command of the program `rlibreg`, and of `rlibreg-tool`, with standard streams that are closed, that fail, or
that are the disk itself, and with DISK, FILE and PROGRAM given as numbers of open files; `faults.py` calls it.

After each run the disk has exactly the bytes from before the command, or those that the command leaves if it runs by
itself, and no other file has changed. The script prints, for each kind of stream, how many runs ended with which status.
"""

import collections
import itertools
import os
import pty
import shutil
import signal
import socket
import subprocess

INPUT, OUTPUT, ERRORS = 0, 1, 2
SUBSETS = [set(some) for count in (1, 2, 3) for some in itertools.combinations((INPUT, OUTPUT, ERRORS), count)]
NAMES = {INPUT: '/dev/stdin', OUTPUT: '/dev/stdout', ERRORS: '/dev/stderr'}
WAIT = 0.5

Ended = collections.namedtuple('Ended', 'status output errors disk')


class Streams:
    """The streams of the program `rlibreg`."""

    NAME, BAD_LINE = 'rlibreg', b'bad command line'
    UNWRITTEN = b''  # the message if the output fails
    # The command that reads lines; some lines; the number of reads that these lines take; and the status if there are
    # no lines.
    READER, LINES, READS, NO_LINES = 'script', b'preload b a\nlist\n', 2, 0

    def __init__(self, program, folder, one, two, old):
        self.program, self.folder, self.disk = str(program), folder, folder / 'disk'
        zeros = bytes(len(one))
        self.starts = {'a registry': two, 'version 1': old, 'zeros': zeros, 'no file': None}
        self.one = one
        self.wrong = 0
        self.ends = collections.defaultdict(collections.Counter)

    def commands(self, disk='disk', files=lambda name: name):
        b, b2, program = files('b.so'), files('b2.so'), files('program')
        return [
            ['image', files('alone'), '0x100000'], ['format', disk, '64'], ['install', disk, b], ['replace', disk, b2],
            ['remove', disk, 'b'], ['preload', disk, 'b', 'a'], ['list', disk], ['bind', disk, program, '0x100000'], ['script', disk],
            ['upgrade', disk],
        ]

    def with_disk(self, disk):
        """Returns commands that look for a disk of this name, each with its status and message if a stream leads to
        the disk."""
        unread = 3, f'{self.NAME}: cannot read {disk}\n'.encode()
        commands = [words for words in self.commands(disk) if disk in words] + [['install', disk, 'none']]
        return [(words, *unread) for words in commands] + [(['bind', disk, 'program', '10'], 2, b'rlibreg: bad base\n')]

    def parts(self):
        return [self.closed, self.numbered, self.the_disk, self.files_of_streams, self.odd, self.without_proc, self.interrupted,
                self.odd_words]

    def start_of(self, words, start):
        """Returns the disk that a command starts from: an install gets a registry without its library."""
        return self.one if words[0] == 'install' and start == 'a registry' else self.starts[start]

    def put(self, content):
        self.disk.unlink(missing_ok=True)
        if content is not None:
            self.disk.write_bytes(content)

    def found(self):
        return self.disk.read_bytes() if self.disk.exists() else None

    def others(self):
        return {path.name: path.read_bytes() for path in self.folder.iterdir() if path.name != 'disk'}

    def run(self, words, given=None, closed=(), passed=(), wait=60):
        """Runs the command; `given` has open files for some of the streams. A run that doesn't end by itself is
        killed."""
        given = given or {}
        def close():
            for number in closed:
                os.close(number)
        into = {INPUT: subprocess.PIPE, OUTPUT: subprocess.PIPE, ERRORS: subprocess.PIPE, **given}
        process = subprocess.Popen(
            [self.program, *words], cwd=self.folder, preexec_fn=close, pass_fds=passed,
            stdin=into[INPUT], stdout=into[OUTPUT], stderr=into[ERRORS])
        try:
            output, errors = process.communicate(self.LINES if INPUT not in given else None, timeout=wait)
        except subprocess.TimeoutExpired:
            process.kill()
            output, errors = process.communicate()
        except BrokenPipeError:
            output, errors = process.stdout.read(), process.stderr.read()
            process.wait()
        return Ended(process.returncode, output, errors, self.found())

    def plain(self, words, start, **how):
        self.put(self.start_of(words, start))
        return self.run(words, **how)

    def check(self, kind, words, start, ended, holds, before, after):
        """Notes how a run ended, and whether it was right."""
        if not holds or ended.disk not in (before, after):
            self.wrong += 1
            print(f'WRONG: {kind}: {words} on {start}: {ended.status} {ended.output} {ended.errors}')
        disk = 'no change' if before == after else 'as after' if ended.disk == after else 'as before'
        self.ends[kind][(ended.status, disk)] += 1

    def expected(self, words, plain, failing):
        """Returns the status if some streams fail, for a command that writes text to the output, or for a script that
        was run."""
        reads = words[0] == self.READER and plain.output
        return 3 if OUTPUT in failing and plain.output or INPUT in failing and reads and plain.status == 0 else plain.status

    def closed_streams(self, kind, words, start, plain, **how):
        """Tries each of the streams closed, each two of them, and all three."""
        before = self.start_of(words, start)
        for closed in SUBSETS:
            self.put(before)
            ended = self.run(words, closed=closed, **how)
            unread = INPUT in closed and words[0] == self.READER
            holds = ended.status == self.expected(words, plain, closed)
            holds &= unread or ended.output == (b'' if OUTPUT in closed else plain.output)
            said = plain.errors or (self.UNWRITTEN if OUTPUT in closed and plain.output else b'')
            holds &= unread or ended.errors == (b'' if ERRORS in closed else said)
            holds &= ended.disk == (before if unread or words[0] == 'update' and OUTPUT in closed else plain.disk)
            self.check(kind, words, start, ended, holds, before, plain.disk)

    def closed(self):
        for start in self.starts:
            for words in self.commands():
                self.closed_streams('closed, ' + start, words, start, self.plain(words, start))

    def numbered(self):
        """Tries the commands with DISK, FILE and PROGRAM as the numbers of open files: with all streams, and with closed ones."""
        for start in ('a registry', 'version 1', 'zeros'):
            for form in ('/dev/fd/%d', '/proc/self/fd/%d'):
                for at, ordinary in enumerate(self.commands()):
                    before = self.start_of(ordinary, start)
                    after = self.plain(ordinary, start)
                    opened = {}
                    def number(name):
                        opened[name] = os.open(self.folder / name, os.O_RDONLY)
                        return form % opened[name]
                    self.put(before)
                    # The file stays the same file, because its number is open: it is written again in its place.
                    self.put = self.rewrite
                    opened['disk'] = os.open(self.disk, os.O_RDWR)
                    words = self.commands(form % opened['disk'], number)[at]
                    passed = tuple(opened.values())
                    plain = self.run(words, passed=passed)
                    # The folder of a name such as /dev/fd/N can't be synced, so `format` makes nothing.
                    holds = words[0] == 'format' or (plain.status, plain.output, plain.disk) == (after.status, after.output, after.disk)
                    self.check('numbers of files', ordinary, start, plain, holds, before, after.disk)
                    self.closed_streams('numbers of files, closed', words, start, plain, passed=passed)
                    del self.put
                    for file in opened.values():
                        os.close(file)

    def rewrite(self, content):
        with open(self.disk, 'r+b') as file:
            file.write(content)
            file.truncate()

    def the_disk(self):
        """Tries a stream that leads to the disk itself: nothing is written, except a message on another stream.
        Standard input is checked only for `script` and `update`; to every other command, a disk that standard input
        leads to is a disk like any other."""
        contents = {'a registry': self.starts['a registry'], 'zeros': self.starts['zeros'], 'an empty file': b'', '24 bytes': bytes(24)}
        for (start, content), stream in itertools.product(contents.items(), NAMES):
            for name, more in itertools.product(('disk', 'link', NAMES[stream], f'/proc/self/fd/{stream}', f'/dev/fd/{stream}'), (0, os.O_APPEND)):
                for words, status, message in self.with_disk(name):
                    if stream == INPUT and words[0] != self.READER:
                        self.behind_input(name, words, start, content, more)
                        continue
                    ended = self.behind(stream, words, content, more)
                    holds = ended.status == status and not ended.output
                    holds &= ended.errors == (None if stream == ERRORS else message) or stream == OUTPUT and ended.errors == message
                    self.check(f'the disk behind {NAMES[stream]}', words, start, ended, holds, content, content)

    def behind(self, stream, words, content, more):
        """Runs the command with a stream that leads to the disk, which also has the name `link`."""
        self.put(content)
        link = self.folder / 'link'
        os.link(self.disk, link)
        file = os.open(self.disk, os.O_RDWR | more)
        ended = self.run(words, {stream: file})
        os.close(file)
        link.unlink()
        return ended

    def behind_input(self, name, words, start, content, more):
        """Checks that a standard input which is the disk makes no difference. If the disk's name is that of the stream,
        `format` makes nothing, because its folder can't be synced."""
        self.put(content)
        plain = self.run([words[0], 'disk', *words[2:]])
        ended = self.behind(INPUT, words, content, more)
        holds = ended == plain or words[0] == 'format' and name in ('/dev/stdin', '/dev/fd/0', '/proc/self/fd/0') and ended.status == 3
        self.check('the disk behind /dev/stdin', words, start, ended, holds, content, plain.disk)

    def files_of_streams(self):
        """Tries FILE and PROGRAM on standard input: reading does no harm."""
        for at, ordinary in enumerate(self.commands()):
            name = {'image': 'alone', 'install': 'b.so', 'replace': 'b2.so', 'bind': 'program'}.get(ordinary[0])
            if name:
                plain = self.plain(ordinary, 'a registry')
                before = self.start_of(ordinary, 'a registry')
                self.put(before)
                with open(self.folder / name, 'rb') as file:
                    ended = self.run(self.commands(files=lambda _: '/dev/stdin')[at], {INPUT: file})
                self.check('FILE on standard input', ordinary, 'a registry', ended, ended == plain, before, plain.disk)

    def odd(self):
        """Tries streams of other kinds, each with the expected result."""
        for kind, stream, statuses, made in kinds(self.LINES, self.NO_LINES):
            for start, words in itertools.product(self.starts, self.odd_commands()):
                plain, before = self.plain(words, start), self.start_of(words, start)
                self.put(before)
                given, behind, late = made()
                wait = WAIT if -signal.SIGKILL in statuses else 60
                ended = self.run(words, {stream: given}, wait=wait) if not late else self.hung_up(words, stream, given, behind)
                for end in (given, behind):
                    if end is not None and not (late and end is behind):
                        end.close() if hasattr(end, 'close') else os.close(end)
                uses = {INPUT: words[0] == self.READER and plain.status == 0, OUTPUT: plain.output, ERRORS: plain.errors}[stream]
                holds = ended.status in ((plain.status, *statuses) if not uses or stream == ERRORS else statuses)
                self.check(kind, words, start, ended, holds, before, plain.disk)

    def odd_commands(self):
        return self.commands()

    def hung_up(self, words, stream, given, behind):
        """Closes the other end of a terminal before the command runs."""
        os.close(behind)
        return self.run(words, {stream: given})

    def without_proc(self):
        """Checks that the program still prints a message if it can't find out which file a stream leads to."""
        hidden = ['unshare', '-m', 'sh', '-c', 'mount -t tmpfs none /proc && exec "$@"', 'sh']
        if os.getuid() or subprocess.run([*hidden, 'true'], capture_output=True).returncode:
            print('skipped: no /proc: nothing can be mounted')
            return
        for name in ('none', 'disk'):
            self.put(None)
            self.disk.mkdir()
            ended = subprocess.run([*hidden, self.program, 'list', name], cwd=self.folder, capture_output=True)
            self.disk.rmdir()
            plain = Ended(ended.returncode, ended.stdout, ended.stderr, None)
            self.check('no /proc', ['list', name], 'a folder', plain, plain[:3] == (3, b'', f'rlibreg: cannot read {name}\n'.encode()), None, None)

    def interrupted(self):
        """Checks that the program repeats a read of lines that a signal interrupts: the first read, and the read
        that finds the end of a script."""
        if not shutil.which('strace'):
            print('skipped: an interrupted read: there is no strace')
            return
        plain = self.plain([self.READER, 'disk'], 'a registry')
        for number in range(1, self.READS + 1):
            self.put(self.starts['a registry'])
            lines = self.folder / 'lines'
            lines.write_bytes(self.LINES)
            with open(lines, 'rb') as given:
                ended = subprocess.run(
                    ['strace', '-qq', '-o', 'log', '-P', lines, '-e', f'inject=read:error=EINTR:when={number}', self.program, self.READER, 'disk'],
                    cwd=self.folder, stdin=given, capture_output=True)
            log = self.folder / 'log'
            holds = 'EINTR' in log.read_text() and (ended.returncode, ended.stdout) == (plain.status, plain.output)
            ended = Ended(ended.returncode, ended.stdout, ended.stderr, self.found())
            self.check('an interrupted read', [self.READER, 'disk'], 'a registry', ended, holds, self.starts['a registry'], plain.disk)
            lines.unlink()
            log.unlink()

    def odd_words(self):
        """Tries an argument that isn't UTF-8, at each place."""
        before = self.starts['a registry']
        for words in self.commands():
            for at in range(len(words)):
                self.put(before)
                ended = self.run([*words[:at], b'\xff', *words[at + 1:]])
                holds = (ended.status, ended.output) == (2, b'') and self.BAD_LINE in ended.errors
                self.check("a word that isn't UTF-8", words, 'a registry', ended, holds, before, before)


class ToolStreams(Streams):
    """The streams of the program `rlibreg-tool`. Only `update`, which reads standard input, tries other kinds of
    streams."""

    NAME, BAD_LINE = 'rlibreg-tool', b'usage: rlibreg-tool '
    UNWRITTEN = b'rlibreg-tool: cannot write\n'
    READER, LINES, READS, NO_LINES = 'update', b'preload b a\nlist\ncommit\n', 1, 1

    def commands(self, disk='disk', files=lambda name: name):
        return [
            ['info', disk], ['check', disk], ['file', disk, 'b'], ['dump', disk], ['replace', disk, files('b2.so')],
            ['remove', disk, 'b'], ['executable', disk, files('alone'), '0x400000'], ['update', disk],
        ]

    def with_disk(self, disk):
        unread = 3, f'{self.NAME}: cannot read {disk}\n'.encode()
        return [(words, *unread) for words in self.commands(disk)]

    def parts(self):
        return [self.closed, self.the_disk, self.odd, self.interrupted, self.odd_words]

    def odd_commands(self):
        return [words for words in self.commands() if words[0] == self.READER]


def full_pipe(blocking):
    ours, theirs = os.pipe()
    os.set_blocking(theirs, False)
    try:
        while True:
            os.write(theirs, bytes(4096))
    except BlockingIOError:
        os.set_blocking(theirs, blocking)
    return theirs, ours, False


def gone_reader():
    ours, theirs = os.pipe()
    os.close(ours)
    return theirs, None, False


def gone_peer():
    ours, theirs = socket.socketpair()
    ours.close()
    return theirs, None, False


def talking_socket(lines):
    ours, theirs = socket.socketpair()
    ours.sendall(lines)
    ours.shutdown(socket.SHUT_WR)
    return theirs, ours, False


def terminal():
    ours, theirs = pty.openpty()
    return theirs, ours, True


def silent_pipe():
    theirs, ours = os.pipe()
    os.set_blocking(theirs, False)
    return theirs, ours, False


def folder():
    return os.open('/', os.O_RDONLY), None, False


def device(name, mode):
    return lambda: (os.open(name, mode), None, False)


def kinds(lines, no_lines):
    """Yields kinds of streams: which of the three, the statuses if it is used, and how it is made, a socket with
    lines. A process that Python starts has SIGPIPE as the system has it, so the signal would end a process that
    doesn't ignore it."""
    for stream, name in NAMES.items():
        yield f'a folder as {name}', stream, (3,), folder
        yield f'a socket as {name}', stream, (0, 1, 3), lambda: talking_socket(lines)
        yield f'a terminal that has hung up as {name}', stream, (no_lines,) if stream == INPUT else (3,), terminal
    yield 'a pipe without a byte that does not wait as /dev/stdin', INPUT, (3,), silent_pipe
    yield '/dev/full as /dev/stdout', OUTPUT, (3,), device('/dev/full', os.O_WRONLY)
    for stream in (OUTPUT, ERRORS):
        yield f'a full pipe that does not wait as {NAMES[stream]}', stream, (3,), lambda: full_pipe(False)
        yield f'a full pipe that waits, then a kill, as {NAMES[stream]}', stream, (-signal.SIGKILL,), lambda: full_pipe(True)
        yield f'a pipe whose reader has gone as {NAMES[stream]}', stream, (3,), gone_reader
        yield f'a socket whose peer has gone as {NAMES[stream]}', stream, (3,), gone_peer


def try_streams(kind, program, folder, *disks):
    """Tries everything for a program of this kind. Returns whether everything was right."""
    streams = kind(program, folder, *disks)
    files = streams.others()
    for part in streams.parts():
        part()
    assert streams.others() == files, 'another file has changed'
    for kind, ends in streams.ends.items():
        told = ', '.join(f'{count} with {status}, disk {disk}' for (status, disk), count in sorted(ends.items(), key=str))
        print(f'{kind}: {sum(ends.values())} runs: {told}', flush=True)
    print(f'streams of {streams.NAME}: {sum(sum(ends.values()) for ends in streams.ends.values())} runs, {streams.wrong} wrong')
    return streams.wrong == 0

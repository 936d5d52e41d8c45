"""The parts that the scripts about processes, making and media share: they run the program and the C library's test program
in a folder, and count the checks and the faults."""

import collections
import contextlib
import fcntl
import os
import shutil
import stat
import subprocess
import time

SHOWN = 3
WAIT = 60
ATTEMPTS = 5
NOBODY = ['setpriv', '--reuid=65534', '--regid=65534', '--clear-groups']

Ended = collections.namedtuple('Ended', 'status output errors seconds')


class Program:
    """The program `rlibreg` in a folder. The status of a run is None if it had to be killed."""

    name, more = 'rlibreg', {}

    def __init__(self, path, folder):
        self.path, self.folder = str(path.resolve()), folder

    def begin(self, words, wrapped=(), **streams):
        into = {'stdin': subprocess.PIPE, 'stdout': subprocess.PIPE, 'stderr': subprocess.PIPE, **streams}
        start = time.perf_counter()
        process = subprocess.Popen([*wrapped, self.path, *words], cwd=self.folder, env={**os.environ, **self.more}, **into)
        process.begun = start
        return process

    def end(self, process, given=b'', wait=WAIT):
        try:
            output, errors = process.communicate(given if process.stdin else None, timeout=wait)
            status = process.returncode
        except subprocess.TimeoutExpired:
            process.kill()
            output, errors = process.communicate()
            status = None
        return Ended(status, output, errors, time.perf_counter() - process.begun)

    def run(self, words, given=b'', wrapped=(), wait=WAIT, **streams):
        return self.end(self.begin(words, wrapped, **streams), given, wait)

    def done(self, *words):
        ended = self.run(words)
        assert ended.status == 0, (words, ended)
        return ended.output

    def unread(self, ended, disk):
        """Returns whether a run printed only the message that the disk can't be read."""
        return ended[:3] == (3, b'', f'rlibreg: cannot read {disk}\n'.encode())

    held = unread


class CLibrary(Program):
    """The program over the C library, c/tests/library/tool.c, which takes the same arguments as `rlibreg`."""

    # A program with the address sanitizer must not search for leaks under strace.
    name, more = 'C library', {'ASAN_OPTIONS': 'detect_leaks=0'}

    def unread(self, ended, disk):
        return ended.status == 9 and not ended.output and ended.errors.startswith(b'tool: ')

    def held(self, ended, disk):
        return ended[:3] == (9, b'', b'tool: the file is locked\n')


class Checks:
    """Counts what was checked, by kinds. Prints the first few faults of each kind."""

    def __init__(self):
        self.looked, self.wrong = collections.Counter(), collections.Counter()
        self.answers = collections.defaultdict(collections.Counter)

    def want(self, kind, holds, *found):
        self.looked[kind] += 1
        if not holds:
            self.wrong[kind] += 1
            if self.wrong[kind] <= SHOWN:
                print(f'WRONG: {kind}:', *(shortened(it) for it in found), flush=True)
        return holds

    def note(self, kind, answer):
        self.answers[kind][answer] += 1

    def skip(self, what, why):
        print(f'skipped: {what}: {why}', flush=True)

    def tell(self):
        """Prints a line for each kind."""
        for kind in self.looked:
            answers = ', '.join(f'{count} {answer}' for answer, count in sorted(self.answers[kind].items()))
            print(f'{kind}: {self.looked[kind]} looked at, {self.wrong[kind]} wrong' + (f' ({answers})' if answers else ''), flush=True)

    def end(self, name):
        """Prints the last line. Returns the exit status."""
        self.tell()
        print(f'{name}: {sum(self.looked.values())} looked at, {sum(self.wrong.values())} wrong')
        return 1 if sum(self.wrong.values()) else 0


def shortened(it):
    text = it if isinstance(it, str) else repr(it)
    return text if len(text) < 400 else text[:400] + '..'


def soon(run, most):
    """Runs a command that changes nothing. Runs it again if it took `most` seconds or more, because a busy machine may
    stop any process for seconds. Returns how the last run ended, or the first run that ended differently from the run
    before."""
    ended = run()
    for _ in range(ATTEMPTS - 1):
        if ended.seconds < most:
            break
        before, ended = ended, run()
        if ended[:3] != before[:3]:
            break
    return ended


@contextlib.contextmanager
def held_file(path, how):
    """Locks the file in this process, as another process would."""
    number = os.open(path, os.O_RDONLY)
    try:
        fcntl.flock(number, how | fcntl.LOCK_NB)
        yield number
    finally:
        os.close(number)


def emptied(folder):
    """Empties the folder if it exists, and makes it otherwise."""
    shutil.rmtree(folder, ignore_errors=True)
    folder.mkdir(parents=True)
    return folder


def looks(path):
    """Returns a description of the thing that a path names. Opens only regular files."""
    try:
        found = os.lstat(path)
    except FileNotFoundError:
        return None
    if stat.S_ISREG(found.st_mode):
        return found.st_ino, path.read_bytes()
    if stat.S_ISLNK(found.st_mode):
        return found.st_ino, os.readlink(path)
    if stat.S_ISDIR(found.st_mode):
        return found.st_ino, sorted((it.name, looks(it)) for it in path.iterdir())
    return found.st_ino, found.st_mode


def for_others(program, folder):
    """Returns a copy of a program that another user may run, or None."""
    copy = folder / 'for-others'
    shutil.copy(program, copy)
    copy.chmod(0o755)
    may = has('setpriv') and not subprocess.run([*NOBODY, 'test', '-x', str(copy)]).returncode
    return str(copy) if may else None


def has(tool):
    """Returns whether the machine has this tool."""
    return shutil.which(tool, path=os.environ.get('PATH', '') + ':/usr/sbin:/sbin') is not None

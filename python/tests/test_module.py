"""Tests of the module that no stored case can express: its types, its errors, locks, processes, threads and memory.

python3 -m unittest test_module
"""

import copy
import ctypes
import errno
import mmap
import os
import pickle
import re
import resource
import signal
import struct
import subprocess
import sys
import tempfile
import threading
import time
import unittest
from hashlib import sha256
from pathlib import Path

import rlibreg
from case_lists import DATA, file
from rlibreg import Registry, Status, _calls

HEADER = (Path(__file__).resolve().parents[2] / 'c' / 'rlibreg.h').read_text()
TOOL = os.environ.get('RLIBREG_TOOL')  # the file that a dump is compared with
LIBRARY, PROGRAM = DATA / 'strong.so', DATA / 'program-1.so'  # `b`, and a program that needs it
SECTORS = 512


def leave_namespace():
    """Puts children into a new process namespace. Returns 1 if that isn't permitted."""
    unshare, user, process = ctypes.CDLL(None).unshare, 0x10000000, 0x20000000
    return int(bool(unshare(process) and unshare(user | process)))


def spelt(name):
    """Returns a name in the program's format."""
    data = name.encode('utf-8', 'surrogateescape')
    plain = [chr(b) if 0x21 <= b <= 0x7e and b != 92 else f'\\x{b:02x}' for b in data]
    return ''.join(plain) or '\\e'


def bindings_text(given):
    """Returns the text of bindings, which is made from the objects of `given`."""
    lines = []
    for it in given.objects:
        lines.append(f'found {spelt(it.name)}' if it.base is None else
                     f'object 0x{it.base:016x} {spelt(it.name)}')
        for name in it.needs:
            lines.append(f'needs {spelt(name)}')
            lines += [f'missing {spelt(name)} {spelt(it.name)}'] * (name in it.missing)
        for symbol, found, address in it.bindings:
            lines.append(f'undefined {spelt(symbol)} {spelt(it.name)}' if address is None else
                         f'unresolved {spelt(symbol)}' if found is None else
                         f'binds {spelt(symbol)} 0x{address:016x} {spelt(found)}')
    return '\n'.join([*lines, 'end', ''])


class OnDisk(unittest.TestCase):
    """A test that has an empty registry."""

    def setUp(self):
        folder = tempfile.TemporaryDirectory(dir='.')
        self.addCleanup(folder.cleanup)
        self.disk = Path(folder.name) / 'disk'
        rlibreg.format(self.disk, SECTORS)

    def refused(self, number, call, *words):
        with self.assertRaises(rlibreg.Error) as found:
            call(*words)
        self.assertEqual(found.exception.number, number)
        return found.exception

    def in_a_child(self, call):
        child = os.fork()
        if not child:
            try:
                call()
                os._exit(0)
            except BaseException as error:
                os.write(2, f'{error!r}\n'.encode())
                os._exit(1)
        self.assertEqual(os.waitpid(child, 0)[1], 0)


class Header(unittest.TestCase):
    """Compares the module with rlibreg.h."""

    def test_statuses(self):
        flags = ('EXECUTE', 'WRITE', 'READ', 'READ_WRITE', 'WAIT')
        found = dict(re.findall(r'RLIBREG_(\w+) = (\d+)', HEADER))
        found = {name: int(number) for name, number in found.items()}
        self.assertEqual({name: found.pop(name) for name in flags},
                         {**rlibreg.Permissions.__members__, 'READ_WRITE': 1, 'WAIT': 2})
        for name in ('SOUND', 'OTHER_NAME', 'INSTALL', 'REPLACE', 'REMOVE', 'PRELOAD'):
            self.assertEqual(found.pop(name), getattr(_calls, name))
        self.assertEqual(found, dict(Status.__members__))

    def test_structures(self):
        for name, size in re.findall(r'sizeof\(rlibreg_(\w+)\) == (\d+)', HEADER):
            self.assertEqual(ctypes.sizeof(getattr(_calls, name.title())), int(size))
        for name, field, at in re.findall(r'offsetof\(rlibreg_(\w+), (\w+)\) == (\d+)', HEADER):
            self.assertEqual(getattr(getattr(_calls, name.title()), field).offset, int(at))

    def test_version(self):
        number = int(re.search(r'#define RLIBREG_VERSION (\d+)', HEADER)[1])
        self.assertEqual(rlibreg.version(), number)
        self.assertEqual(_calls.VERSION,
                         f'{number // 10000}.{number // 100 % 100}.{number % 100}')


class Arguments(OnDisk):
    def test_whatever_has_bytes_or_a_path(self):
        data = LIBRARY.read_bytes()
        spread = bytearray(2 * len(data))
        spread[::2] = data
        given = (data, bytearray(data), memoryview(data), memoryview(spread)[::2], LIBRARY,
                 str(LIBRARY))
        with Registry(self.disk, read_write=True) as registry:
            for it in given:
                registry.install(it)
                self.assertEqual(registry.list().libraries, [('b', len(data))])
                registry.remove('b')

    def test_names_of_disks(self):
        for name in (self.disk, str(self.disk), os.fsencode(self.disk)):
            Registry(name).close()

    def test_a_byte_0_ends_no_name(self):
        with Registry(self.disk, read_write=True) as registry:
            registry.install(LIBRARY)
            for call in (lambda: registry.remove('b\0c'), lambda: registry.preload(['b\0']),
                         lambda: registry.file('b\0'), lambda: registry.digest('b\0'),
                         lambda: Registry(f'{self.disk}\0'), lambda: rlibreg.format('a\0', 64)):
                self.assertRaises(ValueError, call)

    def test_numbers_that_c_has_not(self):
        with Registry(self.disk) as registry:
            for call in (registry.bind, registry.bindings, registry.executable):
                for base in (-1, 1 << 64):
                    self.assertRaises(OverflowError, call, PROGRAM, base)
                self.assertRaises(TypeError, call, PROGRAM, 1.0)
        self.assertRaises(OverflowError, rlibreg.format, self.disk, (1 << 32) + SECTORS)
        self.refused(Status.BAD_ARGUMENT, rlibreg.format, self.disk, 7)

    def test_a_file_is_read_up_to_its_limit(self):
        """A file is read up to the limit of its length: a file of 1 TiB, and a pipe that has more
        bytes than the limit."""
        long, pipe = self.disk.with_name('long'), self.disk.with_name('pipe')
        long.write_bytes(LIBRARY.read_bytes())
        os.truncate(long, 1 << 40)
        os.mkfifo(pipe)

        def write():
            with self.assertRaises(BrokenPipeError):
                pipe.write_bytes(LIBRARY.read_bytes().ljust(1 << 25))

        writer = threading.Thread(target=write)
        writer.start()
        with Registry(self.disk, read_write=True) as registry:
            for call in (lambda: registry.install(long), lambda: registry.replace(str(long)),
                         lambda: registry.install(pipe), lambda: registry.bind(long, 0)):
                with self.assertRaises(rlibreg.Refusal) as found:
                    call()
                self.assertEqual(found.exception.file_refusal_name, 'E13 TooLarge')
        writer.join()

    def test_other_types(self):
        with Registry(self.disk, read_write=True) as registry:
            self.assertRaises(TypeError, registry.install, 5)
            self.assertRaises(TypeError, registry.preload, 'b')
            self.assertRaises(TypeError, registry.remove, 5)
            self.assertRaises(TypeError, registry.file, 5)
            self.assertRaises(TypeError, registry.digest, 5)


class Errors(OnDisk):
    def test_a_refusal_has_number_name_and_text(self):
        with Registry(self.disk, read_write=True) as registry:
            error = self.refused(Status.MISSING, registry.bind, PROGRAM, 0x10000)
            self.assertIsInstance(error, rlibreg.Refusal)
            self.assertEqual((error.name, error.text, error.file_refusal),
                             ('B3 Missing', 'refused B3 Missing /program b', 0))
            self.assertEqual(str(error), error.text)
            copy = pickle.loads(pickle.dumps(error))
            self.assertEqual((copy.number, copy.text), (error.number, error.text))

    def test_a_file_that_is_refused(self):
        with Registry(self.disk, read_write=True) as registry:
            error = self.refused(Status.BAD_FILE, registry.install, b'')
            self.assertEqual((error.file_refusal, error.file_refusal_name), (1, 'E1 TooShort'))

    def test_what_the_system_refuses(self):
        folder = self.disk.parent
        below = self.disk / 'disk'
        beside = folder / 'other'
        (folder / '.other.rlibreg-new').symlink_to('nowhere')
        for call, number, kind in (
                (lambda: Registry(beside), errno.ENOENT, FileNotFoundError),
                (lambda: Registry(below), errno.ENOTDIR, NotADirectoryError),
                (lambda: Registry(folder, read_write=True), errno.EISDIR, IsADirectoryError),
                (lambda: Registry(folder), errno.EINVAL, rlibreg.SystemFault),
                (lambda: rlibreg.format(beside / 'disk', 64), errno.ENOENT, FileNotFoundError),
                (lambda: self.as_nobody(Registry, self.disk), errno.EACCES, PermissionError)):
            error = self.refused(Status.SYSTEM, call)
            self.assertIsInstance(error, rlibreg.SystemFault)
            self.assertIsInstance(error, kind)
            self.assertEqual((error.errno, error.strerror), (number, os.strerror(number)))
            again = pickle.loads(pickle.dumps(error))
            self.assertEqual((type(again), str(again)), (type(error), str(error)))
        self.assertEqual(self.refused(Status.SYSTEM, Registry, 'no-disk').filename, 'no-disk')
        with Registry(self.disk, read_write=True) as registry:
            self.assertRaises(FileNotFoundError, registry.install, 'no-such-file')

    @staticmethod
    def as_nobody(call, path):
        """Makes a call without the right to read a file."""
        before = os.geteuid()
        os.chmod(path, 0)
        if not before:
            os.seteuid(65534)
        try:
            return call(path)
        finally:
            os.seteuid(before)
            os.chmod(path, 0o600)

    def test_a_change_of_a_registry_that_is_open_for_reading(self):
        with Registry(self.disk) as registry:
            self.refused(Status.READ_ONLY, registry.install, LIBRARY)

    def test_a_write_that_fails(self):
        limits = resource.getrlimit(resource.RLIMIT_FSIZE)
        with Registry(self.disk, read_write=True) as registry:
            resource.setrlimit(resource.RLIMIT_FSIZE, (0, limits[1]))
            try:
                error = self.refused(Status.DEVICE, registry.install, LIBRARY)
            finally:
                resource.setrlimit(resource.RLIMIT_FSIZE, limits)
            self.assertEqual((error.errno, error.text), (errno.EFBIG, 'refused S1 Device'))
            self.refused(Status.REOPEN, registry.list)
        with Registry(self.disk, read_write=True) as registry:
            registry.install(LIBRARY)

    def test_after_close(self):
        registry = Registry(self.disk, read_write=True)
        registry.close()
        registry.close()
        for call in (registry.list, registry.info, registry.check, registry.__enter__,
                     lambda: registry.install(LIBRARY), lambda: registry.bind(PROGRAM, 0),
                     lambda: registry.file('b'), lambda: registry.digest('b'),
                     lambda: registry.bindings(PROGRAM, 0), lambda: registry.executable(PROGRAM, 0),
                     lambda: list(registry.dump()), lambda: registry.update().__enter__()):
            self.assertIsInstance(self.refused(Status.BAD_ARGUMENT, call), rlibreg.Closed)


class Updates(OnDisk):
    def state(self):
        return self.disk.read_bytes()

    @staticmethod
    def memory(image):
        segments = [(it.address, it.permissions, bytes(it.data)) for it in image.segments]
        return segments, [(it.base, it.name) for it in image.objects]

    def test_changes_are_made_together(self):
        with Registry(self.disk, read_write=True) as registry:
            with registry.update() as update:
                before = self.state()
                self.refused(Status.MISSING, update.bind, PROGRAM, 0x10000)
                for it in (LIBRARY, file('long.so')):
                    update.install(it)
                update.replace(memoryview(file('protected.so')))
                update.preload(it for it in ('a', 'b'))
                bound = self.memory(update.bind(str(PROGRAM), 0x10000))
                self.assertEqual((self.state(), len(registry)), (before, 0))
            found = registry.list()
            self.assertEqual((found.generation, found.preloads), (1, ['a', 'b']))
            self.assertEqual(registry.file('b'), file('protected.so'))
            self.assertEqual(self.memory(registry.bind(PROGRAM, 0x10000)), bound)
            before = self.state()
            with registry.update():
                pass
            self.assertEqual(self.state(), before)
            with registry.update() as update:
                update.preload([])
                for _ in range(500):
                    update.remove('b')
                    update.install(LIBRARY)
            self.assertEqual(registry.list(), (2, [('a', 1536), ('b', 376)], []))

    def test_an_exception_gives_all_up(self):
        before = self.state()
        with Registry(self.disk, read_write=True) as registry:
            for kind in (ZeroDivisionError, KeyboardInterrupt, GeneratorExit):
                with self.assertRaises(kind), registry.update() as update:
                    update.install(LIBRARY)
                    raise kind
            for call in (lambda: update.install('no-such-file'), lambda: update.remove('b\0'),
                         lambda: update.preload('b'), lambda: update.bind(PROGRAM, -1)):
                with self.assertRaises((OSError, ValueError, TypeError, OverflowError)):
                    with registry.update() as update:
                        update.install(LIBRARY)
                        call()
        self.assertEqual(self.state(), before)

    def test_a_refusal_has_its_place(self):
        with Registry(self.disk, read_write=True) as registry:
            registry.install(LIBRARY)
            before = self.state()
            for place in range(20):
                for number, call in ((Status.BAD_FILE, lambda it: it.install(b'')),
                                     (Status.ALREADY_INSTALLED, lambda it: it.install(LIBRARY)),
                                     (Status.NOT_INSTALLED, lambda it: it.preload(['c'])),
                                     (Status.FULL, lambda it: it.replace(LIBRARY.read_bytes() +
                                                                         bytes(1 << 19)))):
                    error = self.refused(number, self.update_with, registry, place, call)
                    self.assertIsInstance(error, rlibreg.Refusal)
                    self.assertEqual(error.change, place)
            self.assertEqual(self.state(), before)
            with self.assertRaises(rlibreg.Refusal) as found, registry.update() as update:
                update.remove('b')
                error = self.refused(Status.MISSING, update.bind, PROGRAM, 0x10000)
                self.assertEqual((error.change, error.text),
                                 (None, 'refused B3 Missing /program b'))
                update.remove('b')
                self.assertEqual(self.refused(Status.NOT_INSTALLED, update.bind, b'', 0).change, 1)
            self.assertEqual((found.exception.change, self.state()), (1, before))

    @staticmethod
    def update_with(registry, place, call):
        """Makes an update of `place` changes, and of one that is refused."""
        with registry.update() as update:
            for _ in range(place):
                update.preload([])
            call(update)

    def test_only_within_a_with(self):
        with Registry(self.disk, read_write=True) as registry:
            update = registry.update()
            for _ in range(2):
                for call in (lambda: update.install(LIBRARY), lambda: update.replace(LIBRARY),
                             lambda: update.remove('b'), lambda: update.preload([]),
                             lambda: update.bind(PROGRAM, 0)):
                    self.refused(Status.BAD_ARGUMENT, call)
                with update:
                    self.refused(Status.BAD_ARGUMENT, update.__enter__)
            self.assertEqual(registry.info().generation, 0)
            with self.assertRaises(rlibreg.Closed), registry.update() as update:
                update.install(LIBRARY)
                registry.close()

    def test_who_may_only_read_can_bind(self):
        with Registry(self.disk) as registry:
            with self.assertRaises(rlibreg.Error) as found, registry.update() as update:
                update.install(LIBRARY)
                self.assertEqual(len(update.bind(PROGRAM, 0x10000).objects), 2)
            self.assertEqual(found.exception.number, Status.READ_ONLY)

    def test_a_write_that_fails(self):
        limits = resource.getrlimit(resource.RLIMIT_FSIZE)
        before = self.state()
        with Registry(self.disk, read_write=True) as registry:
            with self.assertRaises(rlibreg.Refusal) as found, registry.update() as update:
                update.install(LIBRARY)
                resource.setrlimit(resource.RLIMIT_FSIZE, (0, limits[1]))
                self.addCleanup(resource.setrlimit, resource.RLIMIT_FSIZE, limits)
                update.bind(PROGRAM, 0x10000)
            error = found.exception
            self.assertEqual((error.number, error.errno, error.change),
                             (Status.DEVICE, errno.EFBIG, None))
            self.refused(Status.REOPEN, self.update_with, registry, 1, lambda it: it.remove('b'))
        self.assertEqual(self.state(), before)

    def test_memory_that_is_refused(self):
        """A process that may have only a little more memory can't get the memory for a long disk."""
        self.disk.unlink()
        rlibreg.format(self.disk, 1 << 19)

        def child():
            limit = Memory.in_use()[0] + (64 << 20)
            with Registry(self.disk, read_write=True) as registry, registry.update() as update:
                resource.setrlimit(resource.RLIMIT_DATA, (limit, limit))
                update.install(LIBRARY)
                error = self.refused(Status.OUT_OF_MEMORY, update.bind, PROGRAM, 0)
                self.assertIsNone(error.change)

        self.in_a_child(child)
        with Registry(self.disk) as registry:
            self.assertEqual(list(registry), ['b'])


class Locks(OnDisk):
    def test_held_and_let_go(self):
        with Registry(self.disk, read_write=True):
            self.assertIsInstance(self.refused(Status.LOCKED, Registry, self.disk), rlibreg.Locked)
        with Registry(self.disk), Registry(self.disk):
            self.refused(Status.LOCKED, Registry, self.disk, True)
        self.assertRaises(ZeroDivisionError, self.ends_by_an_exception)
        Registry(self.disk, read_write=True)  # a registry that nothing refers to any more
        Registry(self.disk, read_write=True).close()

    def test_its_own_lock_is_not_waited_for(self):
        with Registry(self.disk, read_write=True):
            self.refused(Status.LOCKED, Registry, self.disk, True, True)
        with Registry(self.disk), Registry(self.disk, wait=True):
            self.refused(Status.LOCKED, Registry, self.disk, True, True)

    def ends_by_an_exception(self):
        with Registry(self.disk, read_write=True):
            raise ZeroDivisionError

    def held_by_a_child(self, seconds):
        """Makes a child that locks the disk and reports this."""
        says, said = os.pipe()
        child = os.fork()
        if not child:
            with Registry(self.disk, read_write=True):
                os.write(said, b'!')
                time.sleep(seconds)
            os._exit(0)
        os.read(says, 1)
        os.close(says)
        os.close(said)
        self.addCleanup(os.waitpid, child, 0)
        self.addCleanup(os.kill, child, signal.SIGKILL)
        return child

    def test_wait(self):
        start = time.monotonic()
        self.held_by_a_child(0.2)
        Registry(self.disk, wait=True).close()
        self.assertGreaterEqual(time.monotonic() - start, 0.2)

    def test_a_wait_of_seconds(self):
        with Registry(self.disk):
            self.held_for(0, lambda: Registry(self.disk, True, 60))  # the thread would wait for itself
        child = self.held_by_a_child(60)
        for seconds in (0, 0.0, 0.25):
            self.held_for(seconds, lambda: Registry(self.disk, wait=seconds))
            self.held_for(seconds, lambda: rlibreg.format(self.disk, SECTORS, wait=seconds))
        threading.Timer(0.15, os.kill, (child, signal.SIGKILL)).start()
        Registry(self.disk, wait=60).close()
        self.assertEqual([rlibreg._seconds(it) for it in (True, False, 1)], [float('inf'), 0, 1])
        for wait, kind in ((-1, ValueError), (float('nan'), ValueError), (None, TypeError),
                           ('1', TypeError)):
            self.assertRaises(kind, Registry, self.disk, wait=wait)

    def held_for(self, seconds, call):
        start = time.monotonic()
        self.refused(Status.LOCKED, call)
        self.assertTrue(seconds <= time.monotonic() - start < seconds + 30)

    def test_each_thread_has_its_turn(self):
        def update():
            with Registry(self.disk, read_write=True, wait=True) as registry:
                try:
                    registry.install(LIBRARY)
                except rlibreg.Refusal as refusal:
                    self.assertEqual(refusal.number, Status.ALREADY_INSTALLED)
                    registry.replace(LIBRARY)

        threads = [threading.Thread(target=update) for _ in range(8)]
        for it in threads:
            it.start()
        for it in threads:
            it.join()
        with Registry(self.disk) as registry:
            self.assertEqual(registry.info().generation, 8)

    def test_a_signal_while_it_waits(self):
        heard = []
        child = self.held_by_a_child(60)

        def hear(*_):
            heard.append(1)
            os.kill(child, signal.SIGKILL)

        before = signal.signal(signal.SIGALRM, hear)
        self.addCleanup(signal.signal, signal.SIGALRM, before)
        signal.setitimer(signal.ITIMER_REAL, 0.05)
        Registry(self.disk, wait=True).close()
        self.assertEqual(heard, [1])

    def test_a_signal_that_ends_the_wait(self):
        before = signal.signal(signal.SIGALRM, lambda *_: 1 // 0)
        self.addCleanup(signal.signal, signal.SIGALRM, before)
        self.held_by_a_child(60)
        start = time.monotonic()
        for wait in (True, 60):
            signal.setitimer(signal.ITIMER_REAL, 0.05)
            self.assertRaises(ZeroDivisionError, Registry, self.disk, False, wait)
        self.assertLess(time.monotonic() - start, 30)


class Processes(OnDisk):
    def test_a_child_only_closes(self):
        registry = Registry(self.disk, read_write=True)

        def child():
            error = self.refused(Status.BAD_ARGUMENT, registry.list)
            assert 'another process' in str(error)
            registry.close()
            self.refused(Status.LOCKED, Registry, self.disk)

        self.in_a_child(child)
        registry.install(LIBRARY)
        self.refused(Status.LOCKED, Registry, self.disk)
        registry.close()

    def test_children_with_their_parents_number(self):
        """Process 1 of a process namespace makes another namespace, forks a child, which is process
        1 of it, and so on."""
        def child():
            assert not leave_namespace()
            self.in_a_child(lambda: self.in_generations([]))

        probe = os.fork()
        if not probe:
            os._exit(leave_namespace())
        if os.waitpid(probe, 0)[1]:
            self.skipTest('no new process namespaces')
        self.in_a_child(child)

    def in_generations(self, before):
        assert os.getpid() == 1
        signal.signal(signal.SIGALRM, lambda *_: os._exit(1))  # process 1 ends by no other signal
        signal.alarm(20)  # it waits for a lock that no thread has
        for registry in before:
            error = self.refused(Status.BAD_ARGUMENT, registry.list)
            assert 'another process' in str(error)
        if len(before) < 3:
            disk = self.disk.with_name(f'disk-{len(before)}')
            rlibreg.format(disk, SECTORS)
            own = Registry(disk, read_write=True)
            assert not leave_namespace()
            with own._handle.lock:  # in the child no thread has it
                self.in_a_child(lambda: self.in_generations([*before, own]))
            self.refused(Status.LOCKED, Registry, disk)
            own.install(LIBRARY)
        for registry in before:
            registry.close()

    def test_a_child_while_another_thread_waits(self):
        registry = Registry(self.disk, read_write=True)
        with registry._handle.lock:
            thread = threading.Thread(target=self.in_a_child, args=(registry.close,))
            thread.start()
            thread.join()
        registry.close()


class GivingLock:
    """A lock passes to a waiting thread before the thread that had the lock can take it again."""

    def __init__(self):
        self.lock = threading.Lock()

    def __enter__(self):
        self.lock.acquire()

    def __exit__(self, *_):
        self.lock.release()
        time.sleep(0.2)


class Contents(OnDisk):
    def test_it_has_the_names_of_its_libraries(self):
        with Registry(self.disk, read_write=True) as registry:
            self.assertTrue(registry)
            self.assertEqual((len(registry), list(registry), 'b' in registry), (0, [], False))
            registry.install(file('first.so'))
            first, = registry
            registry.install(LIBRARY)
            self.assertEqual((len(registry), list(registry)), (2, [first, 'b']))
            for name, is_there in (('b', True), (first, True), ('c', False), (b'b', False), (5, False)):
                self.assertEqual(name in registry, is_there)
        self.assertTrue(registry)
        for call in (list, len, lambda it: 'b' in it):
            self.assertRaises(rlibreg.Closed, call, registry)

    def test_it_is_not_copied(self):
        with Registry(self.disk) as registry:
            for call in (copy.copy, copy.deepcopy, pickle.dumps):
                self.assertRaises(TypeError, call, registry)

    def test_each_library_has_its_bytes(self):
        """Installs each stored library as the only library of a disk."""
        count = 0
        with Registry(self.disk, read_write=True) as registry:
            for path in sorted(DATA.glob('*.so')):
                try:
                    registry.install(path)
                except rlibreg.Refusal:
                    continue
                name = registry.list().libraries[-1].name
                self.assertEqual(registry.file(name), path.read_bytes())
                self.assertEqual(registry.digest(name), sha256(path.read_bytes()).digest())
                registry.remove(name)
                self.refused(Status.NOT_INSTALLED, registry.file, name)
                self.refused(Status.NOT_INSTALLED, registry.digest, name)
                count += 1
        self.assertGreater(count, 50)

    def two_are_there(self):
        """Installs two libraries, and returns their names."""
        with Registry(self.disk, read_write=True) as registry:
            registry.install(LIBRARY)
            registry.install(file('first.so'))
            return list(registry)

    def damage(self):
        """Changes the first byte of the first library."""
        with open(self.disk, 'r+b') as disk:
            disk.seek(2 * 512)
            disk.write(b'\0')

    def test_what_is_damaged_keeps_nothing_else_from_being_read(self):
        first, second = self.two_are_there()
        with Registry(self.disk) as registry:
            info = registry.info()
        self.damage()
        with Registry(self.disk) as registry:
            self.assertEqual([it.name for it in registry.list().libraries], [first, second])
            self.assertEqual(registry.file(second), file('first.so'))
            self.assertEqual(registry.file(first), b'\0' + LIBRARY.read_bytes()[1:])
            for name in (first, second):
                self.assertEqual(registry.digest(name), sha256(registry.file(name)).digest())
            for call in (registry.bind, registry.bindings, registry.executable):
                self.refused(Status.DAMAGED, call, PROGRAM, 0x10000)
            self.assertEqual(registry.info(), info)
            self.assertEqual(registry.check(), [(first, (2, 'E2 BadMagic', 'damaged E2 BadMagic')),
                                                (second, (0, 'Sound', 'ok'))])

    def test_nothing_is_found_where_there_is_no_registry(self):
        with Registry(self.disk) as registry:
            self.assertEqual(registry.check(), [])
        for data, number in ((bytes(SECTORS * 512), Status.NOT_FORMATTED),
                             (bytes(513), Status.BAD_GEOMETRY),
                             (file('old-one.disk'), Status.OLD_FORMAT)):
            self.disk.write_bytes(data)
            with Registry(self.disk) as registry:
                self.refused(number, registry.check)

    def test_the_greatest_file_goes_in(self):
        with Registry(self.disk, read_write=True) as registry:
            info = registry.info()
            self.assertEqual(info[:7], (2, SECTORS, 0, 0, 0, SECTORS - 2, 1))
            data = LIBRARY.read_bytes()
            self.refused(Status.FULL, registry.install, data.ljust(info.largest + 1, b'+'))
            data = data.ljust(info.largest, b'+')
            registry.install(data)
            registry.preload(['b'])
            self.assertEqual(registry.file('b'), data)
            self.assertEqual(registry.info(), (2, SECTORS, 2, 1, 1, 1, 1, 0))


    def test_what_is_put(self):
        other, long = LIBRARY.read_bytes() + b'+', LIBRARY.read_bytes().ljust(1 << 18)
        changed = other[:-1] + b'-'  # of the same length
        with Registry(self.disk, read_write=True) as registry:
            for it, done in ((file('first.so'), 'installed'), (LIBRARY, 'installed'),
                             (bytearray(LIBRARY.read_bytes()), 'unchanged'), (other, 'replaced'),
                             (changed, 'replaced'), (file('first.so'), 'unchanged')):
                before = self.disk.read_bytes()
                self.assertEqual(registry.put(it), done)
                self.assertEqual(self.disk.read_bytes() == before, done == 'unchanged')
            self.assertEqual((registry.file('b'), len(registry)), (changed, 2))
            self.refused(Status.FULL, registry.put, long)
            self.assertEqual(self.refused(Status.BAD_FILE, registry.put, b'').file_refusal, 1)
            self.assertRaises(FileNotFoundError, registry.put, 'no-such-file')
        self.assertIsInstance(self.refused(Status.BAD_ARGUMENT, registry.put, other), rlibreg.Closed)
        with Registry(self.disk) as registry:
            for it in (changed, other):
                self.refused(Status.READ_ONLY, registry.put, it)

    def test_what_is_damaged_is_put_anew(self):
        """`put` replaces a damaged library. It doesn't put a file that is refused, even if the
        registry has exactly these bytes."""
        self.two_are_there()
        self.damage()
        with Registry(self.disk, read_write=True) as registry:
            data = registry.file('b')
            self.refused(Status.BAD_FILE, registry.put, data)
            self.assertEqual([registry.put(LIBRARY) for _ in range(2)], ['replaced', 'unchanged'])
            self.assertEqual({finding.text for _, finding in registry.check()}, {'ok'})

    def test_another_thread_removes_what_is_put(self):
        """No other call is made between the parts of `put`, even if another thread waits to make one."""
        with Registry(self.disk, read_write=True) as registry:
            registry.install(LIBRARY)
            handle, thread = registry._handle, threading.Thread(target=registry.remove, args=('b',))
            ask = handle.ask

            def ask_and_begin(name, *words):
                if name == 'install':
                    thread.start()
                return ask(name, *words)

            handle.ask, handle.lock = ask_and_begin, GivingLock()
            self.assertEqual(registry.put(LIBRARY.read_bytes() + b'+'), 'replaced')
            thread.join()
            self.assertEqual(list(registry), [])

    def test_bindings_and_executables_are_those_of_the_tool(self):
        """Compares bindings and executables with those of the tool: for each stored object as a
        program, with as many libraries as there is room for."""
        seen = set()
        with Registry(self.disk, read_write=True) as registry:
            for path in sorted(DATA.glob('linked*.so')) + sorted(DATA.glob('*.so')):
                try:
                    registry.install(path)
                except rlibreg.Refusal:
                    continue
        with Registry(self.disk) as registry:
            for path in sorted(DATA.glob('*.so')):
                for call in (registry.bindings, registry.executable):
                    try:
                        given = call(path, 0x400000)
                    except rlibreg.Refusal as refusal:
                        given = refusal
                    seen |= self.is_told(call.__name__, path, given)
        self.assertGreaterEqual(seen, {'binds', 'unresolved', 'undefined', 'missing', 'NoEntry',
                                       'B1'})

    def is_told(self, form, path, given):
        """Checks that the tool has the same output and messages. Records the lines, or the refusals, that occurred."""
        if isinstance(given, rlibreg.Bindings):
            self.assertEqual(given.text, bindings_text(given))
            wanted = given.text.encode(), '', int(given.status != Status.DONE)
        elif isinstance(given, bytes):
            wanted = given, '', 0
        else:
            wanted = b'', f'rlibreg-tool: {given.text}\n', 1
        if TOOL:
            told = subprocess.run([TOOL, form, self.disk, path, '0x400000'], capture_output=True)
            self.assertEqual((told.stdout, told.stderr.decode(), told.returncode), wanted)
        return {line.split(' ')[line.startswith('refused ')]
                for line in getattr(given, 'text', '').splitlines()}

    def test_what_is_missing_is_no_exception(self):
        with Registry(self.disk) as registry:
            given = registry.bindings(PROGRAM, 0x10000)
            self.assertEqual(given, (Status.MISSING, [('/program', None, ['b'], ['b'], [])],
                                     'found /program\nneeds b\nmissing b /program\nend\n'))
            self.refused(Status.MISSING, registry.executable, PROGRAM, 0x10000)
            self.refused(Status.BAD_BASE, registry.bindings, PROGRAM, 1)
            self.refused(Status.BAD_PROGRAM, registry.bindings, b'', 0)

    def dumped(self, registry, number=None):
        """Returns the pieces of a dump, which ends with the error of this number."""
        pieces = []
        if number is None:
            pieces.extend(registry.dump())
        else:
            self.refused(number, lambda: [pieces.append(it) for it in registry.dump()])
        self.assertEqual([it for it in pieces[:-1] if it.endswith(b'\n')], [])
        script = b''.join(pieces)
        if TOOL:
            told = subprocess.run([TOOL, 'dump', self.disk], capture_output=True)
            self.assertEqual((told.stdout, told.returncode), (script, int(number is not None)))
        return script

    def test_a_dump(self):
        files = [LIBRARY.read_bytes().ljust(100000, b'+'), file('first.so')]
        with Registry(self.disk) as registry:
            self.assertEqual(self.dumped(registry), b'')
        with Registry(self.disk, read_write=True) as registry:
            for it in files:
                registry.install(it)
            preloads = sorted(registry, reverse=True)
        wanted = [f'install {it.hex()}\n'.encode() for it in files]
        with Registry(self.disk) as registry:
            self.assertEqual(self.dumped(registry), b''.join(wanted))
        with Registry(self.disk, read_write=True) as registry:
            registry.preload(preloads)
        wanted.append(f'preload {" ".join(preloads)}\n'.encode())
        with Registry(self.disk) as registry:
            self.assertEqual(self.dumped(registry), b''.join(wanted))
        with open(self.disk.with_name('script'), 'wb') as script, Registry(self.disk) as registry:
            script.writelines(registry.dump())
        self.assertEqual(self.disk.with_name('script').read_bytes(), b''.join(wanted))
        self.assertRaises(rlibreg.Closed, list, registry.dump())

    def test_a_dump_is_cut(self):
        """A dump is cut at the first library that is damaged or can't be read."""
        self.two_are_there()
        self.damage()
        with Registry(self.disk) as registry:
            self.assertEqual(self.dumped(registry, Status.DAMAGED), b'cut')
        with Registry(self.disk, read_write=True) as registry:
            registry.replace(LIBRARY)
        data = self.disk.read_bytes()
        at = data.index(file('first.so'))
        for other, text, refusal in ((b'\0', 'damaged {} E2 BadMagic', (2, 'E2 BadMagic')),
                                     (LIBRARY.read_bytes(), 'damaged {} OtherName', (0, ''))):
            self.disk.write_bytes(data[:at] + other + data[at + len(other):])
            with Registry(self.disk) as registry:
                wanted = b'install ' + LIBRARY.read_bytes().hex().encode() + b'\ncut'
                self.assertEqual(self.dumped(registry, Status.DAMAGED), wanted)
                error = self.refused(Status.DAMAGED, list, registry.dump())
                self.assertEqual(error.text, text.format(list(registry)[1]))
                self.assertEqual((error.file_refusal, error.file_refusal_name), refusal)
        self.disk.write_bytes(file('old-one.disk'))
        with Registry(self.disk) as registry:
            self.assertEqual(self.dumped(registry, Status.OLD_FORMAT), b'cut')

    def test_a_dump_of_what_changes(self):
        """A dump has the libraries of one state, or ends early. Refused changes during a dump have no effect on it."""
        self.two_are_there()
        with Registry(self.disk, read_write=True) as registry:
            wanted = b''.join(registry.dump())
            pieces = registry.dump()
            begun = next(pieces)
            self.refused(Status.ALREADY_INSTALLED, registry.install, LIBRARY)
            self.assertEqual(begun + b''.join(pieces), wanted)
            for change in (lambda: registry.preload(['b']), lambda: registry.replace(LIBRARY)):
                found, pieces = [], registry.dump()
                found.append(next(pieces))
                change()
                self.refused(Status.BAD_ARGUMENT, lambda: [found.append(it) for it in pieces])
                self.assertEqual(found[-1], b'\ncut')


class Objects(OnDisk):
    def test_an_image_has_its_objects(self):
        with Registry(self.disk, read_write=True) as registry:
            registry.install(LIBRARY)
            image = registry.bind(PROGRAM, 0x10000)
        program, library = image.objects
        self.assertEqual(program.segments + library.segments, image.segments)
        for it, file in ((program, PROGRAM), (library, LIBRARY)):
            header = file.read_bytes()[:64]
            entry, headers = struct.unpack_from('<QQ', header, 24)
            count, = struct.unpack_from('<H', header, 56)
            self.assertEqual((it.entry, it.header_count), (it.base + entry, count))
            self.assertEqual(it.headers, it.base + headers)
            self.assertTrue(any(one.address <= it.dynamic < one.address + len(one.data)
                                for one in it.segments))


class Memory(OnDisk):
    def test_a_library_of_nine_mib(self):
        """A library of nine MiB is installed, replaced in an update, read and bound like any
        other."""
        large = self.disk.with_name('large')
        rlibreg.format(large, 1 << 16)
        first, second = (LIBRARY.read_bytes().ljust(9 << 20, end) for end in (b'+', b'-'))
        with Registry(large, read_write=True) as registry:
            registry.install(first)
            self.assertEqual(registry.file('b'), first)
            with registry.update() as update:
                update.replace(second)
            self.assertEqual(registry.file('b'), second)
            self.assertEqual([finding.text for _, finding in registry.check()], ['ok'])
            self.assertEqual([it.name for it in registry.bind(PROGRAM, 0x10000).objects], ['/program', 'b'])

    def test_buffers_grow(self):
        self.disk.write_bytes(file('made=many.changes'))
        with Registry(self.disk) as registry:
            self.assertEqual(len(registry.list().libraries), 2048)
            self.assertEqual((registry.info().libraries, registry.info().largest), (2048, 0))
            self.assertEqual([name for name, finding in registry.check() if not finding.number],
                             [it.name for it in registry.list().libraries])

    def test_an_image_of_any_length(self):
        """Views an image of 5 GiB, which a stand-in for the call returns: its memory exists, and
        isn't touched."""
        half, end = (1 << 31) + 4096, 5 << 30
        memory = mmap.mmap(-1, end, mmap.MAP_PRIVATE | mmap.MAP_ANONYMOUS | 0x4000)  # NORESERVE
        memory[half], memory[-1] = 7, 9
        places = (_calls.Segment * 2)((0, half, 0, 4), (half, end - half, half, 4))
        objects = (_calls.Object * 1)((0, end - 1, 1, 0, 2))

        def bind_program(name, *words):
            given = words[-1]._obj
            given.bytes = ctypes.addressof(ctypes.c_char.from_buffer(memory))
            given.count, given.object_count = 2, 1
            given.segments, given.objects = places, objects
            for name in ('bytes', 'segments', 'objects'):
                self.addCleanup(setattr, given, name, None)  # which it would free

        with Registry(self.disk) as registry:
            registry._handle.ask = bind_program
            first, second = registry.bind(b'', 0).segments
        self.assertEqual((len(first.data), len(second.data)), (half, end - half))
        self.assertEqual((first.data[-1], second.data[0], second.data[-1]), (0, 7, 9))

    def test_an_image_stays(self):
        with Registry(self.disk, read_write=True) as registry:
            registry.install(LIBRARY)
            image = registry.bind(PROGRAM, 0x10000)
        self.assertEqual(image.segments[0].data[:4], b'\x7fELF')
        self.assertEqual([it.name for it in image.objects], ['/program', 'b'])

    def test_nothing_is_lost(self):
        """No memory and no file is lost, whether calls succeed or are refused."""
        with Registry(self.disk, read_write=True) as registry:
            registry.install(LIBRARY)
            self.is_kept(100, lambda: registry.bind(PROGRAM, 0x10000))
            self.is_kept(100, lambda: self.refused(Status.BAD_BASE, registry.bind, PROGRAM, 1))
            self.is_kept(2000, registry.list)
            self.is_kept(2000, registry.info)
            self.is_kept(2000, registry.check)
            self.is_kept(2000, lambda: registry.file('b'))
            self.is_kept(2000, lambda: registry.digest('b'))
            self.is_kept(500, lambda: registry.bindings(PROGRAM, 0x10000))
            self.is_kept(500, lambda: self.refused(Status.NO_ENTRY, registry.executable,
                                                   PROGRAM, 0))
            self.is_kept(2000, lambda: registry.put(LIBRARY))
            self.is_kept(500, lambda: Updates.update_with(registry, 9,
                                                          lambda it: it.bind(PROGRAM, 0)))
            self.is_kept(1000, lambda: list(registry.dump()))
            self.is_kept(2000, lambda: self.refused(Status.NOT_INSTALLED, registry.file, 'c'))
            self.is_kept(2000, lambda: self.refused(Status.LOCKED, Registry, self.disk))

    def is_kept(self, count, call):
        """Checks that `count` calls need no more memory and files than fifty calls, or than the same number of
        earlier calls. Python allocates its own memory in pieces of a MiB."""
        self.many(50, call)
        for _ in range(3):
            memory, files = self.in_use()
            self.many(count, call)
            more = self.in_use()[0] - memory
            self.assertEqual(self.in_use()[1], files)
            if more < 1 << 20:
                return
        self.fail(f'{count} calls want {more} bytes')

    @staticmethod
    def many(count, call):
        for _ in range(count):
            call()

    @staticmethod
    def in_use():
        """Returns the number of bytes of memory, written or not, and the number of open files."""
        pages = int(Path('/proc/self/statm').read_text().split()[5])
        return pages * resource.getpagesize(), len(os.listdir('/proc/self/fd'))

    def test_threads_take_turns(self):
        """Each thread gets its own answers."""
        failed = []
        self.addCleanup(sys.setswitchinterval, sys.getswitchinterval())
        sys.setswitchinterval(1e-6)
        with Registry(self.disk, read_write=True) as registry:
            asked = {'refused B2 BadBase': lambda: registry.bind(PROGRAM, 1),
                     'refused B3 Missing /program b': lambda: registry.bind(PROGRAM, 0),
                     'refused C1 E1 TooShort': lambda: registry.install(b''),
                     'refused C3 NotInstalled': lambda: registry.remove('b')}

            def work(text, call):
                for _ in range(500):
                    try:
                        call()
                    except rlibreg.Refusal as refusal:
                        if refusal.text != text or not text.startswith(refusal.name, 8):
                            failed.append((text, refusal))

            threads = [threading.Thread(target=work, args=it) for it in asked.items()]
            for thread in threads:
                thread.start()
            for thread in threads:
                thread.join()
        self.assertEqual(failed, [])


if __name__ == '__main__':
    unittest.main()

"""Calls from handlers of signals, some thousand of them a second, from threads, from children of
fork, with closed streams, and at the end of Python: each call gets its own answer, and nothing is
lost.

    python3 -X dev -m unittest test_handlers
"""

import os
import signal
import subprocess
import sys
import threading
import time
import unittest

import rlibreg
from rlibreg import Registry, Status
from test_module import LIBRARY, PROGRAM, OnDisk

SECONDS = 0.4  # how many seconds each test takes


class Handlers(OnDisk):
    def setUp(self):
        super().setUp()
        self.registry = Registry(self.disk, read_write=True)
        library, program = LIBRARY.read_bytes(), PROGRAM.read_bytes()
        self.registry.install(library)
        self.addCleanup(lambda: self.registry.close())
        self.calls = [lambda: self.registry.bind(program, 0x10000).segments[0].data[:4].tobytes(),
                      lambda: self.registry.bind(program, 1), lambda: self.registry.bind(b'', 0),
                      lambda: self.registry.install(b''), lambda: self.registry.remove('c'),
                      lambda: self.registry.install(library), lambda: self.registry.list(),
                      lambda: self.registry.info(), lambda: self.registry.check(),
                      lambda: self.registry.file('b'), lambda: self.registry.put(library),
                      lambda: self.registry.digest('b'),
                      lambda: self.registry.bindings(program, 0x10000),
                      lambda: self.registry.executable(program, 0x10000),
                      lambda: b''.join(self.registry.dump()), self.update]
        self.answers = [self.heard(call) for call in self.calls]
        self.assertEqual(len({str(it) for it in self.answers}), len(self.calls))

    @staticmethod
    def heard(call):
        """Returns the result of a call, or everything that its exception reports."""
        try:
            return call()
        except rlibreg.Busy:
            return 'busy'
        except rlibreg.Refusal as it:
            return it.number, it.name, it.text, it.file_refusal, it.file_refusal_name, it.change

    def update(self):
        """Makes an update whose second change is refused."""
        with self.registry.update() as update:
            update.preload(['b'])
            update.remove('b')

    def try_all(self, wrong, busy=None):
        """Makes each call. Adds to `wrong` the answers that differ from those without handlers, and
        to `busy` those that are Busy."""
        for call, answer in zip(self.calls, self.answers):
            found = self.heard(call)
            if found == 'busy' and busy is not None:
                busy.append(1)
            elif found != answer:
                wrong.append((found, answer))

    def strike(self, call):
        """Makes the handler of a signal run `call` one millisecond after each run, until the test ends. Returns a
        function that returns whether to continue: for some seconds, and until there were enough calls."""
        def handler(*_):
            try:
                call()
            finally:
                signal.setitimer(signal.ITIMER_REAL, 0.001)

        end = time.monotonic() + SECONDS
        signal.signal(signal.SIGALRM, handler)
        self.addCleanup(signal.signal, signal.SIGALRM, signal.SIG_IGN)
        signal.setitimer(signal.ITIMER_REAL, 0.001)
        return lambda seen: time.monotonic() < end + (0 if len(seen) > 10 else 60)

    def in_threads(self, count, work):
        threads = [threading.Thread(target=work) for _ in range(count)]
        for it in threads:
            it.start()
        self.addCleanup(lambda: [it.join() for it in threads])
        return threads

    def test_calls_within_a_call(self):
        wrong, busy, ended = [], [], []

        def work():
            while not ended:
                self.try_all(wrong)

        self.in_threads(1, work)
        self.addCleanup(ended.append, 1)
        goes_on = self.strike(lambda: self.try_all(wrong, busy))
        while goes_on(busy):
            self.try_all(wrong)
        self.assertEqual(wrong, [])
        self.assertGreater(len(busy), 10)

    def test_calls_beside_those_of_a_thread(self):
        """A handler waits for another thread, which is within a call, and makes no call itself."""
        wrong, ended, ran = [], [], []

        def handler():
            self.try_all(wrong)
            ran.append(1)

        def work():
            while not ended:
                self.try_all(wrong)

        self.in_threads(1, work)
        self.addCleanup(ended.append, 1)
        goes_on = self.strike(handler)
        while goes_on(ran):
            time.sleep(0.001)
        self.assertEqual(wrong, [])
        self.assertGreater(len(ran), 10)

    def test_a_handler_closes(self):
        self.registry.close()
        within, files = [], len(os.listdir('/proc/self/fd'))
        self.registry = Registry(self.disk, read_write=True)

        def handler():
            within.extend([1] * self.registry._handle.turn.is_taken)
            self.registry.close()
            self.assertRaises(rlibreg.Closed, self.registry.list)

        goes_on = self.strike(handler)
        while goes_on(within):
            wrong = []
            with self.assertRaises(rlibreg.Closed):
                while True:
                    self.try_all(wrong)
            self.assertEqual(wrong, [])
            self.assertEqual(len(os.listdir('/proc/self/fd')), files)
            self.registry = Registry(self.disk, read_write=True)
        self.assertGreater(len(within), 10)

    @unittest.skipIf(sys.version_info < (3, 10), 'a `with` may end without its end')
    def test_exceptions_of_a_handler(self):
        """Exceptions of a handler end what they interrupt, and leave no lock taken."""
        raised, wrong, due = [], [], []

        def handler():
            while due:
                raise ZeroDivisionError(due.pop())

        goes_on = self.strike(handler)
        while goes_on(raised):
            try:
                due.append(1)
                while due:
                    self.try_all(wrong)
            except ZeroDivisionError:
                raised.append(1)
        due.clear()
        self.try_all(wrong)
        for it in self.in_threads(1, lambda: self.try_all(wrong)):
            it.join(10)
            self.assertFalse(it.is_alive())
        self.assertEqual(wrong, [])
        self.assertGreater(len(raised), 10)

    def test_another_thread_closes(self):
        closed, wrong = [], []

        def work():
            try:
                while True:
                    self.try_all(wrong)
            except rlibreg.Closed:
                closed.append(1)

        for _ in range(20):
            threads = self.in_threads(4, work)
            time.sleep(0.005)
            self.registry.close()
            for it in threads:
                it.join()
            self.registry = Registry(self.disk, read_write=True)
        self.assertEqual((wrong, len(closed)), ([], 80))

    def test_a_child_of_a_handler_closes(self):
        """A handler makes a child within a call. The child, too, completes the call."""
        children = []

        def handler():
            if self.registry._handle.turn.is_taken and 0 not in children[-1:] and len(children) < 10:
                children.append(os.fork())
                if not children[-1]:
                    self.registry.close()

        goes_on = self.strike(handler)
        while goes_on(children) and (len(children) < 10 or not children[-1]):
            try:
                self.try_all([])
            except BaseException as error:
                os._exit(0 if isinstance(error, rlibreg.Error) and not children[-1] else 1)
        self.assertEqual(len(children), 10)
        for it in children:
            self.assertEqual(os.waitpid(it, 0)[1], 0)
        self.refused(Status.LOCKED, Registry, self.disk)


CLOSED = '''
import os, sys, rlibreg
disk, library, *closed = sys.argv[1:]
for it in closed: os.close(int(it))
def say():
    for it in 1, 2:
        try: os.write(it, b'text')
        except OSError: pass
rlibreg.format(disk, 512)
say()
with rlibreg.Registry(disk) as registry:
    say()
with rlibreg.Registry(disk, read_write=True, wait=1) as registry:
    say()
    registry.install(library)
    say()
'''

BEHIND = '''
import sys, rlibreg
def is_refused(call):
    try: call()
    except rlibreg.SystemFault as error: return error.errno == 26
disk, library = sys.argv[1:]
sys.exit(not (is_refused(lambda: rlibreg.Registry(disk, read_write=True))
              and is_refused(lambda: rlibreg.Registry(disk))))
'''

END = '''
import pathlib, sys, threading, time, rlibreg
program = pathlib.Path(sys.argv[2])
registry = sys.kept = rlibreg.Registry(sys.argv[1], read_write=True)
registry.itself = registry
def work(call):
    while True: call()
for call in (registry.list, lambda: registry.bind(program, 0x10000)):
    threading.Thread(target=work, args=(call,), daemon=True).start()
time.sleep(0.05)
sys.image = registry.bind(program, 0x10000)
'''


class Streams(OnDisk):
    def run_on(self, disk, code, *words, **streams):
        done = subprocess.run([sys.executable, '-B', '-c', code, disk, LIBRARY, *words], **streams)
        self.assertEqual(done.returncode, 0)
        return disk.read_bytes()

    def test_closed_streams(self):
        """Printed text isn't written into a disk, although the disk would get the number of a closed stream."""
        with Registry(self.disk, read_write=True) as registry:
            registry.install(LIBRARY)
        for closed in ('0', '1', '2', '012'):
            found = self.run_on(self.disk.with_name(closed), CLOSED, *closed, capture_output=True)
            self.assertEqual(found, self.disk.read_bytes())

    def test_a_disk_behind_a_stream(self):
        before = self.disk.read_bytes()
        for stream in ('stdin', 'stdout', 'stderr'):
            with open(self.disk, 'r+b') as file:
                self.assertEqual(self.run_on(self.disk, BEHIND, **{stream: file}), before)


class Ends(OnDisk):
    def test_the_end_of_python(self):
        """Python ends with an open registry that is in a reference cycle and in use by two threads."""
        with Registry(self.disk, read_write=True) as registry:
            registry.install(LIBRARY)
        for _ in range(3):
            done = subprocess.run([sys.executable, '-B', '-X', 'dev', '-W', 'error', '-c', END,
                                   self.disk, PROGRAM], capture_output=True)
            self.assertEqual((done.returncode, done.stdout, done.stderr), (0, b'', b''))
            Registry(self.disk, read_write=True).close()


if __name__ == '__main__':
    unittest.main()

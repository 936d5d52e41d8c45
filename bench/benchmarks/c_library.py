#!/usr/bin/env python3
"""Times the calls of the C library over disks that it makes itself.

    python3 bench/benchmarks/c_library.py FOLDER [NUMBER LENGTH]..

FOLDER has librlibreg.so and rlibreg, made by c/build.sh. For each NUMBER and LENGTH the script makes a disk with NUMBER
libraries of about LENGTH bytes, and then times the calls that read it: it prints the least of five times for each. The
program that is bound needs all libraries. The bind is left out if these have more than 64 MiB together. The
installation of one more library is timed twice: when it is planned, and when the plan is carried out with its syncs.
With 2,048 libraries no further one can be installed.
"""

import ctypes
import mmap
import subprocess
import sys
import tempfile
import time
from pathlib import Path

sys.path[1:1] = map(str, Path(__file__).resolve().parents[1].glob('*/'))  # the folders of bench
from disks import install
from libraries import Made

RUNS, ROOM, MOST, RLIBREG_READ_WRITE = 5, 1 << 26, 2048, 1


class Answer(ctypes.Structure):
    _fields_ = [(name, ctypes.c_uint32) for name in ('status', 'file_refusal')]
    _fields_ += [(name, ctypes.c_uint64) for name in ('count', 'preloads', 'bytes', 'text', 'generation', 'objects')]


def least(call):
    times = []
    for _ in range(RUNS):
        start = time.perf_counter()
        call()
        times.append(time.perf_counter() - start)
    return min(times) * 1000


def library():
    it = ctypes.CDLL(f'{sys.argv[1]}/librlibreg.so')
    it.rlibreg_create.restype, it.rlibreg_text.restype = ctypes.c_void_p, ctypes.c_char_p
    return it


def bytes_and_length(data):
    return ctypes.c_char_p(data), ctypes.c_size_t(len(data))


def name(i):
    return b'lib%04d' % i


def make(i, length):
    return Made(name(i), exports=[name(i)], data=length - 512).file


def fill(path, number, length):
    """Makes a disk with `number` libraries. If a registry may have another library, the disk has room for it."""
    size = len(make(0, length))
    sectors = number * (size // 512 + 2) + number // 16 + 2 * size // 512 + 100
    program = f'{sys.argv[1]}/rlibreg'
    words = [program, 'format', path, str(sectors)]
    subprocess.run(words, check=True, stdout=subprocess.DEVNULL)
    install(program, path, (make(i, length) for i in range(number)))
    print(f'{number} libraries of {size} bytes, {sectors} sectors', flush=True)


def install_one(it, path, file):
    """Prints the time of an installation with its syncs, over an open disk."""
    registry = ctypes.c_void_p(it.rlibreg_create())
    assert it.rlibreg_open(registry, path.encode(), RLIBREG_READ_WRITE) == 0
    start = time.perf_counter()
    assert it.rlibreg_install(registry, *bytes_and_length(file)) == 0, it.rlibreg_text(registry)
    print(f'  rlibreg_install: {1000 * (time.perf_counter() - start):.1f} ms')
    it.rlibreg_close(registry)


class Calls:
    """The calls over bytes, with the mapped bytes of a disk."""

    def __init__(self, it, path):
        self.it, self.answer = it, Answer()
        with open(path, 'rb') as file:
            self.map = mmap.mmap(file.fileno(), 0, access=mmap.ACCESS_COPY)
        self.disk = (ctypes.c_char * len(self.map)).from_buffer(self.map)
        text = ctypes.create_string_buffer(1 << 20)
        self.tail = text, ctypes.c_size_t(1 << 20), ctypes.byref(self.answer)

    def ask(self, name, *words):
        call = getattr(self.it, f'rlibreg_{name}')
        status = call(self.disk, ctypes.c_size_t(len(self.disk)), *words, *self.tail)
        assert status == 0, (name, status, self.tail[0].raw[:self.answer.text])

    def tell(self, call, *words, what=None):
        """Prints the least time of a call, and its answer."""
        taken = least(lambda: self.ask(call, *words))
        told = f', {what(self.answer)}' if what else ''
        print(f'  rlibreg_{call}: {taken:.1f} ms{told}', flush=True)


def measure(it, path, number, length):
    fill(path, number, length)
    calls = Calls(it, path)
    room, entries = (ctypes.create_string_buffer(size) for size in (ROOM, 1 << 17))
    big, count = (room, ctypes.c_size_t(ROOM)), ctypes.c_size_t(4096)
    calls.tell('list', entries, count, *big)
    file = (*bytes_and_length(name(0)), *big)
    calls.tell('file', *file, what=lambda it: f'{it.bytes} bytes')
    calls.tell('digest', *bytes_and_length(name(0)), ctypes.create_string_buffer(32))
    calls.tell('info', ctypes.create_string_buffer(64))
    calls.tell('check', entries, count, *big)
    if number * (length + 4096) < ROOM:
        program = Made(needed=[name(i) for i in range(number)], undefined=[name(0)],
                       relocations=[(1, 0, 1, 0)], behind=64).file
        places = (ctypes.create_string_buffer(72 * 4096), count, entries, count)
        bind = (*bytes_and_length(program), ctypes.c_uint64(1 << 32), *places, *big)
        calls.tell('bind', *bind, what=lambda it: f'an image of {it.bytes} bytes')
    if number < MOST:
        file = make(number, length)
        given = (*bytes_and_length(file), *big)
        calls.tell('plan_install', *given, what=lambda it: f'{it.count} steps')
        install_one(it, path, file)


def main():
    with tempfile.TemporaryDirectory() as folder:
        it = library()
        sizes = [int(word) for word in sys.argv[2:]] or [64, 128 * 1024, 500, 16 * 1024]
        for number, length in zip(sizes[::2], sizes[1::2]):
            measure(it, f'{folder}/disk{number}', number, length)


if __name__ == '__main__':
    main()

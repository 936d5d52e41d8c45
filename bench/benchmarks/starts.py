#!/usr/bin/env python3
"""Times the start of a program with many libraries: with the system's own loader, which binds all at once, with rlibreg-run,
and with rlibreg-run from a kept image.

    python3 bench/benchmarks/starts.py FOLDER [LIBRARIES [RELOCATIONS]]

FOLDER has rlibreg and rlibreg-run (c/build.sh). Each of 100 libraries exports ten functions, and has the addresses of 200
functions of the others in its data; the program needs all of them, and ends at once. gcc makes them, and ld links them;
both loaders start the same objects. The script prints the least and the median of some hundred starts in turn, in
milliseconds, and after them the least time of the processor. It does so once with nothing else running, and once beside a
process that writes and syncs a file of the same file system, which is that of FOLDER. Images are kept there, and in memory.
"""

import os
import random
import subprocess
import statistics
import sys
import tempfile
import time
from pathlib import Path

from beside import kept_folder, writer

COMPILE = ['gcc', '-O1', '-fPIC', '-nostdlib', '-fno-stack-protector', '-fno-asynchronous-unwind-tables']
LINK = ['ld', '--hash-style=sysv', '--no-as-needed', '--allow-shlib-undefined']
EXPORTS, STARTS, STARTS_BESIDE = 10, 200, 40
START = 'void _start(void) { __asm__ volatile("syscall" : : "a"(60), "D"(0)); }\n'


def run(*words, **more):
    subprocess.run([str(word) for word in words], check=True, capture_output=True, **more)


def source(number, count, relocations, choose):
    """Returns a library's functions, and its array with the addresses of functions of the other libraries."""
    own = ''.join(f'void f{number}_{k}(void) {{}}\n' for k in range(EXPORTS))
    others = [it for it in range(count) if it != number]
    named = [f'f{choose.choice(others)}_{choose.randrange(EXPORTS)}' for _ in range(relocations)]
    declared = ''.join(f'void {it}(void);\n' for it in sorted(set(named)))
    return f'{own}{declared}void (*row{number}[])(void) = {{{", ".join(named)}}};\n'


def make(folder, count, relocations):
    choose = random.Random(1)
    names = [f'lib{number}.so' for number in range(count)]
    for number, name in enumerate(names):
        (folder / 'source.c').write_text(source(number, count, relocations // count, choose))
        run(*COMPILE, '-c', '-o', 'object.o', 'source.c', cwd=folder)
        run(*LINK, '-shared', f'-soname={name}', '-o', name, 'object.o', cwd=folder)
    (folder / 'source.c').write_text(START)
    run(*COMPILE, '-c', '-o', 'object.o', 'source.c', cwd=folder)
    run(*LINK, '-pie', '-dynamic-linker=/lib64/ld-linux-x86-64.so.2', '-o', 'program', 'object.o', *names, cwd=folder)
    return names


def start(words, environment):
    """Returns the time of a start, by the clock and of the processor."""
    begin = time.perf_counter()
    child = os.posix_spawn(words[0], words, environment)
    _, status, usage = os.wait4(child, 0)
    assert status == 0, (words, status)
    return time.perf_counter() - begin, usage.ru_utime + usage.ru_stime


def timed(ways, starts, what):
    rows = {way: [] for way in ways}
    for _ in range(starts):
        for way, words in ways.items():
            rows[way].append(start(*words))
    usual = next(iter(ways))
    for way, row in rows.items():
        real, spent = (1000 * min(it[k] for it in row) for k in (0, 1))
        median = 1000 * statistics.median(it[0] for it in row)
        print(f'{what}, {way}: {real:.2f} ms, median {median:.2f} ({spent:.2f} used), '
              f"{real / (1000 * min(it[0] for it in rows[usual])):.3f} of {usual}", flush=True)


def main():
    built = Path(sys.argv[1]).resolve()
    count, relocations = (int(sys.argv[k]) if len(sys.argv) > k else usual for k, usual in ((2, 100), (3, 20000)))
    with tempfile.TemporaryDirectory(dir=built) as name:
        folder = Path(name)
        names = make(folder, count, relocations)
        lines = ''.join(f'install {(folder / it).read_bytes().hex()}\n' for it in names)
        run(built / 'rlibreg', 'format', folder / 'disk', 1 << 16)
        run(built / 'rlibreg', 'script', folder / 'disk', input=lines.encode())
        os.chdir(folder)
        run_words = [str(built / 'rlibreg-run'), 'disk', './program']
        with kept_folder(folder) as on_disk, kept_folder() as in_memory:
            ways = {
                "the system's loader": (['./program'], {'LD_BIND_NOW': '1', 'LD_LIBRARY_PATH': '.'}),
                'rlibreg-run': (run_words, {}),
                'rlibreg-run -c': ([run_words[0], '-c', str(on_disk), *run_words[1:]], {}),
                'rlibreg-run -c in memory': ([run_words[0], '-c', str(in_memory), *run_words[1:]], {})}
            what = f'{count} libraries, {relocations} relocations'
            timed(ways, STARTS, what)
            with writer(folder):
                timed(ways, STARTS_BESIDE, f'beside a writer, {what}')


if __name__ == '__main__':
    main()

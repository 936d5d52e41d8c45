#!/usr/bin/env python3
"""Compares the order of initializers and finalizers under rlibreg-run with their order under the system's own loader.

    python3 bench/trials/initializers.py FOLDER [GRAPHS [START]]

FOLDER has rlibreg, rlibreg-run, rlibreg-tool and rlibreg-gcc (c/build.sh). Each graph has libraries that need each
other at random, sometimes in circles, with or without DT_INIT, DT_FINI, arrays, DF_1_INITFIRST and preloads. A program
needs some of them. Each function prints its name, so the script compares all calls and their order. gcc makes the
functions, and ld links them. Under the system's loader the program also needs its C library, after all others, because
without a C library that loader calls no finalizers.

If there is a musl-gcc, the order is also compared with that in a program of rlibreg-gcc: under rlibreg-run, in its file of
`rlibreg-tool executable`, and under musl's loader, if that is there. In the last two the program itself makes the calls.
"""

import os
import random
import shutil
import subprocess
import sys
import tempfile
from pathlib import Path

PROGRAMS = Path(__file__).resolve().parents[2] / 'c' / 'tests' / 'programs'
COMPILE = ['gcc', '-O1', '-fPIC', '-nostdlib', '-fno-stack-protector', '-fno-asynchronous-unwind-tables']
LINK = ['ld', '--hash-style=sysv', '--no-as-needed', '--allow-shlib-undefined']
MOST, C_LIBRARY = 24, 'libc.so.6'
MUSL = Path('/lib/ld-musl-x86_64.so.1')
MAIN = '#include <unistd.h>\nint main(void) { return write(1, " entered", 8) != 8; }\n'
DRIVEN = ['-Wl,--no-as-needed,--allow-shlib-undefined']


def name(number):
    return f'lib{number}.so'


def run(*words, **more):
    return subprocess.run([str(word) for word in words], check=True, capture_output=True, **more).stdout


class Graph:
    """A graph: the needs of its objects, and how they are linked. Object 0 is the program."""

    def __init__(self, choose):
        self.count = choose.choice((2, 3, 4, 5, 6, 8, 12, MOST))
        libraries = range(1, self.count + 1)
        density = choose.choice((0.5, 1, 1.5, 2, 4)) / self.count
        self.needs = [[it for it in libraries if choose.random() < density] for _ in range(self.count + 1)]
        self.needs[0] = self.needs[0] or [choose.choice(libraries)]
        for needs in self.needs:
            choose.shuffle(needs)
        flags = ('-init=first', '-fini=last', '-zinitfirst')
        self.flags = [[flag for flag in flags if choose.random() < 0.3] for _ in self.needs]
        self.preloads = choose.sample(libraries, choose.choice((0, 0, 0, 1, min(3, self.count))))

    def is_cyclic(self):
        """Returns whether a library needs itself, directly or through other libraries."""
        return any(at in self.reached(at) for at in range(1, self.count + 1))

    def reached(self, start):
        found, left = set(), list(self.needs[start])
        while left:
            at = left.pop()
            if at not in found:
                found.add(at)
                left += self.needs[at]
        return found


class Bench:
    """Objects that are compiled once, and a folder in which each graph is linked from them."""

    def __init__(self, built, folder):
        self.built, self.folder = Path(built).resolve(), Path(folder)
        for number in range(1, MOST + 1):
            run(*COMPILE, f'-DNAME="{number}"', '-c', '-o', self.folder / f'{number}.o', PROGRAMS / 'stage.c')
            run(*LINK, '-shared', f'-soname={name(number)}', '-o', f'before{number}', f'{number}.o', cwd=self.folder)
        run(*COMPILE, '-c', '-o', self.folder / '0.o', PROGRAMS / 'bare.c')
        self.has_driver = shutil.which('musl-gcc') is not None
        (self.folder / 'main.c').write_text(MAIN)

    def link(self, graph):
        def needed(number):
            return [f'before{it}' for it in graph.needs[number]]

        for number in range(1, graph.count + 1):
            words = ['-shared', f'-soname={name(number)}', *graph.flags[number], f'{number}.o', *needed(number)]
            run(*LINK, '-o', name(number), *words, cwd=self.folder)
        words = ['-pie', '-dynamic-linker=/lib64/ld-linux-x86-64.so.2', '0.o', *needed(0)]
        run(*LINK, '-o', 'program', *words, cwd=self.folder)
        run(*LINK, '-o', 'program.system', *words, f'-L{self.system_folder()}', f'-l:{C_LIBRARY}', cwd=self.folder)

        if self.has_driver:
            run(self.built / 'rlibreg-gcc', '-o', 'driven', 'main.c', *DRIVEN, *needed(0), cwd=self.folder)

    @staticmethod
    def system_folder():
        return Path(run('gcc', f'-print-file-name={C_LIBRARY}').decode().strip()).parent

    def ours(self, graph):
        disk = self.folder / 'disk'
        disk.unlink(missing_ok=True)
        lines = [f'install {(self.folder / name(it)).read_bytes().hex()}' for it in range(1, graph.count + 1)]
        lines.append(' '.join(['preload', *map(name, graph.preloads)]))
        run(self.built / 'rlibreg', 'format', disk, '4096')
        run(self.built / 'rlibreg', 'script', disk, input=''.join(f'{it}\n' for it in lines).encode())
        return run(self.built / 'rlibreg-run', disk, 'program', cwd=self.folder)

    def driven(self):
        """Returns the orders in a program of rlibreg-gcc, over the disk that `ours` has made."""
        if not self.has_driver:
            return
        yield run(self.built / 'rlibreg-run', 'disk', 'driven', cwd=self.folder)
        alone = self.folder / 'alone'
        alone.write_bytes(run(self.built / 'rlibreg-tool', 'executable', 'disk', 'driven', '0x10000000', cwd=self.folder))
        alone.chmod(0o755)
        yield run(alone)

    def under_musl(self, graph):
        """Returns the order in that program under musl's loader."""
        if self.has_driver and MUSL.exists():
            preloads = ' '.join(name(it) for it in graph.preloads)
            yield run('./driven', cwd=self.folder, env={'LD_LIBRARY_PATH': '.', 'LD_PRELOAD': preloads})

    def system(self, graph):
        preloads = ' '.join(name(it) for it in graph.preloads)
        more = {'LD_BIND_NOW': '1', 'LD_LIBRARY_PATH': '.', 'LD_PRELOAD': preloads}
        return run('./program.system', cwd=self.folder, env={**os.environ, **more})


def main():
    count = int(sys.argv[2]) if len(sys.argv) > 2 else 300
    choose = random.Random(int(sys.argv[3]) if len(sys.argv) > 3 else 1)
    cyclic = different = called = 0
    with tempfile.TemporaryDirectory() as folder:
        bench = Bench(sys.argv[1], folder)
        for number in range(count):
            graph = Graph(choose)
            bench.link(graph)
            ours = bench.ours(graph)
            others = [bench.system(graph), *bench.driven(), *bench.under_musl(graph)]
            cyclic += graph.is_cyclic()
            called += len(ours.split())
            if any(ours != it for it in others):
                different += 1
                print(f'graph {number}: needs {graph.needs}, preloads {graph.preloads}', ours, *others, sep='\n  ')
    print(f'{count} graphs, {cyclic} of them with circles: {called} calls, {1 + len(others)} starts each, '
          f'and {different} graphs with another order')
    sys.exit(different > 0)


main()

#!/usr/bin/env python3
"""Has changes take turns with loops that start programs and list, and prints how long they take and how many succeed.

    python3 bench/gate/turns.py PROGRAM FOLDER [--loops N..] [--changes N] [--wide]

The folder of PROGRAM has what c/build.sh has built with it. Beside N loops of `rlibreg-run`, and of `list`, the updater
of docs/C.md makes one change after the other, each of which waits for the lock. Then `rlibreg replace` makes changes,
each of which tries for two seconds. The script checks that each updater succeeds, and 19 of 20 replacements; that half
of the updaters take at most 100 ms, or five times their time without the loops; that every start succeeds; that each
list succeeds, or reports that the disk is locked; and that both kinds of loops go on meanwhile. With --wide the script
prints the figures of 1, 2, 4, 8 and 16 loops and 100 changes; otherwise it tries 8 loops and 20 changes.
"""

import argparse
import collections
import shutil
import subprocess
import sys
import time
from pathlib import Path

sys.path[1:1] = map(str, Path(__file__).resolve().parents[1].glob('*/'))  # the folders of bench
from checks import Checks, emptied, has

OBJECT = ['gcc', '-shared', '-fPIC', '-nostdlib', '-Wl,--hash-style=sysv']
LIBRARY = 'int one(void) { return 0; }\nconst char filler[4000] = "%s";\n'
PROGRAM = 'extern int one(void);\nvoid begin(void) { __asm__ volatile("syscall" : : "a"(231), "D"(one())); for (;;); }\n'
KINDS = {'starts': './rlibreg-run disk program', 'lists': './rlibreg list disk'}


class Turns:
    def __init__(self, program, folder):
        self.folder, self.checks = folder, Checks()
        for name in ('rlibreg', 'rlibreg-run', 'rlibreg.h', 'librlibreg.a'):
            shutil.copy(program.resolve().parent / name, folder / name)
        page = Path(__file__).resolve().parents[2] / 'docs/C.md'
        (folder / 'updater.c').write_text(page.read_text().split('```c\n')[1].split('```')[0])
        self.build('gcc', '-O1', '-I.', '-o', 'updater', 'updater.c', 'librlibreg.a')
        for number in (0, 1):
            (folder / 'library.c').write_text(LIBRARY % number)
            self.build(*OBJECT, '-Wl,-soname,libone.so', '-o', f'library-{number}', 'library.c')
        (folder / 'program.c').write_text(PROGRAM)
        self.build(*OBJECT, '-O1', '-Wl,-e,begin', '-o', 'program', 'program.c', 'library-0')
        self.build('./updater', 'disk', 'library-0')

    def build(self, *words):
        subprocess.run(words, cwd=self.folder, check=True, stdout=subprocess.DEVNULL)

    def begin_loops(self, kind, count):
        """Starts loops. Each has a file with the statuses of what it started."""
        loops = []
        for i in range(count):
            log = open(self.folder / f'log-{i}', 'w+')
            words = f'while :; do {KINDS[kind]} > /dev/null 2>&1; echo $?; done'
            loops.append((subprocess.Popen(['sh', '-c', words], cwd=self.folder, stdout=log), log))
        return loops

    def end_loops(self, loops):
        """Ends the loops. Returns the number of starts that ended with each status."""
        found = collections.Counter()
        for loop, _ in loops:
            loop.kill()
        for loop, log in loops:
            loop.wait()
            log.seek(0)
            found.update(log.read().split())
            log.close()
        return found

    def changes(self, command, count):
        """Makes changes. Returns the milliseconds of those that succeed, in order."""
        times = []
        for i in range(count):
            begun = time.perf_counter()
            ended = subprocess.run([*command, f'library-{i % 2}'], cwd=self.folder, capture_output=True)
            if ended.returncode == 0:
                times.append(1000 * (time.perf_counter() - begun))
            else:
                self.checks.note('changes that failed', (ended.stdout + ended.stderr).decode().strip())
            time.sleep(0.01)
        return sorted(times)

    def beside(self, kind, loops, changes):
        """Returns the times of updaters and of replacements, and the results of the loops."""
        begun = self.begin_loops(kind, loops)
        since = time.perf_counter()
        time.sleep(0.2)
        times = [self.changes(command, changes) for command in (['./updater', 'disk'], ['./rlibreg', 'replace', 'disk'])]
        took = time.perf_counter() - since
        return times, self.end_loops(begun), took

    def told(self, kind, loops, changes):
        (updaters, replaced), found, took = self.beside(kind, loops, changes)
        shown = [f'{it[len(it) // 2]:.0f} {it[len(it) * 9 // 10]:.0f} {it[-1]:.0f}' if it else '-' for it in (updaters, replaced)]
        print(f'{loops:2} loops of {kind}: updaters {len(updaters)}: {shown[0]}; replaced {len(replaced)}: {shown[1]}; '
              f'{sum(found.values()) / took:.0f} {kind} a second, {found["3"]} held', flush=True)
        return updaters, replaced, found

    def run(self, loops, changes):
        print('milliseconds: the median, the ninth of ten and the greatest')
        alone = self.told('lists', 0, changes)[0]
        for kind in KINDS:
            for number in loops:
                updaters, replaced, found = self.told(kind, number, changes)
                what = f'{number} loops of {kind}'
                self.checks.want(what, len(updaters) == changes, 'of', changes, 'updaters', len(updaters), 'succeeded')
                self.checks.want(what, len(replaced) >= 0.95 * changes, 'of', changes, 'replacements', len(replaced), 'succeeded')
                self.checks.want(what, updaters[len(updaters) // 2] <= max(100, 5 * alone[len(alone) // 2]), 'half of the updaters took over', updaters[len(updaters) // 2], 'ms')
                self.checks.want(what, set(found) <= ({'0', '3'} if kind == 'lists' else {'0'}), found)
                self.checks.want(what, found['0'] >= number, found, 'and no more')
        return self.checks.end('turns')


def main():
    words = argparse.ArgumentParser()
    words.add_argument('program', type=Path)
    words.add_argument('folder', type=Path)
    words.add_argument('--loops', type=int, nargs='+')
    words.add_argument('--changes', type=int)
    words.add_argument('--wide', action='store_true')
    given = words.parse_args()
    if not has('gcc'):
        sys.exit('turns: there is no gcc')
    folder = emptied(given.folder)
    loops = given.loops or ([1, 2, 4, 8, 16] if given.wide else [8])
    status = Turns(given.program, folder.resolve()).run(loops, given.changes or (100 if given.wide else 20))
    shutil.rmtree(folder)
    sys.exit(status)


if __name__ == '__main__':
    main()

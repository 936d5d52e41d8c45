#!/usr/bin/env python3
"""Measures how much of the system's memory ten idle SQLite shells use: linked statically, started by rlibreg-run, and started
by rlibreg-run from a kept image.

    python3 bench/benchmarks/memory.py PROGRAMS FOLDER [--sources SOURCES]

The arguments are those of real_programs.py, which builds SQLite. For each way the script prints, in this order:

- the fall of MemAvailable, as the median of several rounds, which is meaningful only on an idle machine;
- the memory that the system counts for a group of these processes (cgroups, as root);
- the part of this memory that the system can't give to other processes, and by which MemAvailable falls: the pages that
  the processes have written, the pages of tmpfs, and the kernel's memory for these processes; also the least value of this
  part;
- the sum of the processes' own memory and of their part of the shared memory (Pss of /proc/PID/smaps_rollup);
- the pages that they have written, and the tables of pages.

The images are kept in a folder of tmpfs, and in one of the file system of FOLDER. Both folders are emptied before each round,
so the pages of the images are in the fall and in the group.
"""

import statistics
import subprocess
import sys
import tempfile
import time
from pathlib import Path

sys.path[1:1] = map(str, Path(__file__).resolve().parents[1].glob('*/'))  # the folders of bench
import real_builds
from beside import empty, kept_folder
from checks import emptied
from real_programs import asked_for

SHELLS, ROUNDS = 10, 7
# A group of the first version of cgroups, or of the second: the file with the size of its memory, the words of
# memory.stat for the memory that can't be freed, and another file with such memory. The system updates the words every
# two seconds.
GROUPS = (('/sys/fs/cgroup/memory', 'memory.usage_in_bytes', ('rss', 'shmem'), 'memory.kmem.usage_in_bytes'),
          ('/sys/fs/cgroup', 'memory.current', ('anon', 'shmem', 'kernel'), None))
TOLD_WITHIN = 2.5
JOIN = 'echo $$ > "$0/cgroup.procs" && exec "$@"'


def available():
    for line in Path('/proc/meminfo').read_text().split('\n'):
        if line.startswith('MemAvailable'):
            return int(line.split()[1])


def told(it, file, name):
    lines = Path(f'/proc/{it.pid}/{file}').read_text().split('\n')
    return sum(int(line.split()[1]) for line in lines if line.startswith(f'{name}:'))


def pss(it):
    return told(it, 'smaps_rollup', 'Pss')


def own(it):
    return told(it, 'smaps_rollup', 'Private_Dirty') + told(it, 'status', 'VmPTE')


class Group:
    """Processes whose memory the system counts together, if it can."""

    def __init__(self):
        found = (it for it in GROUPS if (Path(it[0]) / 'cgroup.procs').exists())
        top, self.used, self.staying, self.more = next(found, (None,) * 4)
        self.at = Path(tempfile.mkdtemp(prefix='shells-', dir=top)) if top else None

    def words(self, words):
        return ['sh', '-c', JOIN, self.at, *words] if self.at else words

    def counts(self):
        """Returns the memory of the group, and the part of it that the system can't free, in KiB."""
        if not self.at or not (self.at / self.used).exists():
            return 0, 0
        told = dict(line.split() for line in (self.at / 'memory.stat').read_text().splitlines())
        stays = sum(int(told[it]) for it in self.staying)
        stays += int((self.at / self.more).read_text()) if self.more else 0
        return int((self.at / self.used).read_text()) // 1024, stays // 1024

    def end(self):
        if self.at:
            self.at.rmdir()


def shells(words, place):
    """Returns the fall of the available memory, the memory of the group, and the shells' memory by their maps, in KiB."""
    group, before = Group(), available()
    them = []
    for _ in range(SHELLS):
        it = subprocess.Popen(list(map(str, group.words([*words, ':memory:']))), cwd=place,
                              stdin=subprocess.PIPE, stdout=subprocess.PIPE)
        it.stdin.write(b'SELECT 42;\n')
        it.stdin.flush()
        assert it.stdout.readline() == b'42\n'
        them.append(it)
    time.sleep(TOLD_WITHIN)
    found = before - available(), *group.counts(), sum(map(pss, them)), sum(map(own, them))
    for it in them:
        it.communicate(b'.quit\n')
    group.end()
    return found


def main():
    bench, sources, _ = asked_for()
    build = real_builds.sqlite(bench.folder / 'SQLite', sources)
    variants = [*bench.variants(build, bench.registry(build), 'sqlite3')]
    with kept_folder() as memory, kept_folder(bench.folder) as disk:
        run, *rest = variants[1].before
        for name, kept in (('memory', memory), ('a disk', disk)):
            variants.append(variants[1]._replace(name=f'registry, -c in {name}', before=[run, '-c', kept, *rest]))
        rows, size = {it.name: [] for it in variants}, 0
        for _ in range(ROUNDS):
            for variant in variants:
                place = emptied(bench.folder / 'shell')
                (place / 'sqlite3').write_bytes(variant.file)
                (place / 'sqlite3').chmod(0o755)
                empty(memory)
                empty(disk)
                rows[variant.name].append(shells([*variant.before, './sqlite3'], place))
                size = max(size, sum(it.stat().st_blocks / 2 for it in memory.iterdir()))
    usual, least = ({name: [of(it) for it in zip(*row)] for name, row in rows.items()} for of in (statistics.median, min))
    for name, found in usual.items():
        told = [f'{it / 1024:.2f} MiB ({it / static:.2f} of the static links)' if static else '0'
                for it, static in zip([*found, least[name][2]], [*usual['static'], least['static'][2]])]
        print(f'{name}: {told[0]} by MemAvailable, {told[1]} of the group, {told[2]} of it stay, at least {told[5]}, '
              f'{told[3]} by Pss, {told[4]} written or of tables', flush=True)
    print(f'in {memory}: {size / 1024:.2f} MiB')


if __name__ == '__main__':
    main()

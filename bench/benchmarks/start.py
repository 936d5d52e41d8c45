#!/usr/bin/env python3
"""Times how Lua starts: linked statically; as the executable of its image, if rlibreg-tool makes one; by the system's
loader, if lua5.4 is installed; from a registry with only Lua's libraries; from a kept image of that; and from
registries that have 330 MB of other libraries, few or many.

    python3 bench/benchmarks/start.py PROGRAMS FOLDER [--sources SOURCES]

The arguments are those of real_programs.py, which builds Lua. Each start runs an empty script. The script prints the least
and the median of some hundred starts in turn, in milliseconds, and after them the least time of the processor. It does so
once with nothing else running, and once beside a process that writes and syncs a file of the same file system. Images are
kept in a folder of that file system, and in one of tmpfs. The loop device is held open, so that the system keeps all of it
in memory.
"""

import contextlib
import os
import shutil
import subprocess
import sys
from pathlib import Path

sys.path[1:1] = map(str, Path(__file__).resolve().parents[1].glob('*/'))  # the folders of bench
import real_builds
from beside import kept_folder, writer
from checks import emptied
from disks import MIB, install, library
from real_programs import asked_for, done
from starts import timed

STARTS, STARTS_BESIDE, SECTORS = 500, 60, 700_000
OTHERS = ((21, 15 * MIB), (315, MIB)) # the number of libraries, and the bytes of each


def crowded(programs, build, number, size):
    """Makes a disk with other libraries beside those of the program, which come last."""
    disk = build.folder / f'crowded{number}'
    done(programs / 'rlibreg', 'format', disk, SECTORS)
    install(programs / 'rlibreg', disk, (library(i, size).file for i in range(number)))
    install(programs / 'rlibreg', disk, (it.read_bytes() for it in build.libraries))
    return disk


@contextlib.contextmanager
def device(disk):
    """Makes a loop device over a copy of a disk, held open. Yields None if there can be none."""
    copy = disk.with_suffix('.device')
    shutil.copy(disk, copy)
    made = subprocess.run(['losetup', '--find', '--show', copy], capture_output=True, text=True) if os.geteuid() == 0 else None
    if made is None or made.returncode:
        print('skipped: a loop device')
        yield None
        return
    name = made.stdout.strip()
    try:
        with open(name, 'rb') as it:
            it.read()
            yield name
    finally:
        subprocess.run(['losetup', '--detach', name], check=True)


def all_variants(bench, build, made, on_disk, in_memory, loop):
    static, registry, *rest = made
    yield from (static, registry)
    run, *disk = registry.before
    for name, kept in (('registry, -c', on_disk), ('registry, -c in memory', in_memory)):
        yield registry._replace(name=name, before=[run, '-c', kept, *disk])
    if loop:
        yield registry._replace(name='a device, -c', before=[run, '-c', on_disk, loop])
    yield from rest
    if shutil.which('lua5.4'):
        yield static._replace(name="the system's loader", file=Path(shutil.which('lua5.4')).read_bytes())
    for number, size in OTHERS:
        before = [run, crowded(bench.programs, build, number, size)]
        yield registry._replace(name=f'{number} libraries of {size >> 20} MiB beside', before=before)


def words_of(variant, place):
    """Returns the words of a start, whose file is made in a folder."""
    (place / 'lua').write_bytes(variant.file)
    (place / 'lua').chmod(0o755)
    return [*map(str, variant.before), str(place / 'lua'), '-e', '']


def main():
    bench, sources, _ = asked_for()
    build = real_builds.lua(bench.folder / 'Lua', sources)
    made = [*bench.variants(build, bench.registry(build), 'lua')]
    with kept_folder(bench.folder) as on_disk, kept_folder() as in_memory, device(build.folder / 'disk') as loop:
        ways = {it.name: (words_of(it, emptied(bench.folder / it.name)), {})
                for it in all_variants(bench, build, made, on_disk, in_memory, loop)}
        timed(ways, STARTS, 'Lua')
        with writer(bench.folder):
            timed(ways, STARTS_BESIDE, 'beside a writer, Lua')


if __name__ == '__main__':
    main()

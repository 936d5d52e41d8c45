#!/usr/bin/env python3
"""Times the program `rlibreg` with many libraries, an update by `rlibreg-tool` (TOOL), and the upgrade of a disk of version 1,
compared with `cp` and `sync` of as many bytes.

    python3 bench/benchmarks/many.py PROGRAM TOOL FOLDER

The columns are those of `disks.py`. FOLDER should lie on the file system that is to be measured, with some 500 MiB free.
"""

import shutil
import sys
from pathlib import Path

sys.path[1:1] = map(str, Path(__file__).resolve().parents[1].glob('*/'))  # the folders of bench
from disks import MIB, Bench, install, library
from libraries import Made, name, symbol
from old_disks import old_disk

SIZE = 16 * 1024
MOST = 2048
SECTORS = '80000'
OLD_SECTORS = 210000
FEW, SMALL = 500, 1024


def fill(bench, folder, count, kept):
    """Makes registries of `count` libraries in a chain. `kept` has the numbers of libraries after which a copy is kept,
    each with its name."""
    bench.done('format', 'disk', SECTORS)
    done = 0
    for last in sorted(kept):
        files = (library(i, SIZE, [name(i - 1)] if i else []).file for i in range(done, last))
        install(bench.program, folder / 'disk', files)
        shutil.copyfile(folder / 'disk', folder / kept[last])
        done = last
    assert done == count


def installs(bench, tool, folder):
    """Times small libraries, installed by a script, and by an update of the same lines."""
    lines = b''.join(b'install ' + library(i, SMALL).file.hex().encode() + b'\n' for i in range(FEW))
    bench.done('format', 'disk', SECTORS)
    shutil.copyfile(folder / 'disk', folder / 'empty')
    bench.told(f'`script` that installs {FEW} small libraries', ['script', 'disk'], 'empty', FEW * SMALL, lines)
    Bench(tool, folder).told('`update` by the same lines, and `commit`', ['update', 'disk'], 'empty', FEW * SMALL, lines + b'commit\n')
    (folder / 'disk').unlink()


def main():
    program, tool, folder = (Path(word) for word in sys.argv[1:4])
    folder.mkdir(parents=True, exist_ok=True)
    bench = Bench(program, folder)
    (folder / 'disk').unlink(missing_ok=True)
    installs(bench, tool, folder)
    fill(bench, folder, MOST, {100: 'hundred', MOST - 1: 'last-but-one', MOST: 'most'})
    (folder / 'next').write_bytes(library(MOST - 1, SIZE, [name(MOST - 2)]).file)
    (folder / 'other').write_bytes(library(MOST // 2, SIZE - 512, [name(MOST // 2 - 1)]).file)
    (folder / 'program').write_bytes(Made(needed=[name(MOST - 1)], undefined=[symbol(MOST - 1)], relocations=[(1, 0, 1, 0)], behind=8).file)
    bench.told('`list` of 100 libraries of 16 KiB: opening', ['list', 'disk'], 'hundred', 100 * SIZE)
    bench.told('`list` of 2,048 libraries of 16 KiB: opening', ['list', 'disk'], 'most', MOST * SIZE)
    bench.told('the 2,048th `install`, with its opening', ['install', 'disk', 'next'], 'last-but-one', MOST * SIZE)
    bench.told('`replace` among 2,048', ['replace', 'disk', 'other'], 'most', MOST * SIZE)
    bench.told('`remove` among 2,048', ['remove', 'disk', name(MOST // 2).decode()], 'most', MOST * SIZE)
    bench.told('`bind` over a chain of 2,048 (its text is 68 MiB)', ['bind', 'disk', 'program', '0x10000'], 'most', MOST * SIZE)
    bench.told('`script` of 1,000 replacements among 2,048', ['script', 'disk'], 'most', MOST * SIZE,
               (b'replace ' + (folder / 'other').read_bytes().hex().encode() + b'\n') * 1000)
    old = old_disk(OLD_SECTORS, [(name(i), library(i, MIB).file) for i in range(100)])
    (folder / 'old').write_bytes(old)
    bench.told('`upgrade` of 100 libraries of 1 MiB', ['upgrade', 'disk'], 'old', 100 * MIB)
    shutil.rmtree(folder)


if __name__ == '__main__':
    main()

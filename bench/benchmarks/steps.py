#!/usr/bin/env python3
"""Times a bind in steps, compared with a bind at once, by scripts of the program `rlibreg` over the same disk.

    python3 bench/benchmarks/steps.py PROGRAM FOLDER

In each registry the script binds a program that needs the registry's last library: once with its image's text, and once
with a symbol that nobody defines, so that the answer is one line (B5, Undefined). A row has the least user + system time
and the least real time of some runs, in seconds, for a number of binds by `bind`, and for as many by `begin` and `advance`;
and the ratio of each. The runs of the two scripts take turns.
"""

import hashlib
import io
import shutil
import sys
from pathlib import Path

sys.path[1:1] = map(str, Path(__file__).resolve().parents[1].glob('*/'))  # the folders of bench
from disks import MIB, Bench, library
from libraries import Made, name, symbol

RUNS, BASE = 7, b'0x10000'


def scripts(file, libraries, times):
    """Returns the script that binds a program `times` times at once, and the script that does so in steps: one step
    for the program, one for each library, and a last one."""
    words = BASE + b' ' + file.hex().encode() + b'\n'
    return (b'bind ' + words) * times, (b'begin ' + words + b'advance 0\n' * (libraries + 2)) * times


def digest(text):
    """Returns a digest of the answers to binds, without the answers to the steps before."""
    answers = hashlib.sha256()
    for line in io.BytesIO(text):
        if line not in (b'going\n', b'slot 0\n'):
            answers.update(line)
    return answers.digest()


def told(bench, what, file, libraries, times, status):
    """Prints a row."""
    rows = {}
    for _ in range(RUNS):
        for given in scripts(file, libraries, times):
            real, used, text = bench.done('script', 'disk', given=given, status=status)
            rows.setdefault(given, []).append((used, real, digest(text)))
    at_once, by_steps = ([min(row[k] for row in taken) for k in (0, 1)] for taken in rows.values())
    assert len({row[2] for taken in rows.values() for row in taken}) == 1, what
    print(f'| {what} | {at_once[0]:.3f} ({at_once[1]:.3f}) | {by_steps[0]:.3f} ({by_steps[1]:.3f}) '
          f'| {by_steps[0] / at_once[0]:.2f} ({by_steps[1] / at_once[1]:.2f}) |', flush=True)


def registry(bench, folder, sectors, count, size):
    """Makes a disk with `count` libraries, each of which needs the one before it."""
    (folder / 'disk').unlink(missing_ok=True)
    bench.done('format', 'disk', str(sectors))
    lines = [b'install ' + library(i, size, [name(i - 1)] if i else []).file.hex().encode() + b'\n' for i in range(count)]
    bench.done('script', 'disk', given=b''.join(lines))


def main():
    program, folder = Path(sys.argv[1]), Path(sys.argv[2])
    folder.mkdir(parents=True, exist_ok=True)
    bench = Bench(program, folder)
    for what, sectors, count, size, times in [
            ('100 libraries of 1 MiB', 210_000, 100, MIB, 3), ('a chain of 2,048 libraries of 2 KiB', 20_000, 2048, 2048, 3)]:
        registry(bench, folder, sectors, count, size)
        for said, wanted, status in [('its text', symbol(count - 1), 0), ('B5', symbol(count), 1)]:
            file = Made(needed=[name(count - 1)], undefined=[wanted], relocations=[(1, 0, 1, 0)], behind=8).file
            told(bench, f'{what}, {said}', file, count, times, status)
    shutil.rmtree(folder)


if __name__ == '__main__':
    main()

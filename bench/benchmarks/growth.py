#!/usr/bin/env python3
"""Prints how the time of the program `rlibreg` grows with the size of its input, in the form of the table of
docs/PERFORMANCE.md.

    python3 bench/benchmarks/growth.py PROGRAM

A size is a number of relocations, of exports, of exports in one bucket, or of libraries. The times are the least user +
system of seven runs of each, in milliseconds. The disk is in the folder for temporary files (which TMPDIR names). This
folder should lie in memory.
"""

import random
import resource
import subprocess
import sys
import tempfile
from pathlib import Path

sys.path[1:1] = map(str, Path(__file__).resolve().parents[1].glob('*/'))  # the folders of bench
from libraries import Made, name
from programs import program
from tables import one_bucket, own_buckets

RUNS, SIZES = 7, (4_000, 16_000, 64_000, 256_000)
# The number of libraries is the size divided by 128, because a registry has at most 2,048.
PER_LIBRARY = 128


def used(words):
    """Returns the least processor time of some runs, in milliseconds."""
    least = float('inf')
    for _ in range(RUNS):
        before = resource.getrusage(resource.RUSAGE_CHILDREN)
        subprocess.run(words, stdout=subprocess.DEVNULL, stderr=subprocess.DEVNULL)
        after = resource.getrusage(resource.RUSAGE_CHILDREN)
        least = min(least, after.ru_utime + after.ru_stime - before.ru_utime - before.ru_stime)
    return 1000 * least


def relocated(count):
    """Returns a program with RELATIVE relocations at random places."""
    places = random.Random(count).sample(range(count), count)
    return program([(8 * place, place) for place in places], 8 * count)


def listing(rlibreg, count, folder):
    """Returns the time of a listing of small libraries."""
    disk, lines = folder / f'disk-{count}', folder / f'lines-{count}'
    lines.write_bytes(b'\n'.join(b'install ' + Made(name(i), behind=8).file.hex().encode() for i in range(count)) + b'\n')
    subprocess.run([rlibreg, 'format', disk, str(16 * count + 64)], check=True, stdout=subprocess.DEVNULL)
    with lines.open('rb') as given:
        subprocess.run([rlibreg, 'script', disk], stdin=given, check=True, stdout=subprocess.DEVNULL)
    return used([rlibreg, 'list', disk])


def image(rlibreg, file, base, folder):
    """Returns the time of an image of a file at a base."""
    path = folder / 'file'
    path.write_bytes(file)
    return used([rlibreg, 'image', path, base])


def main():
    rlibreg = sys.argv[1]
    print('| Size | relocations of an `image` | exports, each in a bucket of its own | exports in one bucket | size / 128 libraries, `list` |')
    print('|---|---|---|---|---|')
    with tempfile.TemporaryDirectory() as made:
        folder = Path(made)
        for size in SIZES:
            times = [image(rlibreg, relocated(size), '0x10000', folder), image(rlibreg, own_buckets(size), '0x1', folder),
                     image(rlibreg, one_bucket(size), '0x1', folder), listing(rlibreg, size // PER_LIBRARY, folder)]
            print(f'| {size:,} | ' + ' | '.join(f'{time:.1f}' for time in times) + ' |')


main()

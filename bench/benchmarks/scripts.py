#!/usr/bin/env python3
"""Makes the scripts that docs/PERFORMANCE.md measures, in the named folder, and times them.

    python3 bench/benchmarks/scripts.py FOLDER            makes the scripts
    python3 bench/benchmarks/scripts.py FOLDER PROGRAM    gives each to the program `rlibreg`, five times, its output to /dev/null

Each run has a new disk, in the folder for temporary files (which TMPDIR names).
"""

import subprocess
import sys
import tempfile
from pathlib import Path

sys.path[1:1] = map(str, Path(__file__).resolve().parents[1].glob('*/'))  # the folders of bench
from libraries import Made, chain, many_lookups, megabytes, mesh, name

RUNS, MIB = 5, 1 << 20
LINES = 200_000
SECTORS = '400000'


def install(file):
    return b'install ' + file.hex().encode()


def binding(made, times):
    """Returns lines that install the libraries of a program, and then bind it `times` times."""
    program, libraries = made
    return [install(library.file) for library in libraries] + [b'bind 0x10000 ' + program.file.hex().encode()] * times


def small():
    """Returns lines that install four libraries of few bytes."""
    return [install(Made(name(i), behind=8).file) for i in range(4)]


def of_length(length, i=0):
    """Returns the line that installs a library of `length` bytes."""
    return install(Made(name(i), behind=8).file.ljust(length, b'\1'))


def made():
    """Yields the lines of each script."""
    yield 'list_and_preload', small() + [b'list', b'preload lib01 lib03', b'list', b'preload'] * (LINES // 4)
    yield 'list', small() + [b'list'] * LINES
    yield 'preload', small() + [b'preload lib01 lib03', b'preload'] * (LINES // 2)
    yield 'bad_lines', [b'no line'] * LINES
    yield 'list_of_100', binding(chain(), 0) + [b'list'] * LINES
    for mib in 1, 4, 16:
        yield f'install_{mib}_mib', [of_length(mib * MIB)]
    yield 'installs', [of_length(MIB, i) for i in range(100)]
    for maker in chain, mesh, many_lookups, megabytes:
        for times in 0, 1, 11:
            yield f'{maker.__name__}_{times}', binding(maker(), times)
    yield 'no_line', [33 * MIB * b'0']
    yield 'no_digit', [b'install ' + 33 * MIB * b'0' + b'g0']
    yield 'odd_digits', [b'install ' + 33 * MIB * b'0' + b'0']
    yield 'names', [b'preload' + 33 * MIB // 2 * b' a']
    yield 'no_name', [b'preload' + 33 * MIB // 2 * b' a' + b' ']
    yield 'short_lines', [b''] * (33 * MIB)


def run(script, program, disk):
    """Returns the processor time of a script on a new disk, the real time, and the maximum memory, in MiB."""
    disk.unlink(missing_ok=True)
    subprocess.run([program, 'format', disk, SECTORS], stdout=subprocess.DEVNULL, check=True)
    with script.open('rb') as lines:
        ended = subprocess.run(['/usr/bin/time', '-f', '%U %S %e %M', program, 'script', disk], stdin=lines,
                               stdout=subprocess.DEVNULL, stderr=subprocess.PIPE, text=True)
    assert ended.returncode in (0, 1), ended
    user, system, real, memory = ended.stderr.splitlines()[-1].split()
    return float(user) + float(system), float(real), int(memory) / 1024


def times(script, program):
    """Returns the least processor time of some runs with its real time, and the maximum memory of a run, in MiB."""
    with tempfile.TemporaryDirectory() as folder:
        runs = [run(script, program, Path(folder) / 'disk') for _ in range(RUNS)]
    return min(runs)[:2], max(memory for _, _, memory in runs)


def main():
    folder = Path(sys.argv[1])
    folder.mkdir(parents=True, exist_ok=True)
    if len(sys.argv) == 2:
        for script, lines in made():
            (folder / script).write_bytes(b''.join(line + b'\n' for line in lines))
    else:
        for script in sorted(folder.iterdir()):
            (processor, real), memory = times(script, str(Path(sys.argv[2]).resolve()))
            print(f'{script.name:16} {script.stat().st_size / MIB:7.1f} MiB: {processor:.2f} s ({real:.2f}), {memory:.1f} MiB', flush=True)


main()

#!/usr/bin/env python3
"""Compares programs that bind the files of a folder, which programs.py made. The programs run in turn, and the fastest of
five runs of each counts.

    python3 bench/benchmarks/compare.py FOLDER PROGRAM ..

A PROGRAM is called with `FILE BASE`, or with `image FILE BASE` if its name begins with rlibreg. The first PROGRAM is the
one that the others are compared with. Each line has the real time, and user + system, in seconds, and both as multiples
of the first program's. All programs have to print the same text.
"""

import hashlib
import resource
import subprocess
import sys
import tempfile
import time
from pathlib import Path

RUNS = 5


def run(program, file):
    """Runs a program once. Returns the real time, the processor's time, and a digest of the text."""
    words = ['image'] if Path(program).name.startswith('rlibreg') else []
    with tempfile.NamedTemporaryFile() as text:
        before, start = resource.getrusage(resource.RUSAGE_CHILDREN), time.perf_counter()
        subprocess.run([program, *words, str(file), '0x10000'], stdout=text, check=True)
        real, after = time.perf_counter() - start, resource.getrusage(resource.RUSAGE_CHILDREN)
        text.seek(0)
        digest = hashlib.sha256(text.read()).hexdigest()
    return real, after.ru_utime + after.ru_stime - before.ru_utime - before.ru_stime, digest


def main():
    folder, programs = Path(sys.argv[1]), sys.argv[2:]
    for file in sorted(folder.glob('*.so')):
        runs = {program: [] for program in programs}
        for _ in range(RUNS):
            for program in programs:
                runs[program].append(run(program, file))
        assert len({digest for rows in runs.values() for _, _, digest in rows}) == 1, file
        least = {program: [min(row[k] for row in rows) for k in (0, 1)] for program, rows in runs.items()}
        first = least[programs[0]]
        for program in programs:
            real, used = least[program]
            print(f'{file.name:17} {Path(program).name:15} {real:.3f} ({used:.3f})'
                  f'  {real / first[0]:.2f} ({used / first[1]:.2f})', flush=True)


main()

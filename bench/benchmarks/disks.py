#!/usr/bin/env python3
"""Times the program `rlibreg` on a disk in a file, compared with `cp` and `sync` of the same bytes.

    python3 bench/benchmarks/disks.py PROGRAM FOLDER

The script prints the least real time of some runs and the least user + system time, in seconds; the maximum memory in MiB;
and the number of system calls that the program makes (counted by strace). FOLDER should lie on the file system that is to be
measured.
"""

import resource
import shutil
import subprocess
import sys
import time
from pathlib import Path

sys.path[1:1] = map(str, Path(__file__).resolve().parents[1].glob('*/'))  # the folders of bench
from libraries import Made, name, symbol

RUNS, MIB = 5, 2**20
SECTORS = '400000'


def library(i, size, needed=()):
    """Returns a library of about `size` bytes that exports one symbol."""
    return Made(name(i), needed=needed, exports=[symbol(i)], data=size - 1024)


def install(program, disk, files):
    """Installs libraries by one script, which is written while they are made."""
    words = [program, 'script', disk]
    with subprocess.Popen(words, stdin=subprocess.PIPE, stdout=subprocess.DEVNULL) as process:
        for file in files:
            process.stdin.write(b'install ' + file.hex().encode() + b'\n')
    assert process.returncode == 0, process.returncode


class Bench:
    def __init__(self, program, folder):
        self.program, self.folder = str(program.resolve()), folder

    def run(self, words, given=b'', status=0):
        before, start = resource.getrusage(resource.RUSAGE_CHILDREN), time.perf_counter()
        ended = subprocess.run(words, cwd=self.folder, input=given, capture_output=True)
        assert ended.returncode == status, (words, ended)
        real, after = time.perf_counter() - start, resource.getrusage(resource.RUSAGE_CHILDREN)
        return real, after.ru_utime + after.ru_stime - before.ru_utime - before.ru_stime, ended.stdout

    def done(self, *words, given=b'', status=0):
        return self.run([self.program, *words], given, status)

    def least(self, words, start=None, given=b''):
        """Returns the least times of some runs, each from a copy of the original disk."""
        rows = []
        for _ in range(RUNS):
            if start:
                shutil.copyfile(self.folder / start, self.folder / 'disk')
            subprocess.run(['sync'], check=True)
            rows.append(self.run(words, given)[:2])
        return [min(row[k] for row in rows) for k in (0, 1)]

    def told(self, what, words, start, size, given=b''):
        """Prints a row: the program, compared with a synced copy of the same number of bytes."""
        words = [self.program, *words]
        real, used = self.least(words, start, given)
        (self.folder / 'bytes').write_bytes(bytes(range(256)) * (size // 256))
        copied = self.least(['sh', '-c', 'cp bytes copy && sync copy'])
        if start:
            shutil.copyfile(self.folder / start, self.folder / 'disk')
        memory = subprocess.run(['/usr/bin/time', '-f', '%M', *words], cwd=self.folder, input=given, capture_output=True).stderr
        shutil.copyfile(self.folder / start, self.folder / 'disk')
        subprocess.run(['strace', '-qq', '-c', '-o', 'calls', *words], cwd=self.folder, input=given, capture_output=True)
        calls = (self.folder / 'calls').read_text().splitlines()[-1].split()[3]
        print(f'| {what} | {real:.3f} ({used:.3f}) | {copied[0]:.3f} ({copied[1]:.3f}) | {real / copied[0]:.1f} '
              f'| {int(memory.split()[-1]) / 1024:.1f} | {calls} |', flush=True)


def main():
    program, folder = Path(sys.argv[1]), Path(sys.argv[2])
    folder.mkdir(parents=True, exist_ok=True)
    bench = Bench(program, folder)
    (folder / 'large').write_bytes(library(0, 16 * MIB).file)
    (folder / 'program').write_bytes(Made(needed=[name(99)], undefined=[symbol(99)], relocations=[(1, 0, 1, 0)], behind=8).file)
    (folder / 'disk').unlink(missing_ok=True)
    bench.done('format', 'disk', SECTORS)
    shutil.copyfile(folder / 'disk', folder / 'empty')
    bench.done('install', 'disk', 'large')
    shutil.copyfile(folder / 'disk', folder / 'one')
    (folder / 'alone').write_bytes(Made(needed=[name(0)], undefined=[symbol(0)], relocations=[(1, 0, 1, 0)], behind=8).file)
    bench.told('`install` of 16 MiB', ['install', 'disk', 'large'], 'empty', 16 * MIB)
    bench.told('`replace` of 16 MiB', ['replace', 'disk', 'large'], 'one', 16 * MIB)
    bench.told('`bind` over one library of 16 MiB (its text is 33 MiB)', ['bind', 'disk', 'alone', '0x10000'], 'one', 16 * MIB)
    shutil.copyfile(folder / 'empty', folder / 'disk')
    for i in range(100):
        (folder / 'next').write_bytes(library(i, MIB, [name(i - 1)] if i else []).file)
        if i == 99:
            shutil.copyfile(folder / 'disk', folder / 'ninety-nine')
        bench.done('install', 'disk', 'next')
    shutil.copyfile(folder / 'disk', folder / 'hundred')
    bench.told('the hundredth `install` of 1 MiB', ['install', 'disk', 'next'], 'ninety-nine', MIB)
    bench.told('`list` of 100 libraries of 1 MiB: opening', ['list', 'disk'], 'hundred', 100 * MIB)
    bench.told('`bind` over 100 libraries of 1 MiB in a chain (its text is 207 MiB)', ['bind', 'disk', 'program', '0x10000'], 'hundred', 100 * MIB)
    bench.told('`script` of 100,000 lines `list` over one library', ['script', 'disk'], 'one', 16 * MIB, b'list\n' * 100_000)
    shutil.rmtree(folder)


if __name__ == '__main__':
    main()

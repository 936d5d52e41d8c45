#!/usr/bin/env python3
"""Starts a program from kept images while its disk changes. Some of the starts and changes are killed.

    python3 bench/trials/kept.py PROGRAMS [SECONDS [FOLDER [loop]]]

PROGRAMS has rlibreg and rlibreg-run (c/build.sh). Disk and images lie in FOLDER, or in memory. With the word `loop`, which
needs root, the disk is a loop device over a file in FOLDER; images of a device are kept without waiting for a time without
changes.

Twenty loops start a program that prints the version of its library, each time with `rlibreg-run -c`. Every second start
also has -v, which reports what the loader did, but makes the loader set up its C library first. One loop puts further
versions in the place of the library, at times so slowly that images are kept in between, and empties the folder of
images. Some starts and some changes are killed. The printed version has to be one that the disk had while the start went
on: none that is older than the last version acknowledged before the start, and none whose change hadn't begun. The script
exits with status 1 if one is different.
"""

import collections
import contextlib
import os
import random
import subprocess
import sys
import tempfile
import threading
import time
from pathlib import Path

sys.path[1:1] = map(str, Path(__file__).resolve().parents[1].glob('*/'))  # the folders of bench
from media import loop

COMPILE = ['gcc', '-O1', '-fPIC', '-nostdlib', '-fno-stack-protector', '-Wl,--hash-style=sysv']
STARTS, VERSIONS = 20, 4000
LIBRARY = 'const char version[] = "%06d";\n'
PROGRAM = '''extern const char version[];
void _start(void) {
    __asm__ volatile("syscall" : : "a"(1), "D"(1), "S"(version), "d"(6) : "rcx", "r11", "memory");
    __asm__ volatile("syscall" : : "a"(60), "D"(0));
}
'''


class Versions:
    """The versions that the disk may have, and the disk's place."""

    def __init__(self):
        self.guard, self.disk = threading.Lock(), 'disk'
        self.begun = self.acknowledged = 0

    def begin(self):
        with self.guard:
            self.begun += 1
            return self.begun

    def acknowledge(self, version):
        with self.guard:
            self.acknowledged = version


def make(folder):
    for name, text, words in (('libv.so', LIBRARY % 0, ['-shared', '-Wl,-soname,libv.so']),
                              ('program', PROGRAM, ['-pie', '-Wl,-e,_start', 'libv.so'])):
        (folder / f'{name}.c').write_text(text)
        subprocess.run([*COMPILE, '-o', name, f'{name}.c', *words], cwd=folder, check=True, capture_output=True)
    return (folder / 'libv.so').read_bytes()


def killed_at_times(words, choose, rate):
    """Runs a command, and kills it in some of the runs. Returns its status and output, or None if it was killed."""
    it = subprocess.Popen(words, stdout=subprocess.PIPE, stderr=subprocess.PIPE)
    if choose.random() < rate:
        time.sleep(choose.random() ** 2 / 20)
        it.kill()
        it.communicate()
        return None
    output, errors = it.communicate()
    return it.returncode, output, errors


def change(words, library, folder, versions, choose, until):
    while time.time() < until and versions.begun < VERSIONS:
        version = versions.begin()
        (folder / 'new.so').write_bytes(library.replace(b'000000', b'%06d' % version))
        ended = killed_at_times([*words, 'replace', versions.disk, 'new.so'], choose, 0.1)
        if ended is None:
            continue # the killed change may have been made
        assert ended[0] == 0 and ended[1] == b'ok\n', ended
        versions.acknowledge(version)
        if choose.random() < 0.2:
            time.sleep(choose.choice((0.01, 2.5, 4)))
        if choose.random() < 0.1:
            for it in (folder / 'kept').iterdir():
                it.unlink(missing_ok=True)


def start(words, versions, choose, until, counts, wrong):
    while time.time() < until:
        oldest = versions.acknowledged
        tells = ['-v'] if choose.random() < 0.5 else []
        ended = killed_at_times([*words, *tells, '-c', 'kept', versions.disk, './program'], choose, 0.1)
        newest = versions.begun
        if ended is None:
            counts['killed'] += 1
            continue
        status, output, errors = ended
        if status or len(output) != 6 or not oldest <= int(output) <= newest:
            wrong.append((oldest, newest, ended))
        told = 'taken' if b'is taken' in errors else 'kept' if b'the image is kept' in errors else 'bound'
        counts[told if tells else 'without a word'] += 1


def main():
    built, seconds = Path(sys.argv[1]).resolve(), float(sys.argv[2]) if len(sys.argv) > 2 else 60
    counts, wrong, versions = collections.Counter(), [], Versions()
    memory = '/dev/shm' if os.access('/dev/shm', os.W_OK) else None
    with contextlib.ExitStack() as stack:
        folder = Path(stack.enter_context(tempfile.TemporaryDirectory(dir=sys.argv[3] if len(sys.argv) > 3 else memory))).resolve()
        os.chdir(folder)
        library = make(folder)
        (folder / 'kept').mkdir(mode=0o700)
        for words in (['format', 'disk', '512'], ['install', 'disk', 'libv.so']):
            subprocess.run([built / 'rlibreg', *words], check=True, capture_output=True)
        if sys.argv[4:] == ['loop']:
            versions.disk = str(stack.enter_context(loop(folder / 'disk')))
        until = time.time() + seconds
        threads = [threading.Thread(target=start, args=(
            [built / 'rlibreg-run'], versions, random.Random(k), until, counts, wrong)) for k in range(STARTS)]
        for it in threads:
            it.start()
        change([built / 'rlibreg'], library, folder, versions, random.Random(99), until)
        for it in threads:
            it.join()
    told = ', '.join(f'{counts[it]:,} {it}' for it in ('taken', 'bound', 'kept', 'without a word', 'killed'))
    print(f'{STARTS} starts at once, {versions.begun:,} changes, {seconds:.0f} s: {told}; {len(wrong)} wrong')
    for it in wrong[:5]:
        print(it)
    sys.exit(bool(wrong) or not (counts['taken'] and counts['kept']))


if __name__ == '__main__':
    main()

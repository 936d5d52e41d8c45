#!/usr/bin/env python3
"""Starts random executables of `rlibreg-tool` on real kernels.

    python3 bench/trials/executables.py RLIBREG RLIBREG_TOOL FOLDER [--count 500] [--kernel VMLINUZ] [--accel tcg]

Each executable has a program and up to 20 libraries, made by random linkers with random flags at random bases. The program
ends with the sum of the values that its libraries and their data return. In some programs, segments share pages: each page
of the program has to have the permissions of all its segments, and there may not be two PT_LOADs if one would be enough. An
object is refused if one of its pages may be both written and executed, as read from the files. Other programs have 71, 75,
1,167 and 1,171 program headers, and the last is refused. All of them are started here, and with --kernel also in a guest of
qemu; a kernel before 6.17 accepts at most 73 headers.
"""

import argparse
import gzip
import os
import random
import re
import struct
import subprocess
import sys
from pathlib import Path

LIBRARIES = 48
LIBRARY = """
static int data[{size}] = {{[{at}] = {value}}};
static int zeros[{more}];
static const char text[{size}] = {{[{at}] = {other}}};
static int *volatile place = &data[{at}];
int x_{name}(void) {{ zeros[{last}] += *place; return zeros[{last}] + text[{at}]; }}
"""
PROGRAM = """
{declarations}
void _start(void) {{
    int sum = 0;
    {calls}
    __asm__ volatile("syscall" : : "a"(60), "D"(sum & 127));
    __builtin_unreachable();
}}
"""
GCC = 'gcc -fuse-ld=bfd -fPIC -nostdlib -fno-stack-protector'.split()
LINKERS = [[], ['-z', 'noseparate-code'], ['-z', 'norelro'], ['-z', 'max-page-size=0x10000'], ['-z', 'now'], ['--build-id=none']]
SMALL = '-z max-page-size=512 -z common-page-size=512 -z norelro'.split()
SHARED = [[*SMALL, '-z', 'separate-code', *more] for more in (['--section-start=.dynamic=0x10000'],
                                                                ['-Ttext=0x20000', '--section-start=.eh_frame_hdr=0x30000'])]
BOTH = [[*SMALL, '-z', f'{more}separate-code'] for more in ('', 'no')]
PAGE = 4096
LOWEST = (6, 17)


def run(*words, **more):
    return subprocess.run([str(w) for w in words], capture_output=True, **more)


def done(*words):
    ended = run(*words)
    assert ended.returncode == 0, (words, ended)
    return ended.stdout


def linked(flags):
    return ['-Wl,' + ','.join(['--hash-style=sysv', *flags])]


def make_library(folder, choose, name, flags):
    """Makes a library. Returns the value that its function returns when it is first called."""
    size, more = choose.randint(1, 5000), choose.randint(1, 20000)
    value, other = choose.randint(1, 100), choose.randint(1, 20)
    source = folder / f'{name}.c'
    source.write_text(LIBRARY.format(name=name, size=size, at=choose.randrange(size), value=value, other=other, more=more,
                                     last=choose.randrange(more)))
    done(*GCC, choose.choice(['-O0', '-O1', '-O2']), '-shared', *linked(['-soname', f'lib{name}.so', *flags]), '-o', folder / f'lib{name}.so', source)
    return value + other


def make_program(folder, name, needs, flags):
    source = folder / f'{name}.c'
    calls = ' '.join(f'sum += x_{need}();' for need in needs)
    source.write_text(PROGRAM.format(declarations='\n'.join(f'extern int x_{need}(void);' for need in needs), calls=calls))
    done(*GCC, '-O1', '-pie', *linked(['-e', '_start', '--no-as-needed', *flags]), '-o', folder / f'{name}.bound', source,
         *(folder / f'lib{need}.so' for need in needs))


def loads(file):
    """Returns p_flags, p_offset, p_vaddr, p_filesz and p_memsz of each PT_LOAD of a file."""
    at, count = struct.unpack_from('<Q', file, 32)[0], struct.unpack_from('<H', file, 56)[0]
    headers = (struct.unpack_from('<IIQQQQQQ', file, at + 56 * i) for i in range(count))
    return [(flags, offset, address, size, memory) for kind, flags, offset, address, _, size, memory, _ in headers if kind == 1]


def pages(file, base=0):
    """Returns the permissions of each page of a file's segments, as p_flags."""
    permitted = {}
    for flags, _, address, _, size in loads(file):
        if size:
            for page in range((base + address) // PAGE, (base + address + size - 1) // PAGE + 1):
                permitted[page] = permitted.get(page, 0) | flags & 7
    return permitted


def are_one(first, second):
    """Returns whether one PT_LOAD would be enough for two: the two have the same permissions, which aren't both writing and
    executing, and no whole page lies between them."""
    (flags, _, address, size, _), (other, _, begin, _, _) = first, second
    return flags == other and flags & 3 != 3 and begin // PAGE * PAGE < address + size + PAGE


def is_both(file):
    return any(flags & 3 == 3 for flags in pages(file.read_bytes()).values())


class Executables:
    """Executables in a folder, each with its expected status and its number of program headers."""

    def __init__(self, words):
        self.words, self.folder = words, words.folder.resolve()
        self.files, self.gives, self.faults, self.refused = {}, {}, [], 0
        self.disk = self.folder / 'disk'
        (self.folder / 'files').mkdir(parents=True, exist_ok=True)
        done(words.rlibreg, 'format', self.disk, '65536')

    def library(self, choose, name, flags):
        self.gives[name] = make_library(self.folder, choose, name, flags)
        done(self.words.rlibreg, 'install', self.disk, self.folder / f'lib{name}.so')

    def wanted(self, name, needs):
        """Returns the expected message, about the first object that has a page which may be both written and
        executed."""
        if is_both(self.folder / f'{name}.bound'):
            return 'rlibreg-tool: refused WritableCode /program\n'
        both = [need for need in needs if is_both(self.folder / f'lib{need}.so')]
        return f'rlibreg-tool: refused WritableCode lib{both[0]}.so\n' if both else ''

    def executable(self, name, needs, flags, base):
        make_program(self.folder, name, needs, flags)
        ended = run(self.words.tool, 'executable', self.disk, self.folder / f'{name}.bound', hex(base))
        wanted = self.wanted(name, needs)
        if ended.returncode or wanted:
            self.refused += 1
            said = ended.stderr.decode()
            return '' if said == wanted else said or f'not: {wanted}'
        have = pages(ended.stdout)
        for page, flags in pages((self.folder / f'{name}.bound').read_bytes(), base).items():
            if have.get(page) != flags:
                self.faults.append(f'{name}: page {page:#x} permits {have.get(page)} and not {flags}')
        parts = [load for load in loads(ended.stdout) if load[1]]
        if any(map(are_one, parts, parts[1:])):
            self.faults.append(f'{name}: one PT_LOAD would do for two')
        count = int.from_bytes(ended.stdout[56:58], 'little')
        if (count > 73) != (b'73 program headers' in ended.stderr):
            self.faults.append(f'{name}: {count} headers, and standard error has {ended.stderr}')
        file = self.folder / 'files' / name
        file.write_bytes(ended.stdout)
        file.chmod(0o755)
        self.files[name] = sum(self.gives[need] for need in needs) & 127, count
        return ''

    def make(self, count):
        choose = random.Random(1)
        names = [f'l{i}' for i in range(LIBRARIES)]
        for name in names:
            self.library(choose, name, choose.choice(LINKERS + SHARED))
        for i, flags in enumerate(BOTH):
            self.library(choose, f'both{i}', flags)
        for i in range(count):
            needs = choose.sample(names, choose.randint(0, 20)) + ([f'both{i // 20 % 2}'] if i % 20 == 0 else [])
            base = choose.randrange(1, 0x4000) << choose.choice([16, 20, 28])
            flags = choose.choice(LINKERS + SHARED + (BOTH if i % 20 == 1 else []))
            said = self.executable(f'e{i}', needs, flags, base)
            if said:
                self.faults.append(f'e{i} at {base:#x}: {said}')
        more = [f'm{i}' for i in range(291)]
        for name in more:
            self.library(choose, name, [])
        for n in (16, 17, 290):
            said = self.executable(f'limit{n}', more[:n], [], 0x400000)
            if said:
                self.faults.append(f'{n} libraries: {said}')
        said = self.executable('limit291', more, [], 0x400000)
        if said != 'rlibreg-tool: refused TooManyHeaders\n':
            self.faults.append(f'291 libraries: {said}')

    def compare(self, where, release, ended):
        new = tuple(map(int, re.match(r'(\d+)\.(\d+)', release).groups())) >= LOWEST
        wrong = 0
        for name, (status, count) in self.files.items():
            starts = count <= 73 or new
            if (ended.get(name) == status) != starts:
                wrong += 1
                self.faults.append(f'{where}: {name}, of {count} headers, ended with {ended.get(name)} and not with {status}')
        print(f'{where}, Linux {release}: {len(self.files)} executables of up to {max(c for _, c in self.files.values())} headers, {wrong} wrong')

    def here(self):
        ended = {}
        for name in self.files:
            try:
                ended[name] = run(self.folder / 'files' / name, timeout=10).returncode
            except OSError:
                ended[name] = None
        self.compare('here', os.uname().release, ended)

    def guest(self, kernel, accel):
        """Starts a guest whose first process starts each of the executables."""
        root = self.folder / 'root'
        for part in ('bin', 'proc'):
            (root / part).mkdir(parents=True, exist_ok=True)
        done('cp', '-r', self.folder / 'files', root)
        done('cp', '/bin/busybox', root / 'bin')
        (root / 'init').write_text('#!/bin/busybox sh\n/bin/busybox uname -r\n'
                                   'for f in /files/*; do $f 2> /dev/null; echo "ended $f $?"; done\n/bin/busybox poweroff -f\n')
        (root / 'init').chmod(0o755)
        packed = subprocess.run('find . | cpio -o -H newc --quiet', shell=True, cwd=root, stdout=subprocess.PIPE, check=True).stdout
        (self.folder / 'initrd.gz').write_bytes(gzip.compress(packed, 1))
        said = run('qemu-system-x86_64', '-accel', accel, '-m', '2048', '-nographic', '-no-reboot', '-kernel', kernel, '-initrd',
                   self.folder / 'initrd.gz', '-append', 'console=ttyS0 quiet panic=-1', stdin=subprocess.DEVNULL, timeout=900).stdout.decode(errors='replace')
        release = re.search(r'(\d+\.\d+\.\S*)\r?\n', said[said.rfind('Booting'):])
        ended = {name: int(status) for name, status in re.findall(r'ended /files/(\w+) (\d+)', said)}
        assert release and ended, said[-2000:]
        self.compare('a guest', release.group(1), ended)


def main():
    parser = argparse.ArgumentParser()
    for word in ('rlibreg', 'tool', 'folder'):
        parser.add_argument(word, type=Path)
    parser.add_argument('--count', type=int, default=500)
    parser.add_argument('--kernel')
    parser.add_argument('--accel', default='tcg')
    words = parser.parse_args()
    words.rlibreg, words.tool = words.rlibreg.resolve(), words.tool.resolve()
    executables = Executables(words)
    executables.make(words.count)
    print(f'{executables.refused} refused')
    executables.here()
    if words.kernel:
        executables.guest(words.kernel, words.accel)
    print(*executables.faults[:10], sep='\n')
    sys.exit(1 if executables.faults else 0)


if __name__ == '__main__':
    main()

#!/usr/bin/env python3
"""Times binds with names that are suffixes of a few long strings.

    python3 bench/benchmarks/tails.py FOLDER PROGRAM ..

The script makes the files in the folder. Each program installs the libraries on a disk of its own and binds. The programs
take turns. The script prints the least user + system time of five binds of each program, in milliseconds. All images are the
same.
"""

import random
import resource
import struct
import subprocess
import sys
from pathlib import Path

IDENT = bytes.fromhex('7f454c46020101000000000000000000')
EXPORT, ASKED, SYMBOLIC = (0x12, 1), (0x10, 0), (16, 0)
RUNS, SECTORS = 5, '65536'


def string(length, kind):
    return bytes(random.Random(kind).choices(b'abcdefghi', k=length))


def made(strings, symbols, soname=b'', needed=(), tags=()):
    """Returns an object of symbols (pairs of where the name begins in its strings, and EXPORT or ASKED). Its exports
    are in one bucket, and a relocation names each symbol marked ASKED."""
    own, places = b'\0', []
    for name in [soname, *needed]:
        places.append(len(own))
        own += name + b'\0'
    exports = [i for i, (_, kind) in enumerate(symbols, 1) if kind == EXPORT]
    chains = [0] * (1 + len(symbols))
    for i, following in zip(exports, exports[1:]):
        chains[i] = following
    words = struct.pack(f'<{3 + len(chains)}I', 1, len(chains), exports[0] if exports else 0, *chains)
    words += bytes(-len(words) % 8)
    asked = [i for i, (_, kind) in enumerate(symbols, 1) if kind == ASKED]
    table = 64 + 112
    rows = table + len(words)
    text = rows + 24 * len(chains)
    held = own + strings + b'\0'
    rela = (text + len(held) + 7) // 8 * 8
    dynamic = rela + 24 * len(asked)
    entries = [(1, p) for p in places[1:]] + ([(14, places[0])] if soname else [])
    entries += [(4, table), (5, text), (6, rows), (10, len(held)), (11, 24)]
    entries += ([(7, rela), (8, 24 * len(asked)), (9, 24)] if asked else []) + [*tags, (0, 0)]
    data = dynamic + 16 * len(entries)
    end = data + 800
    file = IDENT + struct.pack('<HHIQQQIHHHHHH', 3, 62, 1, 0, 64, 0, 0, 64, 56, 2, 0, 0, 0)
    file += struct.pack('<IIQQQQQQ', 1, 6, 0, 0, 0, end, end, 0x1000)
    file += struct.pack('<IIQQQQQQ', 2, 6, dynamic, dynamic, dynamic, 16 * len(entries), 16 * len(entries), 8)
    file += words + bytes(24)
    file += b''.join(struct.pack('<IBBHQQ', len(own) + at, info, 0, section, section * data, 8 * section) for at, (info, section) in symbols)
    file += held + bytes(rela - text - len(held))
    file += b''.join(struct.pack('<QQq', data + 8 * (k % 100), i << 32 | 1, 0) for k, i in enumerate(asked))
    return file + b''.join(struct.pack('<QQ', *entry) for entry in entries) + bytes(800)


def tails(count, kind, begin=0):
    return [(begin + i, kind) for i in range(count)]


def in_two_libraries(n):
    """Returns n tails of one string, which two libraries export."""
    text = string(50 * n, 1)
    libraries = [made(text, tails(n, EXPORT), name) for name in (b'a', b'b')]
    return made(text, tails(n, ASKED), needed=[b'a', b'b']), libraries


def of_one_library(n):
    """Returns n tails of one string, which one library exports."""
    text = string(50 * n, 1)
    return made(text, tails(n, ASKED), needed=[b'a']), [made(text, tails(n, EXPORT), b'a')]


def of_a_symbolic_library(n):
    """Returns a symbolic library that exports n tails of one string, and whose relocations name n tails of another
    string, which the program exports."""
    own, other = string(50 * n, 1), string(50 * n, 2)
    symbols = tails(n, EXPORT) + tails(n, ASKED, len(own) + 1)
    return made(other, tails(n, EXPORT), needed=[b'a']), [made(own + b'\0' + other, symbols, b'a', tags=[SYMBOLIC])]


def least(folder, programs):
    """Returns the least time of each program. All programs have to print the same text."""
    for at, program in enumerate(programs):
        disk = folder / f'disk-{at}'
        disk.unlink(missing_ok=True)
        subprocess.run([program, 'format', disk, SECTORS], check=True, capture_output=True)
        for file in sorted(folder.glob('*.so')):
            subprocess.run([program, 'install', disk, file], check=True, capture_output=True)
    times, said = [float('inf')] * len(programs), set()
    for _ in range(RUNS):
        for at, program in enumerate(programs):
            before = resource.getrusage(resource.RUSAGE_CHILDREN)
            ran = subprocess.run([program, 'bind', folder / f'disk-{at}', folder / 'program', '0x10000'], check=True, capture_output=True)
            after = resource.getrusage(resource.RUSAGE_CHILDREN)
            said.add(ran.stdout)
            times[at] = min(times[at], 1000 * (after.ru_utime + after.ru_stime - before.ru_utime - before.ru_stime))
    assert len(said) == 1
    return times


def main():
    folder, programs = Path(sys.argv[1]), [str(Path(p).resolve()) for p in sys.argv[2:]]
    for make in (of_one_library, in_two_libraries, of_a_symbolic_library):
        for count in (20_000, 40_000, 80_000):
            if make is of_a_symbolic_library and count > 40_000:
                continue
            place = folder / f'{make.__name__}-{count}'
            place.mkdir(parents=True, exist_ok=True)
            program, libraries = make(count)
            (place / 'program').write_bytes(program)
            for i, library in enumerate(libraries):
                (place / f'{i}.so').write_bytes(library)
            print(f'{make.__name__:22} {count:6}', '  '.join(f'{t:8.1f}' for t in least(place, programs)), flush=True)


if __name__ == '__main__':
    main()

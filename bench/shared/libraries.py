#!/usr/bin/env python3
"""Makes the programs with libraries that docs/PERFORMANCE.md measures, in the named folder, and times them.

    python3 bench/shared/libraries.py FOLDER            makes the files, and a list of two cases for each
    python3 bench/shared/libraries.py FOLDER CASES      runs each list by the program CASES, five times, and prints the least time

A list `NAME.txt` has one case, which binds the program and reads one word. `NAME-unbound.txt` has the same at a base
that is refused once all files are read and admitted, so the difference of the two times is that of load order,
placement and relocation. The time that `cp` takes for a file with as many bytes as the image is printed beside these
times.
"""

import random
import resource
import struct
import subprocess
import sys
import time
from pathlib import Path

RUNS, PAGE = 5, 0x1000
IDENT = bytes.fromhex('7f454c46020101000000000000000000')
GLOBAL_FUNC, GLOBAL, WEAK = 0x12, 0x10, 0x20


def elf_hash(name):
    h = 0
    for byte in name:
        h = (h << 4) + byte
        h = (h ^ (h & 0xf0000000) >> 24) & 0x0fffffff
    return h


def hash_table(names, buckets):
    """Returns a hash table that has the symbols of these names, from number 1 on, in `buckets` buckets. Without
    buckets, it has none of the symbols."""
    heads, chains = [0] * (buckets or 1), [0] * (len(names) + 1)
    for i, name in enumerate(names, 1) if buckets else ():
        at = elf_hash(name) % buckets
        chains[i], heads[at] = heads[at], i
    return struct.pack(f'<{2 + len(heads) + len(chains)}I', len(heads), len(chains), *heads, *chains)


def padded(part):
    return part + bytes(-len(part) % 8)


class Made:
    """An object of one writable segment. It has its tables, `data` bytes, and `behind` bytes of memory after the
    file's bytes, into which its relocations write. The value of an export lies in that memory too."""

    def __init__(self, soname=None, needed=(), exports=(), undefined=(), relocations=(), data=0, behind=0, tags=(), binding=GLOBAL, buckets=None):
        strings, places = b'\0', []
        for name in ([] if soname is None else [soname]) + list(needed) + list(exports) + list(undefined):
            places.append(len(strings))
            strings += name + b'\0'
        own, wanted = len([soname] if soname else []), len(needed)
        table = 64 + 112
        words = padded(hash_table(list(exports) + list(undefined), buckets or len(exports)))
        symbols = table + len(words)
        text = symbols + 24 * (1 + len(exports) + len(undefined))
        rela = text + len(padded(strings))
        dynamic = rela + 24 * len(relocations)
        entries = [(1, p) for p in places[own:own + wanted]] + [(14, p) for p in places[:own]]
        entries += [(4, table), (5, text), (6, symbols), (10, len(strings)), (11, 24)]
        entries += [(7, rela), (8, 24 * len(relocations)), (9, 24)] if relocations else []
        entries += list(tags) + [(0, 0)]
        end = dynamic + 16 * len(entries) + data
        self.memory = end = (end + 7) // 8 * 8
        rows = [struct.pack('<IBBHQQ', p, GLOBAL_FUNC, 0, 1, end + 8 * i, 8) for i, p in enumerate(places[own + wanted:][:len(exports)])]
        rows += [struct.pack('<IBBHQQ', p, binding, 0, 0, 0, 0) for p in places[own + wanted + len(exports):]]
        headers = [(1, 6, 0, 0, end, end + behind, PAGE), (2, 6, dynamic, dynamic, 16 * len(entries), 16 * len(entries), 8)]
        file = IDENT + struct.pack('<HHIQQQIHHHHHH', 3, 62, 1, 0, 64, 0, 0, 64, 56, 2, 0, 0, 0)
        file += b''.join(struct.pack('<IIQQQQQQ', k, f, o, a, a, s, m, n) for k, f, o, a, s, m, n in headers)
        file += words + bytes(24) + b''.join(rows) + padded(strings)
        file += b''.join(struct.pack('<QQq', end + place, symbol << 32 | kind, addend) for kind, place, symbol, addend in relocations)
        file += b''.join(struct.pack('<QQ', *entry) for entry in entries)
        self.file, self.size = file + bytes(end - len(file)), end + behind


def name(i):
    return b'lib%02d' % i


def symbol(i):
    return b's%05d' % i


def chain():
    """Returns 100 libraries, each of which needs the next; the program needs the first."""
    return Made(needed=[name(0)], behind=8), [Made(name(i), [name(i + 1)] if i < 99 else [], behind=8) for i in range(100)]


def mesh():
    """Returns 100 libraries, each of which needs all of them."""
    everyone = [name(i) for i in range(100)]
    return Made(needed=[name(0)], behind=8), [Made(name(i), everyone, behind=8) for i in range(100)]


def exports():
    """Returns a library with 100,000 exports, and a program with 600,000 relocations that name 50,000 of them."""
    library = Made(name(0), exports=[symbol(i) for i in range(100_000)], behind=800_000)
    relocations = [(1 if i % 3 else 6, 8 * i, 1 + i * 7919 % 50_000, i) for i in range(600_000)]
    return Made(needed=[name(0)], undefined=[symbol(2 * i) for i in range(50_000)], relocations=relocations, behind=4_800_000), [library]


def of_itself(tags):
    """Returns a library with 50,000 exports and 600,000 relocations that name them, and a program that needs it."""
    relocations = [(1 if i % 3 else 6, 8 * i, 1 + i * 7919 % 50_000, i) for i in range(600_000)]
    library = Made(name(0), exports=[symbol(i) for i in range(50_000)], relocations=relocations, behind=4_800_000, tags=tags)
    return Made(needed=[name(0)], behind=8), [library]


def own_names():
    """Returns a library that isn't symbolic: FLAGS is 8."""
    return of_itself([(30, 8)])


def symbolic():
    """Returns the same library as a symbolic one: FLAGS is 2."""
    return of_itself([(30, 2)])


def one_symbol():
    """Returns a program of 16 MiB, nearly all of which is relocations of one symbol, which the last of 100 libraries
    exports."""
    libraries = [Made(name(i), exports=[b'other'], behind=8) for i in range(99)] + [Made(name(99), exports=[b'wanted'], behind=8)]
    count = (16_777_216 - 8_000) // 24
    relocations = [(1, 8 * i, 1, i) for i in range(count)]
    return Made(needed=[name(i) for i in range(100)], undefined=[b'wanted'], relocations=relocations, behind=8 * count), libraries


def megabytes():
    """Returns 100 libraries of 1 MiB each."""
    libraries = [Made(name(i), exports=[symbol(i)], data=1_048_576 - 512, behind=8) for i in range(100)]
    return Made(needed=[name(i) for i in range(100)], undefined=[symbol(99)], relocations=[(1, 0, 1, 0)], behind=8), libraries


def many_lookups():
    """Returns 99 libraries with 2,000 exports each of other names, and a program that names 5,000 exports of the last
    one."""
    libraries = [Made(name(i), exports=[b'n%02d%s' % (i, symbol(k)) for k in range(2_000)], behind=16_000) for i in range(99)]
    last = Made(name(99), exports=[symbol(i) for i in range(5_000)], behind=40_000)
    relocations = [(1, 8 * i, 1 + i % 5_000, 0) for i in range(50_000)]
    return Made(needed=[name(i) for i in range(100)], undefined=[symbol(i) for i in range(5_000)], relocations=relocations,
                behind=400_000), libraries + [last]


def function(library, i):
    return b'lib%d_ZN4part%d6module8function%dEv' % (library, i % 97, i)


def graph(count):
    """Returns `count` libraries, each of which has 2,000 exports, and names 1,000 exports of three other libraries
    and 500 of its own; and a program that names 2,000 exports of all of them."""
    libraries = []
    for k in range(count):
        pick = random.Random(k)
        needs = sorted({(k + 1) % count, (2 * k + 1) % count, (3 * k + 7) % count} - {k})
        theirs = [function(pick.choice(needs), i) for i in pick.sample(range(2_000), 1_000)]
        relocations = [(6, 8 * i, 2_001 + i, 0) for i in range(1_000)] + [(7, 8_000 + 8 * i, 1 + i, 0) for i in range(500)]
        relocations += [(8, 12_000 + 8 * i, 0, 64 * i) for i in range(500)]
        libraries.append(Made(name(k), [name(i) for i in needs], [function(k, i) for i in range(2_000)], theirs, relocations, behind=16_000, buckets=1_501))
    wanted = [function(i % count, i) for i in range(2_000)]
    relocations = [(1, 8 * i, 1 + i, 0) for i in range(2_000)]
    return Made(needed=[name(i) for i in range(count)], undefined=wanted, relocations=relocations, behind=16_000), libraries


def graph_25():
    """Returns the graph of 25 libraries."""
    return graph(25)


def graph_50():
    """Returns the graph of 50 libraries."""
    return graph(50)


def graph_100():
    """Returns the graph of 100 libraries."""
    return graph(100)


def absent():
    """Returns 25,000 weak names that none of 100 libraries with 1,000 exports each has."""
    libraries = [Made(name(k), exports=[function(k, i) for i in range(1_000)], behind=8_000, buckets=501) for k in range(100)]
    relocations = [(1, 8 * i, 1 + i, 0) for i in range(25_000)]
    wanted = [b'no_' + function(0, i) for i in range(25_000)]
    return Made(needed=[name(i) for i in range(100)], undefined=wanted, relocations=relocations, behind=200_000, binding=WEAK), libraries


MADE = [chain, mesh, exports, own_names, symbolic, one_symbol, megabytes, many_lookups, graph_25, graph_50, graph_100, absent]


def make(folder):
    for maker in MADE:
        program, libraries = maker()
        place = folder / maker.__name__
        place.mkdir(parents=True, exist_ok=True)
        (place / 'program').write_bytes(program.file)
        for i, library in enumerate(libraries):
            (place / f'{i:02}').write_bytes(library.file)
        rest = ''.join(f' + {i:02}' for i in range(len(libraries)))
        address = 0x10000 + program.size - 8
        (place / 'bound.txt').write_text(f'word 0x{address:x} program 0x10000{rest} =/> none\n')
        (place / 'unbound.txt').write_text(f'word 0x{address:x} program 0x10001{rest} => refused B2 BadBase\n')
        size = program.size + sum(library.size for library in libraries)
        (place / 'bytes').write_bytes(bytes(range(256)) * (size // 256))
        print(maker.__name__, sum(len(o.file) for o in [program] + libraries), 'bytes in files,', size, 'bytes in the image')


def least(words, place):
    """Returns the least real time and the least user + system time of some runs."""
    rows = []
    for _ in range(RUNS):
        before, start = resource.getrusage(resource.RUSAGE_CHILDREN), time.perf_counter()
        said = subprocess.run(words, cwd=place, check=True, capture_output=True, text=True).stdout
        real, after = time.perf_counter() - start, resource.getrusage(resource.RUSAGE_CHILDREN)
        assert words[0] == 'cp' or said == '1 cases, 0 differ\n', said
        rows.append((real, after.ru_utime + after.ru_stime - before.ru_utime - before.ru_stime))
    return [min(row[k] for row in rows) for k in (0, 1)]


def peak(words, place):
    """Returns the maximum memory of a run, in MiB."""
    said = subprocess.run(['/usr/bin/time', '-f', '%M', *words], cwd=place, check=True, capture_output=True, text=True).stderr
    return int(said.split()[-1]) / 1024


def run(folder, program):
    for maker in MADE:
        place = folder / maker.__name__
        bound, unbound = least([program, 'bound.txt'], place), least([program, 'unbound.txt'], place)
        copied = least(['cp', 'bytes', 'copy'], place)
        image, memory = (place / 'bytes').stat().st_size / 2**20, peak([program, 'bound.txt'], place)
        print(f'{maker.__name__:12} image {image:6.1f} MiB, memory {memory:6.1f} MiB; bound {bound[0]:.3f} ({bound[1]:.3f}), '
              f'unbound {unbound[0]:.3f} ({unbound[1]:.3f}), cp {copied[0]:.3f} ({copied[1]:.3f}); '
              f'binding alone {bound[1] - unbound[1]:.3f}, of cp {(bound[1] - unbound[1]) / max(copied[1], 0.001):.1f}', flush=True)


if __name__ == '__main__':
    if len(sys.argv) == 2:
        make(Path(sys.argv[1]))
    else:
        run(Path(sys.argv[1]), str(Path(sys.argv[2]).resolve()))

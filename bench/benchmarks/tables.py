#!/usr/bin/env python3
"""Makes libraries with large and hostile tables, and measures how long builds of `rlibreg` take to read and admit
them.

    python3 bench/benchmarks/tables.py FOLDER               makes the files
    python3 bench/benchmarks/tables.py FOLDER PROGRAM ..    runs the programs in turn on each file

A run is `image FILE 0x1`: a valid file is refused too, with B2 (BadBase), but only after its admission, so no image is
made. The script prints the least user + system time of seven runs of each program, in milliseconds.
"""

import random
import resource
import struct
import subprocess
import sys
from array import array
from pathlib import Path

PAGE = 0x1000
HEADER = bytes.fromhex('7f454c46020101000000000000000000')
GLOBAL_FUNCTION = 0x12
LOCAL = 0


def elf_hash(name):
    value = 0
    for byte in name:
        value = ((value << 4) + byte) & 0xffffffff
        high = value & 0xf0000000
        value = (value ^ high >> 24) & ~high
    return value


def words(numbers):
    return array('I', numbers).tobytes()


def library(strings, symbols, buckets, chains, needed=0):
    """Returns a library named `q`. `symbols` has the symbols from number 1 on, as pairs (offset of the name, st_info).
    `strings` come after the library's own strings. `chains` has the chain words, also that of symbol 0. The library names
    `q` `needed` times as a needed library. Addresses are offsets of the file."""
    own = b'\0q\0'
    table = words([len(buckets), len(chains)]) + words(buckets) + words(chains)
    table += bytes(-len(table) % 8)
    text = own + strings
    hash_at = 64 + 2 * 56
    symbols_at = hash_at + len(table)
    text_at = symbols_at + 24 * (len(symbols) + 1)
    dynamic_at = (text_at + len(text) + 7) // 8 * 8
    entries = [(1, 1)] * needed + [(14, 1), (4, hash_at), (5, text_at), (6, symbols_at), (10, len(text)), (11, 24), (0, 0)]
    size = dynamic_at + 16 * len(entries)
    file = HEADER + struct.pack('<HHIQQQIHHHHHH', 3, 62, 1, 0, 64, 0, 0, 64, 56, 2, 0, 0, 0)
    file += struct.pack('<IIQQQQQQ', 1, 6, 0, 0, 0, size, size, PAGE)
    file += struct.pack('<IIQQQQQQ', 2, 6, dynamic_at, dynamic_at, dynamic_at, 16 * len(entries), 16 * len(entries), 8)
    file += table + bytes(24)
    file += b''.join(struct.pack('<IBBHQQ', len(own) + at, info, 0, 1, size - 8, 8) for at, info in symbols)
    file += text + bytes(dynamic_at - text_at - len(text))
    file += b''.join(struct.pack('<QQ', *entry) for entry in entries)
    assert len(file) == size <= 1 << 24, size
    return file


def numbered(count, stem=b'', digits=6):
    """Returns `count` names that end in their number."""
    return [stem + f'{i:0{digits}x}'.encode() for i in range(count)]


def placed(names):
    """Returns the strings of some names, and where each begins."""
    offsets, at = [], 0
    for name in names:
        offsets.append(at)
        at += len(name) + 1
    return b'\0'.join(names) + b'\0', offsets


def line(count):
    """Returns the chain words of one walk that begins at symbol 1 and visits all symbols."""
    return [0] + [i + 1 if i < count else 0 for i in range(1, count + 1)]


def exported(offsets):
    return [(at, GLOBAL_FUNCTION) for at in offsets]


def one_bucket(count, buckets=1):
    strings, offsets = placed(numbered(count))
    return library(strings, exported(offsets), [1] * buckets, line(count))


def own_buckets(count):
    """Makes as many buckets as symbols, each with the chain of its symbols."""
    names = numbered(count)
    strings, offsets = placed(names)
    buckets, chains = [0] * count, [0] * (count + 1)
    for i, name in enumerate(names, 1):
        bucket = elf_hash(name) % count
        chains[i] = buckets[bucket]
        buckets[bucket] = i
    return library(strings, exported(offsets), buckets, chains)


def tree(count):
    """Makes chains that merge: the word of symbol i is i // 2. Each symbol whose bucket is free is exported. The walk from
    the bucket of symbol i begins at symbol i * 2^k, for the greatest k that is possible."""
    names = numbered(count)
    strings, offsets = placed(names)
    buckets, symbols = [count - i % (count // 2) for i in range(count)], []
    taken = set()
    for i, name in enumerate(names, 1):
        bucket = elf_hash(name) % count
        symbols.append((offsets[i - 1], LOCAL if bucket in taken else GLOBAL_FUNCTION))
        if bucket not in taken:
            taken.add(bucket)
            below = i
            while 2 * below <= count:
                below *= 2
            buckets[bucket] = below
    return library(strings, symbols, buckets, [i // 2 for i in range(count + 1)])


def comb(count):
    """Makes chains that merge into one chain of half the symbols: each symbol of the other half begins a walk along
    this chain. The symbols of the long chain whose buckets are free are exported, except its last 1,000."""
    half = count // 2
    names = numbered(count)
    strings, offsets = placed(names)
    chains = [0] + [i - 1 for i in range(1, half + 1)] + [half - i % 1000 for i in range(half)]
    buckets, symbols, taken = [half + 1 + i % half for i in range(count)], [], set()
    for i, name in enumerate(names, 1):
        bucket = elf_hash(name) % count
        free = i <= half - 1000 and bucket not in taken
        taken.add(bucket)
        symbols.append((offsets[i - 1], GLOBAL_FUNCTION if free else LOCAL))
    return library(strings, symbols, buckets, chains)


def used(program, file):
    """Returns the processor time of a run, in milliseconds, or infinity if it hasn't ended after 20 seconds."""
    before = resource.getrusage(resource.RUSAGE_CHILDREN)
    try:
        ended = subprocess.run([program, 'image', str(file), '0x1'], stdout=subprocess.DEVNULL, timeout=20)
        assert ended.returncode == 1, (program, file, ended)
    except subprocess.TimeoutExpired:
        return float('inf')
    after = resource.getrusage(resource.RUSAGE_CHILDREN)
    return 1000 * (after.ru_utime + after.ru_stime - before.ru_utime - before.ru_stime)


def compare(folder, programs):
    """Runs the programs in turn on each file."""
    for file in sorted(folder.glob('*.so')):
        least = [float('inf')] * len(programs)
        for _ in range(7):
            least = [min(so_far, used(program, file)) for so_far, program in zip(least, programs)]
        print(f'{file.name:18}', '  '.join(f'{milliseconds:8.1f}' for milliseconds in least), flush=True)


def main():
    folder, programs = Path(sys.argv[1]), sys.argv[2:]
    if programs:
        compare(folder, programs)
        return
    folder.mkdir(parents=True, exist_ok=True)
    ring = line(300_000)
    ring[300_000] = 1
    strings, offsets = placed(numbered(300_000))
    long = b'n' * 4_000_000
    same_strings, same = placed([long, long])
    beginnings, begun = placed(numbered(100_000, b'n' * 100))
    tails = b'n' * 16_000 + b'\0'
    many_tails = b'n' * 74_880 + b'\0'
    alike, begins = placed([b'n' * 1_200_000 + last + b'endofstr' for last in (b'a', b'b')])
    of_both = [begin + i for begin in begins for i in range(40_000)]
    made = {
        'one_bucket.so': one_bucket(300_000),
        'own_buckets.so': own_buckets(300_000),
        'many_buckets.so': one_bucket(140_000, 2_000_000),
        'tree.so': tree(300_000),
        'comb.so': comb(300_000),
        'ring.so': library(strings, exported(offsets), [1], ring),
        'one_name.so': library(b'name\0', exported([0] * 200_000), [1], line(200_000)),
        'two_places.so': library(same_strings, exported([same[i % 2] for i in range(200_000)]), [1], line(200_000)),
        'beginnings.so': library(beginnings, exported(begun), [1], line(100_000)),
        'tails.so': library(tails, exported(range(16_000)), [1], line(16_000)),
        'hashed_tails.so': library(tails, exported(range(16_000)), [1, 0], line(16_000)),
        'shuffled_tails.so': library(tails, exported(random.Random(0).sample(range(16_000), 16_000)), [1, 0], line(16_000)),
        'many_hashed.so': library(many_tails, exported(range(74_880)), [1, 0], line(74_880)),
        'far_hashed.so': library(b'n' * 8_000_000 + b'\0', exported(random.Random(0).sample(range(0, 8_000_000, 2_000), 4_000)), [1, 0], line(4_000)),
        'long_tails.so': library(b'n' * 8_000_000 + b'\0', exported(range(300_000)), [1], line(300_000)),
        'two_strings.so': library(alike, exported(of_both), [1], line(80_000)),
        'needed.so': library(b'', [], [0], [0], needed=1_000_000),
    }
    for name, file in made.items():
        (folder / name).write_bytes(file)
        print(name, len(file), 'bytes')


if __name__ == '__main__':
    main()

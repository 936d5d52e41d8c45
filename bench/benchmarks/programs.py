#!/usr/bin/env python3
"""Makes the large and hostile programs that docs/PERFORMANCE.md measures, in the named folder."""
import random
import struct
import sys
from pathlib import Path

PAGE = 0x1000
HEADER = bytes.fromhex('7f454c46020101000000000000000000')


def header(kind, flags, offset, address, file_size, memory_size, alignment):
    return struct.pack('<IIQQQQQQ', kind, flags, offset, address, address, file_size, memory_size, alignment)


# The tables that an object must have: a hash table of one bucket, symbol 0, and eight bytes of strings.
TABLES = struct.pack('<4I', 1, 1, 0, 0) + bytes(24 + 8)


def tags_of(address):
    """Returns the dynamic entries that give the addresses of these tables."""
    return [(4, address), (6, address + 16), (5, address + 40), (10, 1), (11, 24)]


def program(relocations, memory, loads=0, data=0, notes=1):
    """Returns a program: one PT_LOAD over the whole file with `memory` bytes after it, `loads` more PT_LOADs of 16
    bytes of memory with `notes` PT_NOTEs before each, the relocations as pairs of a place after the file and an
    addend, and `data` bytes at the end."""
    count = 2 + (1 + notes) * loads
    table = 64 + 56 * count
    tables = table + 24 * len(relocations)
    dynamic = tables + len(TABLES)
    size = dynamic + 9 * 16 + data
    end = size + memory
    base = (size + 7) // 8 * 8
    headers = [header(1, 6, 0, 0, size, end, PAGE)]
    for i in range(loads):
        headers += [header(4, 4, 0, 0, 0, 0, 1)] * notes
        headers.append(header(1, 6, 0, (end + 15) // 16 * 16 + 16 * i, 0, 16, 1))
    headers.append(header(2, 6, dynamic, dynamic, 144, 144, 8))
    entries = tags_of(tables) + [(7, table), (8, 24 * len(relocations)), (9, 24), (0, 0)]
    file = HEADER + struct.pack('<HHIQQQIHHHHHH', 3, 62, 1, 0, 64, 0, 0, 64, 56, count, 0, 0, 0)
    file += b''.join(headers)
    file += b''.join(struct.pack('<QQQ', base + place, 8, addend) for place, addend in relocations)
    file += TABLES + b''.join(struct.pack('<QQ', *entry) for entry in entries)
    return file + bytes(i * 7 % 251 for i in range(min(data, 251))) * (data // 251) + bytes(data % 251)


def two_headers(load, dynamic):
    """Returns a file header and two program headers."""
    file = HEADER + struct.pack('<HHIQQQIHHHHHH', 3, 62, 1, 0, 64, 0, 0, 64, 56, 2, 0, 0, 0)
    return file + header(1, 6, *load) + header(2, 6, *dynamic)


def empty_segment(memory):
    """Returns a program with one PT_LOAD of `memory` bytes of memory, whose file has only its tables, and no
    relocations."""
    tables = 64 + 56 * 2
    dynamic = tables + len(TABLES)
    file = two_headers((tables, 0, len(TABLES), memory, 1), (dynamic, 0, 96, 96, 8))
    return file + TABLES + b''.join(struct.pack('<QQ', *entry) for entry in tags_of(0) + [(0, 0)])


def long_dynamic(count):
    """Returns a program whose dynamic section has `count` entries of a tag that isn't read, and then those of its
    tables."""
    tables = 64 + 56 * 2
    dynamic, size = tables + len(TABLES), 16 * (count + 6)
    file = two_headers((tables, 0, len(TABLES), len(TABLES), 1), (dynamic, 0, size, size, 8))
    return file + TABLES + struct.pack('<QQ', 0x6ffffef5, 0) * count + b''.join(
        struct.pack('<QQ', *entry) for entry in tags_of(0) + [(0, 0)])


def scattered(loads, count):
    """Returns a program of `loads` PT_LOADs with a PT_NOTE before each, and `count` relocations into them in random
    order."""
    first = program([(0, 0)] * count, 16, loads)
    start = (len(first) + 16 + 15) // 16 * 16 - (len(first) + 7) // 8 * 8
    numbers = random.Random(1)
    return program([(start + 16 * numbers.randrange(loads), i) for i in range(count)], 16, loads)


def main():
    folder = Path(sys.argv[1])
    folder.mkdir(parents=True, exist_ok=True)
    made = {
        'relocations.so': program([(8 * i, i) for i in range(600_000)], 8 * 600_000 + 8),
        'segment.so': program([(0, 0)], 16, data=15 * 1024 * 1024),
        'memory.so': empty_segment(64 * 1024 * 1024),
        'many_headers.so': program([(0, 0)], 16, 60_000, notes=0),
        'scattered.so': scattered(32_499, 540_000),
        'dynamic.so': long_dynamic(1_000_000),
    }
    loads = 32_499
    first = program([(0, 0)] * 100_000, 16, loads)
    far = (len(first) + 16 + 15) // 16 * 16 + 16 * (loads - 1) - (len(first) + 7) // 8 * 8
    made['headers.so'] = program([(far * (i % 2), i) for i in range(100_000)], 16, loads)
    for name, file in made.items():
        (folder / name).write_bytes(file)
        print(name, len(file), 'bytes')


if __name__ == '__main__':
    main()

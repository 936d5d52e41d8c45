"""A second reading of the sectors of a disk of either version: the encoding of roots, entries and catalogues."""

import struct
from collections import namedtuple

from scripts import IN_CATALOGUE, MOST_LIBRARIES, MOST_PRELOADS, SECTOR, are_distinct, catalogues_for, sectors_of

FEWEST, MOST, MOST_EXTENTS = 8, 4194304, 32
MAGIC = {1: b'RLIBREG1', 2: b'RLIBREG2'}
MOST_OLD = 100
# `count` libraries. `listed` has the sectors of their entries in version 1, and those of the catalogues in version
# 2.
Root = namedtuple('Root', 'version generation sectors count preloads listed')
Entry = namedtuple('Entry', 'name length extents')


def padded(data, length):
    return data + bytes(length - len(data))


def spelt_root(root):
    counts = struct.pack('<QIHH', root.generation, root.sectors, root.count, len(root.preloads))
    preloads = struct.pack(f'<{len(root.preloads)}H', *root.preloads)
    catalogues = struct.pack('<H', len(root.listed)) if root.version == 2 else b''
    front = padded(padded(MAGIC[root.version] + counts + preloads, 56) + catalogues, 64)
    return padded(front + struct.pack(f'<{len(root.listed)}I', *root.listed), SECTOR)


def spelt_entry(entry):
    front = b'LIBE' + struct.pack('<IHHI', entry.length, len(entry.name), len(entry.extents), 0) + entry.name
    return padded(padded(front, 256) + b''.join(struct.pack('<II', *extent) for extent in entry.extents), SECTOR)


def spelt_catalogue(entries):
    return padded(padded(b'LIBC' + struct.pack('<H', len(entries)), 16) + struct.pack(f'<{len(entries)}I', *entries), SECTOR)


def read_root(sector):
    """Returns the root that a sector encodes, or None."""
    version = next(number for number, magic in MAGIC.items() if sector[:8] == magic)
    generation, sectors, libraries, preloads = struct.unpack_from('<QIHH', sector, 8)
    most = MOST_OLD if version == 1 else MOST_LIBRARIES
    if not FEWEST <= sectors <= MOST or libraries > most or preloads > MOST_PRELOADS:
        return None
    places = libraries if version == 1 else catalogues_for(libraries)
    root = Root(version, generation, sectors, libraries, list(struct.unpack_from(f'<{preloads}H', sector, 24)),
                list(struct.unpack_from(f'<{places}I', sector, 64)))
    good = (are_distinct(root.preloads) and all(p < libraries for p in root.preloads) and are_distinct(root.listed)
            and all(2 <= k < sectors for k in root.listed))
    return root if good and spelt_root(root) == sector else None


def read_catalogue(sector):
    """Returns the entry sectors of the catalogue that a sector encodes, or None."""
    count, = struct.unpack_from('<H', sector, 4)
    if not 1 <= count <= IN_CATALOGUE:
        return None
    entries = list(struct.unpack_from(f'<{count}I', sector, 16))
    good = are_distinct(entries) and all(2 <= k < MOST for k in entries)
    return entries if good and spelt_catalogue(entries) == sector else None


def read_entry(sector):
    """Returns the entry that a sector encodes, or None."""
    length, name_length, count = struct.unpack_from('<IHH', sector, 4)
    if not 64 <= length <= 1 << 24 or not 1 <= name_length <= 240 or not 1 <= count <= MOST_EXTENTS:
        return None
    name = sector[16:16 + name_length]
    extents = [struct.unpack_from('<II', sector, 256 + 8 * i) for i in range(count)]
    good = (all(0x21 <= b <= 0x7E and b != 0x2F for b in name) and all(s >= 2 and n >= 1 and s + n <= MOST for s, n in extents)
            and sum(n for _, n in extents) == sectors_of(length))
    entry = Entry(name, length, extents)
    return entry if good and spelt_entry(entry) == sector else None

"""The sample files, built part by part."""

import struct
from dataclasses import dataclass, field

IDENT = bytes.fromhex('7f454c46020101000000000000000000')
NOTYPE, OBJECT, FUNC = 0, 1, 2
LOCAL, GLOBAL, WEAK = 0, 1, 2
DEFAULT, INTERNAL, HIDDEN, PROTECTED = 0, 1, 2, 3
UNDEFINED, DEFINED, ABSOLUTE = 0, 1, 0xFFF1
R_NONE, R_64, R_GLOB_DAT, R_JUMP_SLOT, R_RELATIVE = 0, 1, 6, 7, 8


@dataclass
class Symbol:
    """A symbol: at an offset from the start of the data, or undefined, or with a value of its own."""
    name: bytes
    binding: int = GLOBAL
    kind: int = NOTYPE
    section: int = UNDEFINED
    at: int = 0
    visibility: int = DEFAULT


@dataclass
class Object:
    """An object whose addresses are its file's offsets, with one writable segment.

    The parts follow each other, each padded by zeros to a multiple of 8: the headers, a hash table of one bucket, the
    symbols, the strings, the relocations, the dynamic section and the data. The relocations are (type, offset from the
    start of the data, symbol, addend).
    """
    soname: bytes = None
    needed: list = field(default_factory=list)
    symbols: list = field(default_factory=list)
    relocations: list = field(default_factory=list)
    data: int = 8
    tail: int = 0
    headers: list = field(default_factory=list)
    entries: list = field(default_factory=list)
    nulls: int = 1
    hash_words: list = None


def padded(part):
    return part + bytes(-len(part) % 8)


def program_header(kind, flags=0, offset=0, address=0, in_file=0, in_memory=0, align=0):
    return struct.pack('<IIQQQQQQ', kind, flags, offset, address, 0, in_file, in_memory, align)


def chain_words(count):
    """Returns the words of a hash table of one bucket, which has all symbols in their order."""
    chains = [0] + [i + 1 for i in range(1, count)] + ([0] if count else [])
    return [1, count + 1, 1 if count else 0] + chains


def strings_of(o):
    """Returns the string table, and the offsets in it of the SONAME, the needed names and the symbols' names."""
    table, places = b'\0', []
    for name in ([] if o.soname is None else [o.soname]) + o.needed + [s.name for s in o.symbols]:
        places.append(len(table))
        table += name + b'\0'
    return table, places


def build(o):
    """Returns the bytes of an object, and the offsets at which its parts begin."""
    count = 2 + len(o.headers)
    words = o.hash_words or chain_words(len(o.symbols))
    strings, places = strings_of(o)
    sonames = [] if o.soname is None else [places[0]]
    needed = places[len(sonames):len(sonames) + len(o.needed)]
    names = places[len(sonames) + len(o.needed):]
    at = {'hash': 64 + 56 * count}
    at['symbols'] = at['hash'] + len(padded(bytes(4 * len(words))))
    at['strings'] = at['symbols'] + 24 * (1 + len(o.symbols))
    at['relocations'] = at['strings'] + len(padded(strings))
    at['dynamic'] = at['relocations'] + 24 * len(o.relocations)
    entries = [(1, n) for n in needed] + [(14, n) for n in sonames]
    entries += [(4, at['hash']), (5, at['strings']), (6, at['symbols']), (10, len(strings)), (11, 24)]
    if o.relocations:
        entries += [(7, at['relocations']), (8, 24 * len(o.relocations)), (9, 24)]
    entries += o.entries + [(0, 0)] * o.nulls
    at['data'] = at['dynamic'] + 16 * len(entries)
    end = at['data'] + o.data

    symbols = bytes(24)
    for s, name in zip(o.symbols, names):
        value = s.at + (at['data'] if s.section == DEFINED else 0)
        size = 8 if s.section == DEFINED else 0
        symbols += struct.pack('<IBBHQQ', name, s.binding << 4 | s.kind, s.visibility, s.section, value, size)
    relocations = b''.join(struct.pack('<QQQ', at['data'] + place, symbol << 32 | kind, addend % (1 << 64))
                           for kind, place, symbol, addend in o.relocations)
    file = IDENT + struct.pack('<HHIQQQIHHHHHH', 3, 62, 1, 0, 64, 0, 0, 64, 56, count, 0, 0, 0)
    file += program_header(1, 6, 0, 0, end, end + o.tail, 0x1000)
    file += program_header(2, 6, at['dynamic'], at['dynamic'], 16 * len(entries), 16 * len(entries), 8)
    file = file[:64 + 56] + with_address(file[64 + 56:], at['dynamic'])
    file += b''.join(o.headers)
    file += padded(struct.pack(f'<{len(words)}I', *words)) + symbols + padded(strings) + relocations
    file += b''.join(struct.pack('<QQ', *entry) for entry in entries) + bytes(o.data)
    return file, at


def with_address(header, address):
    """Returns a program header whose physical address equals the virtual one."""
    return header[:24] + struct.pack('<Q', address) + header[32:]

"""Disks of version 1, which no command writes any more, as docs/FORMATS.md describes them. For the other scripts here."""

import struct

SECTOR = 512


def sectors_of(size):
    return -(-size // SECTOR)


def entry(name, size, start):
    """Returns the sector of an entry with one extent."""
    head = b'LIBE' + struct.pack('<IHHI', size, len(name), 1, 0) + name.ljust(240, b'\0')
    return (head + struct.pack('<II', start, sectors_of(size))).ljust(SECTOR, b'\0')


def root(generation, sectors, entries):
    head = b'RLIBREG1' + struct.pack('<QIHH', generation, sectors, len(entries), 0)
    return (head.ljust(64, b'\0') + struct.pack(f'<{len(entries)}I', *entries)).ljust(SECTOR, b'\0')


def old_disk(sectors, libraries):
    """Returns a disk of `sectors` sectors with these libraries, each a name and its bytes, installed one after the
    other."""
    disk, free, entries = bytearray(SECTOR * sectors), 2, []
    for name, data in libraries:
        at = free + sectors_of(len(data))
        disk[SECTOR * free:SECTOR * free + len(data)] = data
        disk[SECTOR * at:SECTOR * (at + 1)] = entry(name, len(data), free)
        entries.append(at)
        free = at + 1
    for generation in {max(len(entries) - 1, 0), len(entries)}:
        disk[SECTOR * (generation % 2):SECTOR * (generation % 2 + 1)] = root(generation, sectors, entries[:generation])
    return bytes(disk)

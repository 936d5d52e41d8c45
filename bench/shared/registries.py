"""Reads the registry that the bytes of a disk hold, as docs/FORMATS.md defines it, and computes the results of commands on
it. Other scripts use this module. It doesn't test whether a file is a library: the name is given with the bytes. It knows
only the refusals that are possible on a disk with room for all libraries."""

import collections
import struct

SECTOR, PAGE = 512, 4096
NO_FILE, ZEROS, OLD, REGISTRY, DAMAGED = 'no file', 'not formatted', 'version 1', 'registry', 'damaged'
REFUSED = {ZEROS: b'refused S3 NotFormatted\n', OLD: b'refused S12 OldFormat\n', DAMAGED: b'refused S5 Damaged\n'}

# `libraries` has pairs of a name and the bytes of its file, in their order; `preloads` has names.
State = collections.namedtuple('State', 'kind sectors libraries preloads')
Root = collections.namedtuple('Root', 'version generation sectors libraries preloads listed')


class Damaged(Exception):
    pass


def need(holds):
    if not holds:
        raise Damaged


def fields(form, sector, at):
    return struct.unpack_from('<' + form, sector, at)


def spelt(sector, *parts):
    """Checks that the sector consists of these parts, each with its place, and of zeros."""
    whole = bytearray(SECTOR)
    for at, form, *values in parts:
        struct.pack_into('<' + form, whole, at, *values)
    need(sector == bytes(whole))


def root(sector):
    """Returns the root in a sector, or None if there is no magic."""
    if sector[:8] not in (b'RLIBREG1', b'RLIBREG2'):
        return None
    version = sector[7] - ord('0')
    generation, sectors, libraries, count = fields('QIHH', sector, 8)
    need(8 <= sectors <= 4194304 and libraries <= (100, 2048)[version - 1] and count <= 16)
    preloads = fields(f'{count}H', sector, 24)
    need(len(set(preloads)) == count and all(place < libraries for place in preloads))
    lists = libraries if version == 1 else -(-libraries // 64)
    listed = fields(f'{lists}I', sector, 64)
    need(len(set(listed)) == lists and all(2 <= at < sectors for at in listed))
    spelt(sector, (0, '8sQIHH', sector[:8], generation, sectors, libraries, count), (24, f'{count}H', *preloads),
          (56, 'H', 0 if version == 1 else lists), (64, f'{lists}I', *listed))
    return Root(version, generation, sectors, libraries, preloads, listed)


def current(even, odd):
    """Returns the current root. `even` is the root in sector 0, and `odd` that in sector 1."""
    need(even and even.generation % 2 == 0)
    if not odd:
        need(even.generation == 0)
        return even
    need(odd.generation % 2 == 1 and abs(even.generation - odd.generation) == 1)
    greater, lesser = (even, odd) if even.generation > odd.generation else (odd, even)
    need(greater.version >= lesser.version)
    return greater


def catalogue(sector, count):
    """Returns the sectors of entries in a catalogue, which has to have `count` of them."""
    listed = fields(f'{count}I', sector, 16)
    spelt(sector, (0, '4sH', b'LIBC', count), (16, f'{count}I', *listed))
    return listed


def entry(sector):
    """Returns the length of a file, its name and its extents."""
    length, size, count = fields('IHH', sector, 4)
    need(64 <= length <= 16777216 and 1 <= size <= 240 and 1 <= count <= 32)
    name, numbers = sector[16:16 + size], fields(f'{2 * count}I', sector, 256)
    need(all(0x21 <= byte <= 0x7e and byte != ord('/') for byte in name))
    need(all(numbers[1::2]) and sum(numbers[1::2]) == -(-length // SECTOR))
    spelt(sector, (0, '4sIHH', b'LIBE', length, size, count), (16, f'{size}s', name), (256, f'{2 * count}I', *numbers))
    return length, name, list(zip(numbers[::2], numbers[1::2]))


def read_all(disk):
    """Returns the state of a disk that has magics."""
    sectors, used = len(disk) // SECTOR, {0, 1}

    def sector(at):
        need(at < sectors and at not in used)
        used.add(at)
        return disk[SECTOR * at:SECTOR * (at + 1)]

    top = current(root(disk[:SECTOR]), root(disk[SECTOR:2 * SECTOR]))
    need(top.sectors == sectors)
    entries, libraries = top.listed, []
    if top.version == 2:
        entries = [at for k, place in enumerate(top.listed) for at in catalogue(sector(place), min(64, top.libraries - 64 * k))]
    for at in entries:
        length, name, extents = entry(sector(at))
        data = b''.join(sector(k) for first, count in extents for k in range(first, first + count))
        libraries.append((name, data[:length]))
    need(len({name for name, _ in libraries}) == len(libraries))
    preloads = tuple(libraries[place][0] for place in top.preloads)
    return State(REGISTRY if top.version == 2 else OLD, sectors, tuple(libraries), preloads)


def state_of(disk):
    """Returns the state of a disk's bytes, or of a missing file."""
    if disk is None:
        return State(NO_FILE, 0, (), ())
    sectors = len(disk) // SECTOR
    if len(disk) % SECTOR or not 8 <= sectors <= 4194304:
        return State(DAMAGED, sectors, (), ())
    if all(disk[at:at + 7] != b'RLIBREG' for at in (0, SECTOR)):
        return State(ZEROS, sectors, (), ())
    try:
        return read_all(disk)
    except Damaged:
        return State(DAMAGED, sectors, (), ())


def listing(state):
    lines = [b'library %s %d\n' % (name, len(data)) for name, data in state.libraries]
    return b''.join(lines + [b'preload %s\n' % name for name in state.preloads] + [b'end\n'])


def installed(state, name, data):
    if name in dict(state.libraries):
        return b'refused C2 AlreadyInstalled\n', state
    return b'ok\n', state._replace(libraries=state.libraries + ((name, data),))


def replaced(state, name, data):
    if name not in dict(state.libraries):
        return b'refused C3 NotInstalled\n', state
    return b'ok\n', state._replace(libraries=tuple((this, data if this == name else old) for this, old in state.libraries))


def removed(state, name):
    if name not in dict(state.libraries):
        return b'refused C3 NotInstalled\n', state
    if name in state.preloads:
        return b'refused C4 InPreloads\n', state
    return b'ok\n', state._replace(libraries=tuple(pair for pair in state.libraries if pair[0] != name))


def preloaded(state, *names):
    if any(name not in dict(state.libraries) for name in names):
        return b'refused C3 NotInstalled\n', state
    return b'ok\n', state._replace(preloads=names)


CHANGES = {'install': installed, 'replace': replaced, 'remove': removed, 'preload': preloaded}


def answer(state, command, *words):
    """Returns the reply to a command or to a script's line, and the state after it. Each file is two words, its name
    and its bytes."""
    if command == 'format':
        made = State(REGISTRY, int(words[0]), (), ())
        return (b'ok\n', made) if state.kind in (NO_FILE, ZEROS) else (b'refused S4 AlreadyFormatted\n', state)
    if state.kind == NO_FILE:
        return b'', state
    if command == 'upgrade' and state.kind in (OLD, REGISTRY):
        return b'ok\n', state._replace(kind=REGISTRY)
    if state.kind != REGISTRY:
        return REFUSED[state.kind], state
    return (listing(state), state) if command == 'list' else CHANGES[command](state, *words)


def segment(address, name, data):
    """Returns the lines of an object of one segment, as its image has them."""
    lines = [data[at:at + 16].hex() for at in range(0, len(data), 16)]
    return '\n'.join([f'object 0x{address:016x} {name}', f'segment 0x{address:016x} {len(data)} rw-', *lines, ''])


def image(base, program, library, name):
    """Returns the image of a program (made by `libraries.py`) whose first word after its file is the first export of
    its library."""
    at = -(-(base + program.size) // PAGE) * PAGE
    word = struct.pack('<Q', at + library.memory)
    text = segment(base, '/program', (program.file + word).ljust(program.size, b'\0'))
    return (text + segment(at, name, library.file.ljust(library.size, b'\0')) + 'end\n').encode()

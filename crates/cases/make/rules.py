"""A second reading of the rules in docs/FORMATS.md and docs/COMMANDS.md, simple and slow, for expected answers.

It shares no code with the program. `make.py` takes the answers of the cases from this module, and compares them with
the answers in its own tables.
"""

import struct

PT_LOAD, PT_DYNAMIC, PT_TLS = 1, 2, 7
NULL, NEEDED, PLTRELSZ, HASH, STRTAB, SYMTAB, RELA, RELASZ, RELAENT = 0, 1, 2, 4, 5, 6, 7, 8, 9
STRSZ, SYMENT, SONAME, SYMBOLIC, REL, PLTREL, JMPREL, FLAGS, RELR = 10, 11, 14, 16, 17, 20, 23, 30, 36
VERSYM, VERDEF, VERNEED = 0x6FFFFFF0, 0x6FFFFFFC, 0x6FFFFFFE
DF_SYMBOLIC = 0x2
SINGLE = [PLTRELSZ, HASH, STRTAB, SYMTAB, RELA, RELASZ, RELAENT, STRSZ, SYMENT, SONAME, SYMBOLIC, REL, PLTREL, JMPREL,
          FLAGS, RELR, VERSYM, VERDEF, VERNEED]
LARGEST_FILE, LARGEST_ADDRESS, HIGHEST_END = 1 << 24, 1 << 26, (1 << 47) - 4096


def number(data, at, size):
    return int.from_bytes(data[at:at + size], 'little')


class Elf:
    """A file whose headers can be read."""

    def __init__(self, data):
        self.data = data
        at, count = number(data, 32, 8), number(data, 56, 2)
        fields = [struct.unpack_from('<IIQQQQQQ', data, at + 56 * i) for i in range(count)]
        self.headers = [dict(zip(('type', 'flags', 'offset', 'vaddr', 'paddr', 'filesz', 'memsz', 'align'), f))
                        for f in fields]
        self.loads = [h for h in self.headers if h['type'] == PT_LOAD]
        self.dynamics = [h for h in self.headers if h['type'] == PT_DYNAMIC]

    def entries(self):
        """Returns the dynamic entries before the first DT_NULL, or None if there is no DT_NULL."""
        at, size = self.dynamics[0]['offset'], self.dynamics[0]['filesz']
        found = []
        for i in range(size // 16):
            tag, value = struct.unpack_from('<QQ', self.data, at + 16 * i)
            if tag == NULL:
                return found
            found.append((tag, value))
        return None

    def count(self, tag):
        return sum(1 for t, _ in self.entries() if t == tag)

    def value(self, tag):
        return next((v for t, v in self.entries() if t == tag), None)

    def offset(self, address, size):
        """Returns the offset in the file of the bytes at an address, or None if these bytes can't be read."""
        if size == 0:
            return 0
        for h in self.loads:
            if h['vaddr'] <= address and address + size <= h['vaddr'] + h['filesz']:
                return h['offset'] + (address - h['vaddr'])
        return None

    def relocations(self):
        for table, size in ((RELA, RELASZ), (JMPREL, PLTRELSZ)):
            if self.value(table) is None:
                continue
            length = self.value(size)
            at = self.offset(self.value(table), length)
            for i in range(length // 24):
                place, info, addend = struct.unpack_from('<QQQ', self.data, at + 24 * i)
                yield place, info & 0xFFFFFFFF, info >> 32, addend

    def hash_words(self):
        at = self.offset(self.value(HASH), 8)
        nbucket, nchain = number(self.data, at, 4), number(self.data, at + 4, 4)
        word = [number(self.data, at + 8 + 4 * i, 4) for i in range(nbucket + nchain)]
        return word[:nbucket], word[nbucket:]

    def is_symbolic(self):
        """Returns whether the object's own names are looked up in the object first."""
        return self.value(SYMBOLIC) is not None or bool((self.value(FLAGS) or 0) & DF_SYMBOLIC)

    def symbol_count(self):
        return number(self.data, self.offset(self.value(HASH), 8) + 4, 4)

    def symbol(self, i):
        at = self.offset(self.value(SYMTAB), 24 * self.symbol_count()) + 24 * i
        name, info, other, section, value, size = struct.unpack_from('<IBBHQQ', self.data, at)
        return dict(name=name, binding=info >> 4, type=info & 15, visibility=other & 3, section=section, value=value)

    def string(self, offset):
        table = self.offset(self.value(STRTAB), self.value(STRSZ)) + offset
        return self.data[table:self.data.index(0, table)]

    def is_exported(self, i):
        s = self.symbol(i)
        return (i >= 1 and s['binding'] in (1, 2) and s['section'] != 0 and s['type'] in (0, 1, 2)
                and s['visibility'] in (0, 3))

    def exports(self):
        return [i for i in range(self.symbol_count()) if self.is_exported(i)]


def elf_hash(name):
    h = 0
    for byte in name:
        h = ((h << 4) + byte) & 0xFFFFFFFF
        g = h & 0xF0000000
        if g:
            h ^= g >> 24
        h &= ~g & 0xFFFFFFFF
    return h


def header_refusal(data):
    if len(data) < 64:
        return 'E1 TooShort'
    tests = [
        (data[:4] != b'\x7fELF', 'E2 BadMagic'),
        (data[4] != 2, 'E3 BadClass'),
        (data[5] != 1, 'E4 BadData'),
        (data[6] != 1 or number(data, 20, 4) != 1, 'E5 BadVersion'),
        (data[7] not in (0, 3), 'E6 BadOsAbi'),
        (number(data, 16, 2) != 3, 'E7 BadType'),
        (number(data, 18, 2) != 62, 'E8 BadMachine'),
        (number(data, 52, 2) != 64 or number(data, 54, 2) != 56, 'E9 BadHeaderSize'),
        (number(data, 56, 2) in (0, 0xFFFF) or number(data, 32, 8) + 56 * number(data, 56, 2) > len(data),
         'E10 BadProgramHeaders'),
    ]
    return next((name for bad, name in tests if bad), None)


def is_bad_load(h, length):
    align = h['align']
    return (h['filesz'] > h['memsz'] or (h['filesz'] > 0 and h['offset'] + h['filesz'] > length)
            or (align > 1 and (align & (align - 1) != 0 or h['vaddr'] % align != h['offset'] % align)))


def segment_refusal(elf):
    ends = [h['vaddr'] + h['memsz'] for h in elf.loads]
    if any(h['type'] == PT_TLS for h in elf.headers):
        return 'E11 TlsSegment'
    if not elf.loads or any(is_bad_load(h, len(elf.data)) for h in elf.loads):
        return 'E12 BadSegment'
    if len(elf.data) > LARGEST_FILE or any(end > LARGEST_ADDRESS for end in ends):
        return 'E13 TooLarge'
    if any(h['vaddr'] < end for h, end in zip(elf.loads[1:], ends)):
        return 'E14 SegmentOrder'
    if len(elf.dynamics) != 1 or elf.dynamics[0]['offset'] + elf.dynamics[0]['filesz'] > len(elf.data):
        return 'E15 BadDynamic'
    return 'E15 BadDynamic' if elf.entries() is None else None


def lacks(elf, table, others):
    return elf.value(table) is not None and any(elf.value(t) is None for t in others)


def dynamic_refusal(elf):
    v = elf.value
    if any(elf.count(t) > 1 for t in SINGLE):
        return 'E16 DuplicateTag'
    if any(v(t) is not None for t in (VERSYM, VERDEF, VERNEED)):
        return 'E17 SymbolVersions'
    if any(v(t) is not None for t in (REL, RELR)):
        return 'E18 UnsupportedTag'
    if v(HASH) is None:
        return 'E19 NoHashTable'
    if any(v(t) is None for t in (STRTAB, SYMTAB, STRSZ, SYMENT)):
        return 'E20 MissingTag'
    if lacks(elf, RELA, (RELASZ, RELAENT)) or lacks(elf, JMPREL, (PLTRELSZ, PLTREL)):
        return 'E20 MissingTag'
    if (v(SYMENT) != 24 or (v(RELA) is not None and (v(RELAENT) != 24 or v(RELASZ) % 24 != 0))
            or (v(JMPREL) is not None and (v(PLTREL) != 7 or v(PLTRELSZ) % 24 != 0))):
        return 'E21 BadEntrySize'
    if elf.offset(v(STRTAB), v(STRSZ)) is None or elf.offset(v(HASH), 8) is None:
        return 'E22 BadRange'
    at = elf.offset(v(HASH), 8)
    words = number(elf.data, at, 4) + number(elf.data, at + 4, 4)
    if elf.offset(v(HASH), 8 + 4 * words) is None or elf.offset(v(SYMTAB), 24 * elf.symbol_count()) is None:
        return 'E22 BadRange'
    for table, size in ((RELA, RELASZ), (JMPREL, PLTRELSZ)):
        if v(table) is not None and elf.offset(v(table), v(size)) is None:
            return 'E22 BadRange'
    return None


def symbol_refusal(elf):
    size = elf.value(STRSZ)
    symbols = [elf.symbol(i) for i in range(1, elf.symbol_count())]
    if size == 0 or elf.data[elf.offset(elf.value(STRTAB), size) + size - 1] != 0:
        return 'E23 BadString'
    named = [value for tag, value in elf.entries() if tag in (NEEDED, SONAME)]
    if any(offset >= size for offset in named + [s['name'] for s in symbols]):
        return 'E23 BadString'
    for name, test in (
            ('E24 CommonSymbol', lambda s: s['section'] == 0xFFF2 or s['type'] == 5),
            ('E25 TlsSymbol', lambda s: s['type'] == 6),
            ('E26 IfuncSymbol', lambda s: s['type'] == 10),
            ('E27 BadBinding', lambda s: s['binding'] not in (0, 1, 2))):
        if any(test(s) for s in symbols):
            return name
    return None


def relocation_refusal(elf):
    relocations = list(elf.relocations())
    for _, kind, _, _ in relocations:
        if kind not in (0, 1, 6, 7, 8):
            return f'E30 RelocationType {kind}'
    if any(kind in (1, 6, 7) and symbol >= elf.symbol_count() for _, kind, symbol, _ in relocations):
        return 'E31 RelocationSymbol'
    for place, kind, _, _ in relocations:
        if kind in (1, 6, 7, 8) and not any(h['vaddr'] <= place and place + 8 <= h['vaddr'] + h['memsz']
                                             for h in elf.loads):
            return 'E32 RelocationPlace'
    return None


def object_refusal(data):
    """Returns the first refusal of a file as an object, or None."""
    refusal = header_refusal(data)
    if refusal:
        return refusal
    elf = Elf(data)
    return (segment_refusal(elf) or dynamic_refusal(elf) or symbol_refusal(elf) or relocation_refusal(elf))


def walk(elf, bucket):
    """Returns the symbols on the walk from a bucket's word, or None if the walk never reaches 0."""
    _, chains = elf.hash_words()
    met, at = [], bucket
    while at != 0:
        if at in met:
            return None
        met.append(at)
        at = chains[at]
    return met


def admission_refusal(elf):
    names = [elf.string(elf.symbol(i)['name']) for i in elf.exports()]
    if len(names) != len(set(names)):
        return 'E28 DuplicateDefinition'
    buckets, chains = elf.hash_words()
    if not buckets or any(word >= len(chains) for word in buckets + chains):
        return 'E29 BadHashTable'
    walks = [walk(elf, bucket) for bucket in buckets]
    if any(met is None for met in walks):
        return 'E29 BadHashTable'
    for i, name in zip(elf.exports(), names):
        if i not in walks[elf_hash(name) % len(buckets)]:
            return 'E29 BadHashTable'
    return None


def admitted_refusal(data):
    refusal = object_refusal(data)
    return refusal or admission_refusal(Elf(data))


def library_refusal(data):
    """Returns the first refusal of a file as a library, or None."""
    refusal = admitted_refusal(data)
    if refusal:
        return refusal
    elf = Elf(data)
    name = b'' if elf.value(SONAME) is None else elf.string(elf.value(SONAME))
    fits = 1 <= len(name) <= 240 and all(0x21 <= b <= 0x7E and b != 0x2F for b in name)
    return None if fits else 'E33 BadSoname'


def find(data, name):
    elf = Elf(data)
    return next((i for i in elf.exports() if elf.string(elf.symbol(i)['name']) == name), None)


def compared(data, name):
    """Returns the number of names that a search along the chain compares."""
    elf = Elf(data)
    buckets, _ = elf.hash_words()
    met, found = walk(elf, buckets[elf_hash(name) % len(buckets)]), find(data, name)
    return met.index(found) + 1 if found in met else len(met)


def printed_name(name):
    if not name:
        return '\\e'
    return ''.join(chr(b) if 0x21 <= b <= 0x7E and b != 0x5C else f'\\x{b:02x}' for b in name)


def unit(elf):
    return max([4096] + [h['align'] for h in elf.loads])


def alone_refusal(data, base):
    refusal = admitted_refusal(data)
    if refusal:
        return 'B1 ' + refusal
    elf = Elf(data)
    if base % unit(elf) != 0:
        return 'B2 BadBase'
    if elf.value(NEEDED) is not None:
        return 'B3 Missing /program ' + printed_name(elf.string(elf.value(NEEDED)))
    if base + max(h['vaddr'] + h['memsz'] for h in elf.loads) > HIGHEST_END:
        return 'B4 NoRoom'
    for _, kind, symbol, _ in elf.relocations():
        if kind in (1, 6, 7) and symbol_value(elf, symbol, base) is None:
            return 'B5 Undefined /program ' + printed_name(elf.string(elf.symbol(symbol)['name']))
    return None


def own_address(elf, i, base):
    symbol = elf.symbol(i)
    return symbol['value'] if symbol['section'] == 0xFFF1 else (base + symbol['value']) % (1 << 64)


def symbol_value(elf, i, base):
    """Returns the value of a symbol of a program that is bound alone, or None if the symbol is undefined."""
    if i == 0:
        return 0
    symbol = elf.symbol(i)
    if symbol['binding'] == 0 or (symbol['section'] != 0 and symbol['visibility'] != 0):
        return own_address(elf, i, base)
    if symbol['section'] != 0 or symbol['visibility'] not in (1, 2):
        found = find(elf.data, elf.string(symbol['name']))
        if found is not None:
            return own_address(elf, found, base)
    return 0 if symbol['binding'] == 2 else None


def written(elf, kind, symbol, addend, base):
    """Returns the value that a relocation writes, or None if its type writes nothing."""
    if kind == 8:
        return (base + addend) % (1 << 64)
    if kind == 1:
        return (symbol_value(elf, symbol, base) + addend) % (1 << 64)
    return symbol_value(elf, symbol, base) if kind in (6, 7) else None


def memory(data, base):
    """Returns the byte at each address of the image of a program that is bound alone."""
    elf, held = Elf(data), {}
    for h in elf.loads:
        for k in range(h['memsz']):
            held[base + h['vaddr'] + k] = data[h['offset'] + k] if k < h['filesz'] else 0
    for place, kind, symbol, addend in elf.relocations():
        value = written(elf, kind, symbol, addend, base)
        if value is not None:
            for k, byte in enumerate(value.to_bytes(8, 'little')):
                held[base + place + k] = byte
    return held


def image_text(data, base):
    """Returns the text of the image of a program that is bound alone, or the text of its refusal."""
    refusal = alone_refusal(data, base)
    if refusal:
        return f'refused {refusal}\n'
    held, lines = memory(data, base), [f'object 0x{base:016x} /program']
    for h in Elf(data).loads:
        if h['memsz'] == 0:
            continue
        start = base + h['vaddr']
        letters = ''.join(c if h['flags'] & bit else '-' for c, bit in (('r', 4), ('w', 2), ('x', 1)))
        lines.append(f"segment 0x{start:016x} {h['memsz']} {letters}")
        content = bytes(held[start + k] for k in range(h['memsz']))
        lines += [content[k:k + 16].hex() for k in range(0, len(content), 16)]
    return '\n'.join(lines + ['end']) + '\n'

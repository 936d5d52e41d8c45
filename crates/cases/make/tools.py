#!/usr/bin/env python3
"""Writes `tools.txt` of `data/`, and the files that it names: the answers of `rlibreg-tool` about a disk, executables
and bindings.

    python3 crates/cases/make/tools.py

It needs the disks and files that `disks.py` writes. Expected answers are `Tool`'s, a second reading over `disk.py` and
`binder.py`. `WRONG` has readings that break one rule each. The script stops if no case has another answer by one of
them.
"""

import hashlib
import struct

import rules
from binder import Binder
from disk import MOST_EXTENTS, OnDisk, Refused
from make import DATA, write_list
from on_disk import A, after_text, bytes_of, changed, find_files, keep, library, spelt
from samples import DEFINED, FUNC, GLOBAL, R_64, R_GLOB_DAT, WEAK, Object, Symbol, build, program_header
from scripts import MOST_LIBRARIES, MOST_PRELOADS, SECTOR, catalogues_for, soname

PAGE, LOWEST, WRITE, EXECUTE = 4096, 0x10000, 2, 1
INIT, FINI, PREINIT, PREINIT_SIZE = 12, 13, 32, 33
CALLS = b'rlibreg\0', 1, 0  # the note of a program that calls its libraries' functions itself: name, type, size of its descriptor
ROWS = []  # the disk and the words of each case


class Tool(OnDisk):
    """The answers of the tool. Opening reads no file."""

    def is_library(self, entry):
        return True

    def run(self, word, rest):
        """Returns a status and an answer."""
        self.open()
        if word in ('executable', 'bindings'):
            return getattr(self, word)((DATA / rest[0]).read_bytes(), int(rest[1], 16))
        return getattr(self, {'file': 'file_of'}.get(word, word))(*rest)

    def line(self, name, data):
        refusal = rules.library_refusal(data)
        if refusal:
            return f'damaged {rules.printed_name(name)} {refusal}\n'
        printed = rules.printed_name(name)
        return f'ok {printed} {len(data)}\n' if soname(data) == name else f'damaged {printed} OtherName\n'

    def check(self):
        lines = [self.line(*it) for it in self.libraries]
        return int(any(not it.startswith('ok ') for it in lines)), ''.join(lines) + 'end\n'

    def digest(self):
        return 0, ''.join(f'{hashlib.sha256(data).hexdigest()}  {name.decode()}\n' for name, data in self.libraries)

    def file_of(self, name):
        found = dict(self.libraries).get(name.encode())
        if found is None:
            raise Refused('C3 NotInstalled')
        return 0, found

    def largest(self):
        """Returns the length of the greatest file that can be installed: it may lie in as many runs as an entry
        lists."""
        if len(self.entries) == MOST_LIBRARIES or self.has_ended():
            return 0
        room = self.unspent(len(self.entries) + 1) - 1
        longest = sorted((count for _, count in self.unused_runs()), reverse=True)[:MOST_EXTENTS]
        return max(0, min(room, sum(longest))) * SECTOR

    def info(self):
        free = self.free()
        rows = [('version', 2), ('sectors', self.count()), ('generation', self.root.generation),
                ('libraries', f'{len(self.entries)} of {MOST_LIBRARIES}'), ('preloads', f'{len(self.preloads)} of {MOST_PRELOADS}'),
                ('unused', len(free)), ('free', len(free) - catalogues_for(len(self.entries))), ('runs', len(self.unused_runs())),
                ('largest', self.largest())]
        return 0, ''.join(f'{word} {value}\n' for word, value in rows) + 'end\n'

    def form(self, order):
        return Executable(order)

    def executable(self, program, base):
        refusal, order = Binder().bind(program, base, self.libraries, self.preloads)
        return 0, self.form(order).file() if not refusal else refuse(refusal)

    def bindings(self, program, base):
        """Binds like a bind, but reports each B3, or each B5."""
        binder, installed = Binder(), dict(self.libraries)
        order = binder.load_order(program, self.libraries, self.preloads)
        binder.place(order, base)
        lacks = any(name not in installed for o in order for name in o.needed())
        lines = []
        for o in order:
            printed = rules.printed_name(o.name)
            lines.append(f'found {printed}' if lacks else f'object 0x{o.base:016x} {printed}')
            for name in o.needed():
                lines.append(f'needs {rules.printed_name(name)}')
                lines += [f'missing {rules.printed_name(name)} {printed}'] * (name not in installed)
            lines += [] if lacks else self.bound(binder, order, o, printed)
        wrong = any(line.startswith(('missing ', 'undefined ')) for line in lines)
        return int(wrong), '\n'.join(lines + ['end']) + '\n'

    def is_undefined(self, value):
        return value is None

    def bound(self, binder, order, o, printed):
        """Returns the lines of the symbols that relocations name, by their numbers."""
        for i in sorted({symbol for _, kind, symbol, _ in o.elf.relocations() if kind in (R_64, R_GLOB_DAT, 7) and symbol}):
            symbol = o.elf.symbol(i)
            name = rules.printed_name(o.elf.string(symbol['name']))
            found = binder.lookup(order, o, o.elf.string(symbol['name']))
            value = binder.value(order, o, i)
            if self.is_undefined(value):
                yield f'undefined {name} {printed}'
            elif found is None:
                yield f'unresolved {name}'
            else:
                yield f'binds {name} 0x{value:016x} {rules.printed_name(found[0].name)}'


def refuse(text):
    raise Refused(text)


class Executable:
    """The static executable of placed objects, by docs/TOOL.md and the gABI."""

    def __init__(self, order):
        self.order, self.held = order, Binder().memory(order)
        self.entry = order[0].base + struct.unpack_from('<Q', order[0].data, 24)[0]
        self.segments = [(o, o.base + h['vaddr'], o.base + h['vaddr'] + h['memsz'], h['flags']) for o in order for h in o.elf.loads if h['memsz']]

    def test(self):
        o = self.order[0]
        if self.entry == o.base or not any(it[0] is o and it[1] <= self.entry < it[2] and it[3] & EXECUTE for it in self.segments):
            refuse('NoEntry')
        if self.calls_itself():
            return
        tags = dict(self.order[0].elf.entries())
        if PREINIT in tags and tags.get(PREINIT_SIZE, 0) >= 8:
            refuse('PreInitializers')
        for o in self.order[1:]:
            for tag, name in ((INIT, 'Initializers'), (FINI, 'Finalizers')):
                if any(it[0] == tag for it in o.elf.entries()):
                    refuse(f'{name} {rules.printed_name(o.name)}')

    def noted(self):
        """Returns the object whose notes are read."""
        return self.order[0]

    def is_of_notes(self, header):
        kind, *_, align = struct.unpack('<IIQQQQQQ', header)
        return kind == 4 and align == 4

    def notes(self):
        """Returns the notes of the first program header whose notes are padded to multiples of four, up to the first
        incomplete one."""
        o = self.noted()
        offset, count = struct.unpack_from('<Q', o.data, 32)[0], struct.unpack_from('<H', o.data, 56)[0]
        headers = [o.data[offset + 56 * i:offset + 56 * (i + 1)] for i in range(count)]
        found = next((it for it in headers if self.is_of_notes(it)), bytes(56))
        address, size = struct.unpack_from('<Q', found, 16)[0], struct.unpack_from('<Q', found, 32)[0]
        content = bytes(self.held.get(o.base + address + i, 0) for i in range(size))
        while len(content) >= 12:
            name, described, kind = struct.unpack_from('<III', content)
            end = 12 + -(-name // 4) * 4 + -(-described // 4) * 4
            if end > len(content):
                return
            yield content[12:12 + name], kind, described
            content = content[end:]

    def calls_itself(self):
        return CALLS in self.notes()

    def pages(self):
        """Returns the permissions of each page: those of any of its segments. The page may be both written and executed
        only if one segment permits both."""
        pages = {}
        for o, start, end, flags in self.segments:
            for page in range(start // PAGE, (end - 1) // PAGE + 1):
                pages.setdefault(page, []).append((flags, o))
        for page, asked in sorted(pages.items()):
            flags = 0
            for it, _ in asked:
                flags |= it
            both = WRITE | EXECUTE
            if flags & both == both and not any(it & both == both for it, _ in asked):
                refuse(f'WritableCode {rules.printed_name(asked[0][1].name)}')
            pages[page] = flags
        return pages

    def pieces(self):
        """Returns runs of neighbouring pages with the same permissions, each from the first byte of a segment in it to
        the last."""
        pieces, pages = [], self.pages()
        for page, flags in sorted(pages.items()):
            inside = [(max(start, page * PAGE), min(end, (page + 1) * PAGE)) for _, start, end, _ in self.segments
                      if start < (page + 1) * PAGE and end > page * PAGE]
            start, end = min(it[0] for it in inside), max(it[1] for it in inside)
            if pieces and self.touches(pieces[-1], page, flags):
                pieces[-1] = (pieces[-1][0], end, flags, page)
            else:
                pieces.append((start, end, flags, page))
        return [it[:3] for it in pieces]

    def content(self, start, end, flags):
        """Returns the bytes of a piece. The kernel makes the zeros at the end of a piece that may be written."""
        content = bytes(self.held.get(k, 0) for k in range(start, end))
        return content.rstrip(b'\0') if flags & WRITE else content

    def has_room_below(self, place):
        return place >= LOWEST

    def touches(self, piece, page, flags):
        return piece[3] == page - 1 and piece[2] == flags

    def file(self):
        self.test()
        pieces = self.pieces()
        count = len(pieces) + 3
        size = 64 + 56 * count
        whole = -(-size // PAGE) * PAGE
        lowest = pieces[0][0] // PAGE * PAGE
        place = lowest - whole if self.has_room_below(lowest - whole) else -(-pieces[-1][1] // PAGE) * PAGE
        at, loads, parts = whole, [], []
        for start, end, flags in pieces:
            content = self.content(start, end, flags)
            loads.append(header(1, flags, at + start % PAGE, start, len(content), end - start, PAGE))
            part = bytes(start % PAGE) + content
            parts.append(part + bytes(-len(part) % PAGE))
            at += len(parts[-1])
        own = header(1, 4, 0, place, size, size, PAGE)
        table = [header(6, 4, 64, place + 64, 56 * count, 56 * count, 8)] + ([own] + loads if place < lowest else loads + [own])
        table.append(header(0x6474e551, 6, 0, 0, 0, 0, 16))
        front = b'\x7fELF\2\1\1' + bytes(9) + struct.pack('<HHIQQQIHHHHHH', 2, 62, 1, self.entry, 64, 0, 0, 64, 56, count, 0, 0, 0)
        front += b''.join(table)
        return front + bytes(whole - len(front)) + b''.join(parts)


class TellsOtherNames(Tool):
    def line(self, name, data):
        return super().line(name, data).replace('OtherName', 'E33 BadSoname')


class DigestsSectors(Tool):
    @property
    def libraries(self):
        return [(name, data + bytes(-len(data) % SECTOR)) for name, data in super().libraries]


class CountsNoCatalogue(Tool):
    def largest(self):
        return max(0, min(self.unspent(len(self.entries)) - 1, sum(count for _, count in self.unused_runs()))) * SECTOR


class LeavesUndefined(Tool):
    def is_undefined(self, value):
        return False


def formed(name, **methods):
    """Returns a reading of executables that breaks a rule."""
    form = type(name, (Executable,), methods)
    return type(name, (Tool,), {'form': lambda self, order: form(order)})


WRONG = [
    TellsOtherNames, DigestsSectors, CountsNoCatalogue, LeavesUndefined,
    formed('HeadersBelowAll', has_room_below=lambda self, place: True),
    formed('HeadersAboveAll', has_room_below=lambda self, place: False),
    formed('EachPageIsAPiece', touches=lambda self, piece, page, flags: False),
    formed('AllPagesAreOnePiece', touches=lambda self, piece, page, flags: piece[3] == page - 1),
    formed('WritesZeros', content=lambda self, start, end, flags: bytes(self.held.get(k, 0) for k in range(start, end))),
    formed('TestsNothing', test=lambda self: None),
    formed('ReadsNoNotes', notes=lambda self: []),
    formed('ReadsNotesOfLibraries', noted=lambda self: self.order[-1]),
    formed('ReadsAllNotes', is_of_notes=lambda self, header: header[0] == 4),
    formed('ReadsOneNote', calls_itself=lambda self: [CALLS] == list(self.notes())[:1]),
    formed('ReadsNoType', calls_itself=lambda self: any(it[0] == CALLS[0] for it in self.notes())),
    formed('ReadsNoName', calls_itself=lambda self: any(it[1] == CALLS[1] for it in self.notes())),
]


def header(kind, flags, offset, address, in_file, in_memory, align):
    return struct.pack('<IIQQQQQQ', kind, flags, offset, address, address, in_file, in_memory, align)


def answer(told):
    if isinstance(told, bytes):
        name = next((path.name for path in sorted(DATA.glob('*.so')) if path.read_bytes() == told), None)
        return f'file {name}' if name else f'file {spelt(told)}' if len(told) % SECTOR == 0 else f'file bytes={told.hex()}'
    return told[:-1] if told.count('\n') == 1 else f'file bytes={told.encode().hex()}' if told else 'nothing'


def on(before, words, wanted=None):
    """A case. `wanted` is its status and its answer, which were determined by hand."""
    word, *rest = words.split(' ')
    status, told, error = run(before, words)
    ending = f'{status} error {error}' if error else f'{status} {answer(told)}'
    if wanted is not None:
        text = told if isinstance(told, str) else ''
        assert wanted in (ending, f'{status} {text[:-1]}'), (before, words, ending, told, wanted)
    ROWS.append((before, words))
    return f'on {before} tool {" ".join([word, "disk", *rest])} => {ending} then same'


def run(before, words, reading=Tool):
    """Returns the status, the answer and the error."""
    word, *rest = words.split(' ')
    try:
        return *reading(bytes_of(before)).run(word, rest), ''
    except Refused as refused:
        return 1, '', f'rlibreg-tool: refused {refused}'


def ended(row, reading):
    """Returns the end of a case by a reading, or None if the reading has no answer."""
    try:
        return run(*row, reading)
    except (TypeError, struct.error):
        return None


def tell_wrong():
    """Stops if no case distinguishes a reading that breaks a rule."""
    for reading in WRONG:
        differ = sum(ended(row, reading) != run(*row) for row in ROWS)
        assert differ, reading.__name__
        print(f'{reading.__name__}: {differ} of {len(ROWS)} cases have another answer')


def with_entry(file, entry, flags=7):
    """Returns a file with an entry, whose first segment has these permissions."""
    file = bytearray(file)
    struct.pack_into('<Q', file, 24, entry)
    struct.pack_into('<I', file, 64 + 4, flags)
    return bytes(file)


def two_segments(first, second):
    """A program of two segments in one page, with these permissions."""
    end = len(build(Object(headers=[bytes(56)]))[0])
    extra = program_header(1, second, end, end, 168, 168, 8)
    file = build(Object(headers=[extra[:24] + struct.pack('<Q', end) + extra[32:]]))[0]
    # The segments come before the dynamic section, in their order.
    headers = [file[64 + 56 * i:64 + 56 * (i + 1)] for i in range(3)]
    file = file[:64] + headers[0] + headers[2] + headers[1] + file[64 + 168:]
    return with_entry(file + bytes(range(168)), 0x40, first)


def note(name, kind, descriptor=b''):
    """Returns a note. A name is padded to a multiple of four bytes."""
    return struct.pack('<III', len(name), len(descriptor), kind) + name + bytes(-len(name) % 4) + descriptor + bytes(-len(descriptor) % 4)


def noted(o, notes, size=None, align=4, more=()):
    """Returns an object with notes at the end of its data, `size` bytes long by their program header, and with other
    headers of notes before that header."""
    o.data += len(notes)
    o.headers = [bytes(56)] * (1 + len(more))
    end = build(o)[1]['data'] + o.data
    headers = [*more, program_header(4, 4, end - len(notes), end - len(notes), len(notes) if size is None else size, len(notes), align)]
    o.headers = [it[:24] + it[16:24] + it[32:] for it in headers]
    file = build(o)[0]
    return file[:end - len(notes)] + notes + file[end:]


def prepare_noted():
    """Programs that need a library with functions that nobody would call. Some of the programs call these functions
    themselves. Also makes such a library."""
    def program(notes, **words):
        return with_entry(noted(Object(needed=[b'a'], symbols=[Symbol(b'f')], data=8, relocations=[(R_64, 0, 1, 0)],
                                       entries=[(PREINIT, 0), (PREINIT_SIZE, 8)]), notes, **words), 0x40)
    own, other = note(*CALLS[:2]), note(b'GNU\0', 1, bytes(6))
    keep('calls.so', program(other + own))
    keep('calls-alone.so', program(own))
    keep('calls-behind.so', program(own, more=[program_header(4, 4, 0, 0, 64, 64, 8)]))
    keep('calls-second.so', program(own, more=[program_header(4, 4, 0, 0, 12, 12, 4)]))
    keep('calls-aligned.so', program(own, align=8))
    keep('calls-cut.so', program(own, size=len(own) - 1))
    keep('calls-type.so', program(note(CALLS[0], 2)))
    keep('calls-name.so', program(note(b'rlibrey\0', 1)))
    keep('calls-longer.so', program(note(b'rlibreg\0\0', 1)))
    keep('calls-told.so', program(note(*CALLS[:2], b'more')))
    keep('calls-within.so', program(note(b'GNU\0', 1, own)))
    keep('calls-end.so', program(struct.pack('<III', 4, 0xffffffff, 1) + b'GNU\0' + own))
    keep('calls-library.so', noted(Object(soname=b'a', entries=[(INIT, 0x100)], symbols=[Symbol(b'f', GLOBAL, FUNC, DEFINED)]), own))


def prepare():
    """Programs that start, libraries with functions that nobody would call, and the program of a missing definition."""
    asks = Object(needed=[b'a'], symbols=[Symbol(b'f'), Symbol(b'g', WEAK)], data=16, relocations=[
        (R_64, 0, 1, 0), (R_GLOB_DAT, 8, 1, 0), (R_64, 0, 2, 0)])
    keep('starts.so', with_entry(build(Object())[0], 0x40))
    keep('starts-needing.so', with_entry(build(asks)[0], 0x40))
    keep('asks-for-both.so', build(Object(needed=[b'a'], symbols=[Symbol(b'f'), Symbol(b'g')], data=16, relocations=[
        (R_64, 0, 1, 0), (R_GLOB_DAT, 8, 1, 0), (R_64, 0, 2, 0)]))[0])
    for tag, name in ((INIT, 'initialized.so'), (FINI, 'finalized.so')):
        keep(name, library(b'a', entries=[(tag, 0x100)], symbols=[Symbol(b'f', GLOBAL, FUNC, DEFINED)]))
    for first, second in ((5, 6), (5, 4), (7, 4), (5, 7)):
        keep(f'page-{first}-{second}.so', two_segments(first, second))


def with_library(name):
    return spelt(changed(None, 'format disk 8', f'install disk {name}'))


def parts():
    pair, damaged, other = 'pair.disk', 'pair.disk 0x400=00', 'pair.disk 0xa00=@first.so'
    end = 'bindings asks-for-both.so 0x20000'
    return [
        ('The finding on each library: it is one of its own name, it is refused by a test, or it is one of another name.', [
            on('formatted.disk', 'check', '0 end'), on(pair, 'check', '0 ok a 376\nok b 376\nend'), on('three.disk', 'check'),
            on(damaged, 'check', '1 damaged a E2 BadMagic\nok b 376\nend'), on(other, 'check', '1 ok a 376\ndamaged b OtherName\nend'),
            on('old-one.disk', 'check', '1 error rlibreg-tool: refused S12 OldFormat')]),
        ('Digests, also of bytes that are no library.', [
            on('formatted.disk', 'digest', '0 nothing'), on('three.disk', 'digest'), on(damaged, 'digest')]),
        ('The bytes of a library, unchanged.', [
            on(pair, 'file b', '0 file strong.so'), on(damaged, 'file a'), on(damaged, 'file b', '0 file strong.so'),
            on(pair, 'file c', '1 error rlibreg-tool: refused C3 NotInstalled')]),
        ('Numbers: the free sectors, their runs, and the largest file that fits.', [
            on('formatted.disk', 'info', '0 version 2\nsectors 8\ngeneration 0\nlibraries 0 of 2048\npreloads 0 of 16\nunused 6\nfree 6\nruns 1\n'
               'largest 1536\nend'),
            on('one.disk', 'info'), on('full.disk', 'info'), on('three.disk', 'info'), on('gap.disk', 'info'),
            on('made=sixty-four.changes', 'info'), on('made=sixty-five.changes', 'info'), on('made=many.changes', 'info')]),
        ('The bindings of symbols; symbols that are undefined, weak or not; and names that are missing.', [
            on(pair, 'bindings starts-needing.so 0x20000',
               '0 object 0x0000000000020000 /program\nneeds a\nbinds f 0x0000000000021170 a\nunresolved g\nobject 0x0000000000021000 a\nend'),
            on(pair, end, '1 object 0x0000000000020000 /program\nneeds a\nbinds f 0x0000000000021170 a\nundefined g /program\n'
               'object 0x0000000000021000 a\nend'),
            on('formatted.disk', end, '1 found /program\nneeds a\nmissing a /program\nend'),
            on(pair, 'bindings asking.so 0x10000'), on('three.disk', 'bindings no-symbols.so 0x10000')]),
        ('Executables: of a program without libraries, with libraries, and with two segments in a page.', [
            on('formatted.disk', 'executable starts.so 0x20000'), on(pair, 'executable starts-needing.so 0x400000'),
            on(pair, 'executable starts-needing.so 0x10000'), on('three.disk', 'executable starts.so 0x20000')]
            + [on('formatted.disk', f'executable page-{it}.so 0x20000') for it in ('5-4', '7-4', '5-7')]),
        ('No executable is made: the program has no entry, there are functions that nobody would call, or a page could be written and\n'
         'executed.', [
            on('formatted.disk', 'executable no-symbols.so 0x20000', '1 error rlibreg-tool: refused NoEntry'),
            on(with_library('initialized.so'), 'executable starts-needing.so 0x20000', '1 error rlibreg-tool: refused Initializers a'),
            on(with_library('finalized.so'), 'executable starts-needing.so 0x20000', '1 error rlibreg-tool: refused Finalizers a'),
            on('formatted.disk', 'executable page-5-6.so 0x20000', '1 error rlibreg-tool: refused WritableCode /program'),
            on('formatted.disk', 'executable starts-needing.so 0x20000', '1 error rlibreg-tool: refused B3 Missing /program a')]),
        ("Executables of programs that declare by a note that they call their libraries' functions themselves.", [
            on(with_library(library), f'executable {program}.so 0x20000')
            for library, program in (('initialized.so', 'calls'), ('finalized.so', 'calls-alone'), ('finalized.so', 'calls-behind'))]),
        ("No executable is made: the note is a different one, isn't whole, or isn't the program's.", [
            on(with_library('finalized.so'), f'executable calls-{it}.so 0x20000', '1 error rlibreg-tool: refused PreInitializers')
            for it in ('second', 'aligned', 'cut', 'type', 'name', 'longer', 'told', 'within', 'end')] + [
            on(with_library('calls-library.so'), 'executable starts-needing.so 0x20000', '1 error rlibreg-tool: refused Initializers a')]),
    ]


if __name__ == '__main__':
    prepare()
    prepare_noted()
    find_files()
    made = parts()
    tell_wrong()
    write_list('tools.txt', made)

"""Runs the stored cases for which the module has calls, and compares the answers and the disk's bytes.

python3 run_cases.py [FOLDER]

FOLDER is the folder in which disks are made. An answer is converted to the program's output: its text, without the
lines `object`, which an image of the module doesn't have, and its exit status.
"""

import collections
import functools
import re
import sys
import tempfile
from pathlib import Path
from typing import NamedTuple

import rlibreg
from case_lists import DATA, answer, cases, change, file, number
from rlibreg import Status

WORDS = {'format': 1, 'upgrade': 0, 'install': 1, 'replace': 1, 'remove': 1, 'list': 0, 'bind': 2}
LINE = re.compile(r'(install|replace) (?:[0-9a-fA-F]{2})+|remove [!-~]+|preload(?: [!-~]+)*|list'
                  r'|bind 0x[0-9a-fA-F]{1,16} (?:[0-9a-fA-F]{2})+')

UNOPENED = (Status.NOT_FORMATTED, Status.DAMAGED, Status.BAD_GEOMETRY, Status.OLD_FORMAT)


class NotMapped(Exception):
    """A case that needs calls which the module doesn't have."""


# ---- What the program prints for the results of the module


def listing_text(listing):
    lines = [f'library {it.name} {it.length}' for it in listing.libraries]
    lines += [f'preload {name}' for name in listing.preloads]
    return '\n'.join([*lines, 'end']).replace('\\', '\\x5c')


def image_text(image):
    lines = []
    for it in image.segments:
        if it.data:
            bits = ''.join(c if it.permissions & p else '-' for c, p in zip('rwx', (4, 2, 1)))
            lines.append(f'segment 0x{it.address:016x} {len(it.data)} {bits}')
            lines += [it.data[at:at + 16].hex() for at in range(0, len(it.data), 16)]
    return '\n'.join([*lines, 'end'])


def exit_status(error):
    if not isinstance(error, rlibreg.Refusal):
        return 3
    return {Status.DEVICE: 3, Status.REOPEN: 3, Status.OUT_OF_MEMORY: 4}.get(error.number, 1)


def without_objects(text):
    return b''.join(line for line in text.splitlines(True) if not line.startswith(b'object '))


def told(call):
    """Returns the program's output for the result of a call, and its exit status."""
    try:
        text = call()
    except (rlibreg.Error, OSError) as error:
        return getattr(error, 'text', ''), exit_status(error)
    return 'ok' if text is None else text, 0


# ---- Commands


def ask(registry, command, words):
    """Returns the program's output for a command on an open registry."""
    if command == 'list':
        return listing_text(registry.list())
    if command == 'bind':
        return image_text(registry.bind(words[0], int(words[1], 16)))
    if command == 'preload':
        return registry.preload(words)
    return getattr(registry, command)(words[0])


def test_all(registry):
    """Tests each library, as the program does when it opens a disk, and as the module doesn't."""
    if any(finding.number for _, finding in registry.check()):
        error = rlibreg.Refusal()
        error.number, error.text = Status.DAMAGED, 'refused S5 Damaged'
        raise error


def run_command(disk, command, words):
    if command == 'format':
        return rlibreg.format(disk, int(words[0]))
    if command == 'upgrade':
        return rlibreg.upgrade(disk)
    if command in ('install', 'replace', 'bind') and words[0] != str(disk):
        words = [Path(words[0]).read_bytes(), *words[1:]]  # the program tests this before it opens the disk
    with rlibreg.Registry(disk, read_write=command not in ('list', 'bind')) as registry:
        test_all(registry)
        return ask(registry, command, words)


def asked(line):
    """Returns the command of a line, and the command's arguments."""
    command, *words = line.split(' ')
    if command in ('install', 'replace'):
        words = [bytes.fromhex(words[0])]
    elif command == 'bind':
        words = [bytearray.fromhex(words[1]), words[0]]
    return command, words


def run_lines(registry, script):
    """Returns the replies to a script's lines, and the number of refused lines."""
    replies, statuses = [], [0]
    for line in script.decode('latin-1').splitlines():
        reply, status = told(functools.partial(ask, registry, *asked(line)))
        replies.append(reply + '\n')
        statuses.append(status)
    return ''.join(replies).encode(), statuses


def update_by(registry, lines):
    """Returns the replies to the lines of an update. The tool refuses a line immediately. The module refuses it
    later, with the number of the change."""
    replies, changes = [], []
    try:
        with registry.update() as update:
            for line in lines:
                if not line.startswith('bind'):
                    changes.append(len(replies))
                ask(update, *asked(line))
                replies.append('bound' if line.startswith('bind') else 'planned')
        return '\n'.join([*replies, 'ok']), 0
    except rlibreg.Refusal as refusal:
        if refusal.number in UNOPENED:
            return '', exit_status(refusal)
        if refusal.change is not None:
            del replies[changes[refusal.change]:]
        return '\n'.join([*replies, refusal.text]), exit_status(refusal)


def update_of(data):
    """Returns the lines of an update up to `commit`."""
    lines, commit, _ = data.decode('latin-1').partition('\ncommit\n')
    if data.startswith(b'commit\n'):
        return []
    lines = lines.split('\n')
    if not commit or 'list' in lines or not all(LINE.fullmatch(line) for line in lines):
        raise NotMapped
    return lines


def script_of(data):
    lines = data.decode('latin-1').split('\n')
    if lines.pop() or not all(LINE.fullmatch(line) for line in lines):
        raise NotMapped
    return data


# ---- Calls of cases, each with the answer that it returns


class Run(NamedTuple):
    """`on BEFORE run WORD .. [< FILE] => STATUS ANSWER then AFTER`. The word `tool` may replace `run`."""

    program: str  # `run` or `tool`
    before: bytes  # or None
    command: str
    words: list
    script: bytes  # on standard input
    status: int
    text: bytes
    after: bytes  # or None


def run_of(case):
    before, program, run = re.fullmatch('(.*?) (run|tool) (.*)', ' '.join(case.words)).groups()
    run, _, script = run.partition(' < ')
    command, *words = run.split(' ')
    status, wanted = case.answer.split(' ', 1)
    wanted, after = wanted.split(' then ')
    before = None if before == 'none' else file(before)
    text = b'' if wanted.startswith('error ') else without_objects(answer(wanted))
    script = file(script or 'bytes=')
    return Run(program, before, command, words, script, int(status), text, left(after, before))


def on_disk(case, disk):
    run = run_of(case)
    if run.status == 2 or not is_mapped(run):
        raise NotMapped
    if run.before is not None:
        disk.write_bytes(run.before)
    name, *words = run.words
    path = disk if name == 'disk' else name and disk.parent / name
    if run.program == 'tool':
        with rlibreg.Registry(path, read_write=True) as registry:
            text, status = update_by(registry, update_of(run.script))
    elif run.command == 'script':
        text, status = told_script(path, run.script)
    else:
        if run.command in ('install', 'replace', 'bind'):
            words[0] = str(disk if words[0] == 'disk' else words[0] and DATA / words[0])
        text, status = told(functools.partial(run_command, path, run.command, words))
    after = disk.read_bytes() if disk.exists() else None
    return (run.status, run.text, run.after), (status, as_printed(text), after)


def told_script(path, script):
    try:
        with rlibreg.Registry(path, read_write=True) as registry:
            test_all(registry)
            replies, statuses = run_lines(registry, script)
    except OSError:
        return '', 3
    except rlibreg.Refusal as refusal:
        return refusal.text, exit_status(refusal)
    return replies, max(statuses)


def is_mapped(run):
    """Returns whether the words are a command for which the module has a call."""
    _, *words = run.words
    if run.program == 'tool':
        return run.command == 'update' and not words
    if run.command == 'script':
        return run.script and script_of(run.script)
    if run.command == 'preload':
        return True
    if len(words) != WORDS.get(run.command):
        return False
    if run.command == 'format':
        return re.fullmatch('[0-9]{1,7}', words[0])
    return run.command != 'bind' or re.fullmatch('0x[0-9a-fA-F]{1,16}', words[1])


def as_printed(text):
    return text if isinstance(text, bytes) else text.encode() + b'\n' if text else b''


def left(spelt, before):
    """Returns the bytes of AFTER."""
    if spelt == 'none' or spelt.startswith('same') and before is None:
        return None
    if spelt.startswith('same'):
        data = bytearray(before)
        for word in spelt.split()[1:]:
            change(data, word)
        return bytes(data)
    return file(spelt)


def script_on(case, disk):
    """`script SECTORS FILE => LINES REFUSED ANSWER`."""
    sectors, *words = case.words
    script = script_of(file(' '.join(words)))
    lines, refused, wanted = case.answer.split(' ', 2)
    rlibreg.format(disk, number(sectors))
    with rlibreg.Registry(disk, read_write=True) as registry:
        replies, statuses = run_lines(registry, script)
    counts = len(statuses) - 1, sum(1 for it in statuses if it)
    return (int(lines), int(refused), without_objects(answer(wanted))), (*counts, replies)


@functools.lru_cache(maxsize=1)
def bound(spelt, disk):
    """Returns the image of a BIND, or the text of its refusal."""
    program, *libraries = spelt.split(' + ')
    if ' as ' in spelt:
        raise NotMapped  # a library with another name than its SONAME
    program, _, preloads = program.partition(' preload ')
    program, base = program.rsplit(' ', 1)
    disk.unlink(missing_ok=True)
    rlibreg.format(disk, 8192)
    with rlibreg.Registry(disk, read_write=True) as registry:
        for library in libraries:
            registry.install(file(library))
        registry.preload(preloads.split())
        try:
            return registry.bind(memoryview(file(program)), number(base))
        except rlibreg.Refusal as error:
            return error.text


def bind_on(case, disk):
    image = bound(' '.join(case.words), disk)
    text = image if isinstance(image, str) else image_text(image)
    return without_objects(answer(case.answer)), as_printed(text)


def bytes_at(image, address, length):
    """Returns the bytes of an image from an address on, or None."""
    found = []
    for at in range(address, address + length):
        here = [it.data[at - it.address] for it in image.segments
                if it.address <= at < it.address + len(it.data)]
        found += here
    return bytes(found) if len(found) == length else None


def word_on(case, disk):
    image = bound(' '.join(case.words[1:]), disk)
    if isinstance(image, str):
        return case.answer, image
    word = bytes_at(image, number(case.words[0]), 8)
    return case.answer, 'none' if word is None else hex(int.from_bytes(word, 'little'))


def byte_on(case, disk):
    image = bound(' '.join(case.words[:-1]), disk)
    byte = bytes_at(image, number(case.words[-1]), 1)
    return case.answer, 'none' if byte is None else byte.hex()


def library_on(case, disk):
    """`library FILE => ANSWER`: the finding for the file, if it is in the place of a library `b`."""
    data = file(' '.join(case.words))
    if not (64 <= len(data) <= 1 << 24 and case.holds):
        raise NotMapped  # no library of that length is installed; other names are found to be the same
    before = file('strong.so').ljust(len(data), b'+')[:len(data)]
    disk.unlink(missing_ok=True)
    rlibreg.format(disk, 40000)
    with rlibreg.Registry(disk, read_write=True) as registry:
        try:
            registry.install(before)
        except rlibreg.Refusal:
            raise NotMapped from None  # the file is shorter than that library
    with open(disk, 'r+b') as sectors:
        sectors.seek(2 * 512)  # the first library's data
        sectors.write(data)
    with rlibreg.Registry(disk) as registry:
        (name, finding), = registry.check()
    kind, *words = case.answer.split(' ')
    if kind == 'library':
        return 'Sound' if words == [name] else 'OtherName', finding.name
    return ' '.join(words[:2]), finding.name


def not_mapped(case, disk):
    raise NotMapped


CALLS = {'on': on_disk, 'script': script_on, 'bind': bind_on, 'image': bind_on, 'word': word_on,
         'byte': byte_on, 'library': library_on}


def main():
    ran, left_out = collections.Counter(), collections.Counter()
    with tempfile.TemporaryDirectory(dir=sys.argv[1] if len(sys.argv) > 1 else None) as folder:
        disk = Path(folder) / 'disk'
        for case in cases():
            if case.call in ('on', 'script'):
                disk.unlink(missing_ok=True)
            try:
                wanted, found = CALLS.get(case.call, not_mapped)(case, disk)
            except NotMapped:
                left_out[case.call] += 1
                continue
            if (wanted == found) != case.holds:
                sys.exit(f'{case.where}: wanted {wanted!r}, found {found!r}'[:4000])
            ran[case.call] += 1
    counts = ', '.join(f'{count:,} of {call}' for call, count in ran.items())
    print(f'python: {sum(ran.values()):,} cases as stored: {counts}')
    counts = ', '.join(f'{count:,} of {call}' for call, count in left_out.items())
    print(f'python: no calls for {counts}')


main()

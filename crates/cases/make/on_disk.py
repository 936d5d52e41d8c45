"""Makes a case of a command line over a disk: its text, from the status, the answer and the disk that `program.py`
returns."""

from make import DATA
from program import Program
from samples import Object, build
from scripts import SECTOR

CASES = []  # the disk, the words, the input, and the status, the answer, the error and the disk afterwards
FILES = {}  # the first name of the objects of the folder that have these bytes
FILES_OF = {}  # the bytes of each object, by its name

# Libraries a and q of 344 bytes, which take one sector, and b of 520 bytes.
A, NAMED_Q, B_520 = 'soname-good-0.so', 'no-symbols.so', 'three-words.so'


def put(content, at, new):
    assert at + len(new) <= len(content)
    content[at:at + len(new)] = new


def first_bytes(name):
    """Returns the bytes of a FILE without changes."""
    what, _, rest = name.partition('=')
    if what == 'made':
        return bytes_of(' '.join((DATA / rest).read_text().split()))
    return bytes.fromhex(rest) if what == 'bytes' else (DATA / name).read_bytes()


def bytes_of(text):
    """Returns the bytes of a FILE with changes, in the form of docs/CASES.md, or None for `none`."""
    name, *changes = text.split(' ')
    return None if text == 'none' else with_changes(first_bytes(name), changes)


def with_changes(old, changes):
    """Returns bytes after changes."""
    content = bytearray(old)
    for change in changes:
        what, value = change.split('=')
        if what == 'cut':
            del content[int(value, 0):]
        elif what == 'pad':
            content += bytes(int(value, 0) - len(content))
        else:
            put(content, int(what, 0), (DATA / value[1:]).read_bytes() if value.startswith('@') else bytes.fromhex(value))
    return bytes(content)


def spans(old, new):
    """Returns the differences of two disks of one length, as pairs (offset, bytes). A few equal bytes may lie within
    one difference."""
    found = []
    for k in range(len(new)):
        if old[k] != new[k]:
            if found and k - found[-1][1] < 12:
                found[-1][1] = k + 1
            else:
                found.append([k, k + 1])
    return [(start, new[start:end]) for start, end in found]


def changes(old, new):
    """Returns the changes that make one disk another one: whole files of the folder, if they begin where a sector
    begins, and bytes."""
    made, said = bytearray(old), []
    for at in range(2 * SECTOR, len(new), SECTOR):
        differs = new[at:at + SECTOR] != old[at:at + SECTOR]
        name = next((FILES[file] for file in FILES if new.startswith(file, at)), None) if differs else None
        if name:
            put(made, at, FILES_OF[name])
            said.append((at, f'@{name}'))
    said += [(at, content.hex()) for at, content in spans(made, new)]
    return ''.join(f' 0x{at:x}={what}' for at, what in sorted(said, key=lambda change: change[0]))


def spelt(disk):
    """Returns the text that encodes a disk."""
    return f'bytes= pad={len(disk)}' + changes(bytes(len(disk)), disk)


def after_text(before, old, new):
    if new == old:
        return 'same'
    if old is not None and new is not None and len(old) == len(new):
        return 'same' + changes(old, new)
    return 'none' if new is None else spelt(new)


def answer_text(answer, error, file):
    """Returns the ANSWER of a case. A text of several lines is a file."""
    if error:
        return f'error {error[:-1]}'
    if file:
        path = DATA / file
        if not path.exists():
            path.write_text(answer)
        assert path.read_text() == answer, (file, answer)
        return f'file {file}'
    assert answer.count('\n') <= 1, answer
    return answer[:-1] if answer else 'nothing'


def on(before, words, wanted=None, after=None, given=None, file=None, has=''):
    """Returns a case. `wanted` is its status and answer, and `after` is the disk after it, if these were determined by
    hand; `has` is some bytes of that disk. `file` has an answer of several lines."""
    disk, text = bytes_of(before), b'' if given is None else bytes_of(given)
    status, answer, error, left = Program().run(words.split(' '), disk, text)
    ending = f'{status} {answer_text(answer, error, file)}'
    assert wanted is None or ending == wanted, (before, words, ending, wanted)
    if after is not None:
        whole = before + after[4:] if after.startswith('same') else after
        assert bytes_of(whole) == left, (before, words, after, after_text(before, disk, left))
    assert with_changes(left or b'', has.split()) == (left or b''), (before, words, has, after_text(before, disk, left))
    CASES.append((disk, words, text, (status, answer, error, left)))
    then = after or after_text(before, disk, left)
    whole = before + then[4:] if then.startswith('same') else then
    assert bytes_of(whole) == left, (before, words, then)
    return f'on {before} run {words}{f" < {given}" if given else ""} => {ending} then {then}'


def library(name, **parts):
    return build(Object(soname=name, **parts))[0]


def keep(name, content):
    (DATA / name).write_bytes(content)


def changed(disk, *commands):
    """Returns a disk after commands that succeed."""
    for command in commands:
        status, _, _, disk = Program().run(command.split(' '), disk)
        assert status == 0, command
    return disk


def find_files():
    """Finds the objects of the folder. The text of a case names such a file if the file begins where a sector begins."""
    for path in sorted(DATA.glob('*.so'), key=lambda path: (path.stat().st_size, path.name not in (A, NAMED_Q), path.name)):
        FILES.setdefault(path.read_bytes(), path.name)
        FILES_OF[path.name] = path.read_bytes()


def each_command(before, answer):
    """Each command that reads a registry, on a disk that it can't read."""
    return [on(before, command, answer, 'same', given) for command, given in (
        (f'install disk {A}', None), (f'replace disk {A}', None), ('remove disk a', None), ('preload disk', None), ('preload disk a a', None),
        ('list disk', None), ('bind disk minimal.so 0x10000', None), ('script disk', 'bytes=6c6973740a'))]


def each_opening(before, answer):
    """The same commands, and `upgrade`."""
    return each_command(before, answer) + [on(before, 'upgrade disk', answer, 'same')]


def listed(before, file):
    return on(before, 'list disk', file=file, after='same')


def other_files(a, b):
    """The changes of a disk whose libraries a and b are the objects `first.so` and `strong.so`, with a sector each: a
    in b's place, b in a's place, both, and zeros in a's and in b's place."""
    zeros = bytes(376).hex()
    return [f'{b}=@first.so', f'{a}=@strong.so', f'{a}=@strong.so {b}=@first.so', f'{a}={zeros}', f'{b}={zeros}']

"""Checks that the crates' sources have the names of docs/PROMISED_CALLS.txt, and that tests call the calls among them.

A crate exports a name if its lib.rt has it in a `pub use`. Of a type it exports the `pub fn`s of its `impl` blocks, the
functions of a trait, the variants of an enum, and the `pub` fields of a struct.

A test calls a function by its path if a file of a crate with tests brings the path's first name in from the crate that
exports it, and has a call such as `Layout::take(..)` or `choose(..)`. Each call of the list has to have such a test.
"""

import re
from functools import cache
from pathlib import Path

import clauses

ROOT = Path(__file__).resolve().parents[2]
LIST = ROOT / 'docs' / 'PROMISED_CALLS.txt'
USED = re.compile(r'^pub use (\w+)::([^;]*);', re.M)
TYPE = re.compile(r'^pub (enum|struct|trait|type) (\w+)')
BROUGHT = re.compile(r'^use (\w+)::(?:\{([^}]*)\}|(\w+));', re.M)
COMMENT = re.compile(r'//.*')
MEMBER = {'enum': re.compile(r'    ([A-Z]\w*)(?=[,({ ]|$)'), 'struct': re.compile(r'    pub (\w+):')}


def promised():
    """Returns the names of the list, in its order."""
    lines = (line.strip() for line in LIST.read_text().splitlines())
    return [line for line in lines if line and not line.startswith('#')]


@cache
def exports_of(crate):
    """Returns the names that a crate exports, each with the crate whose source has it."""
    source = ROOT / 'crates' / crate / 'src'
    found = {}
    for module, names in USED.findall((source / 'lib.rt').read_text()) if source.exists() else []:
        owner = crate if (source / f'{module}.rt').exists() else module
        found.update((name, owner) for name in re.findall(r'\w+', names))
    return found


def types_in(path):
    """Yields the public types of a file, and their variants and public fields."""
    kind = owner = None
    for line in path.read_text().splitlines():
        begun = TYPE.match(line)
        if begun:
            kind, owner = begun.groups()
            yield owner
        elif line.startswith('}'):
            kind = None
        member = kind in MEMBER and MEMBER[kind].match(line)
        if member:
            yield f'{owner}::{member.group(1)}'


@cache
def names_in(crate):
    """Returns the public names of a crate's source, with `Type::name` for the names within a type."""
    names = set()
    for path in (ROOT / 'crates' / crate / 'src').rglob('*.rt'):
        names.update(types_in(path))
        names.update(name for name, *_ in clauses.calls_in(path, exports_of(crate)))
    return names


@cache
def calls_of(crate):
    """Returns the public functions of a crate's source, with `Type::name` for those of a type or trait."""
    files = sorted((ROOT / 'crates' / crate / 'src').rglob('*.rt'))
    return {name for path in files for name, *_ in clauses.calls_in(path, exports_of(crate))}


@cache
def tests():
    """Yields each file of a crate with tests: its names, each with the crate from which it is brought in, and its
    text."""
    found = []
    for source in sorted(ROOT.glob('crates/*/src')):
        texts = [COMMENT.sub('', path.read_text()) for path in sorted(source.rglob('*.rt'))]
        if any('#[test]' in text for text in texts):
            found += [(brought_in(text), text) for text in texts]
    return found


def brought_in(text):
    """Returns the names that a file's `use` lines bring in, each with its crate."""
    return {(crate, name) for crate, several, one in BROUGHT.findall(text) for name in re.findall(r'\w+', several or one)}


# Calls that no test makes directly: `Registry::remove` makes the first, and crates/registry_cuts runs the second with
# every cut and pick.
THROUGH_OTHERS = {'store::Store::delete', 'registry::run_rounds'}


def is_tested(promise):
    """Returns whether a test calls a promised call by its path."""
    crate, name = promise.split('::', 1)
    call = re.compile(rf'(?<![\w.:]){name}\(')
    return any((crate, name.split('::')[0]) in names and call.search(text) for names, text in tests())


def is_call(promise):
    """Returns whether a promised name is a function."""
    crate, name = promise.split('::', 1)
    return name in calls_of(exports_of(crate).get(name.split('::')[0], crate))


def is_exported(promise):
    """Returns whether the crate of a promised name exports it."""
    crate, name = promise.split('::', 1)
    owner = exports_of(crate).get(name.split('::')[0])
    return owner is not None and name in names_in(owner)


def broken():
    """Yields a line for each fault of the list or of the sources."""
    names = promised()
    for name in sorted(set(names)):
        if names.count(name) > 1:
            yield f'{LIST.relative_to(ROOT)} has {name} more than once'
        if not is_exported(name):
            yield f'{LIST.relative_to(ROOT)} promises {name}, which its crate doesn\'t export'
        elif is_call(name) and not is_tested(name) and name not in THROUGH_OTHERS:
            yield f'{LIST.relative_to(ROOT)} promises {name}, which no test calls by its path'
    if not names:
        yield f'{LIST.relative_to(ROOT)} has no names'

"""Makes the tables of files in the READMEs of the folders outside the crates. In the README of each crate, makes the rows of
the files that no handwritten row names."""

import re
import subprocess
from functools import lru_cache
from pathlib import Path

import file_map

ROOT = Path(__file__).resolve().parents[2]
# The folders with a README that has a table of their files, and the folders below them that the same README has.
FOLDERS = {
    'c': (), 'c/library': (), 'c/loader': (), 'c/programs': (), 'c/driver': (),
    'c/install': ('c/install/system', 'c/install/debian'),
    'c/tests': ('c/tests/library', 'c/tests/loader', 'c/tests/driver', 'c/tests/install', 'c/tests/programs'),
    'bench/gate': (), 'bench/trials': (), 'bench/benchmarks': (), 'bench/pages': (), 'bench/shared': (),
    '.ci': ('.ci/tool.d',)}
CALLERS = ('c/', 'bench/', '.ci/', 'python/')
DEFINED = re.compile(r'^(static )?(?!typedef\b)[A-Za-z_][\w *]*?\b\**(\w+)\([^;{]*\)\s*\{', re.M)
CALLED, INCLUDED = re.compile(r'\b(\w+)\('), re.compile(r'^ *# *include "([^"]+)"', re.M)
MOST, OTHERS = 4, 'other files'
QUOTED, BRACES = re.compile(r'`([^`\n]+)`'), re.compile(r'\{([^{}]*)\}')
BEGIN, END = '<!-- {} -->', '<!-- end of {} -->'
# The mark of definitions whose source is this project: only the pages of definitions explain it.
OWN = re.compile(r' \(own\)$')


def expanded(path):
    """Returns the paths that a path with braces abbreviates."""
    found = BRACES.search(path)
    if not found:
        return [path]
    return [it for part in found[1].split(',') for it in expanded(path[:found.start()] + part + path[found.end():])]


@lru_cache
def tracked():
    """Returns the names of the repository's files."""
    words = ['git', '-C', str(ROOT), 'ls-files', '-co', '--exclude-standard']
    names = subprocess.run(words, capture_output=True, text=True, check=True).stdout.splitlines()
    return sorted(name for name in names if (ROOT / name).is_file())


@lru_cache
def texts():
    """Returns the texts, by name, of the files in which the tables look for uses of other files."""
    return {name: (ROOT / name).read_text(errors='replace') for name in tracked()
            if name.startswith(CALLERS) and not name.startswith(('bench/pages/', 'c/install/debian/')) and not name.endswith('.md')}


@lru_cache
def commands():
    """Returns the text of each of these files without the lines that are comments."""
    return {name: re.sub(r'^[ \t]*(?:#(?! *include)|//|\*|/\*).*$', '', text, flags=re.M) for name, text in texts().items()}


def word(name):
    """Returns the pattern of a name that stands alone."""
    return re.compile(r'(?<![\w.-])' + re.escape(name) + r'(?![\w-]|\.\w)')


def by_name(name):
    """Returns the files whose commands name a file, and the modules that import it."""
    path = Path(name)
    imported = re.compile(rf'^(?:from|import) {path.stem}\b', re.M)
    return [other for other, text in commands().items() if other != name and path.stem in text and (
        imported.search(text) if path.suffix == '.py' and other.endswith('.py') else word(path.name).search(text))]


def by_stem(name):
    """Returns the scripts beside a file or above it that name it without its ending."""
    path, folders = Path(name), [str(it) for it in Path(name).parents][:-1]
    return [other for other, text in commands().items() if other != name and str(Path(other).parent) in folders
            and (other.endswith('.sh') or not Path(other).suffix) and word(path.stem).search(text)]


@lru_cache
def declared(name):
    """Returns the functions that a header of `c`, or the headers that a file includes, declare."""
    text = texts()[name]
    included = [other for it in INCLUDED.findall(text) for other in texts() if other.startswith('c/') and Path(other).name == it]
    return set(CALLED.findall(text) if name.endswith('.h') else ()).union(*(declared(other) for other in included))


def by_function(name):
    """Returns the C files that call functions of a C file which their headers declare."""
    functions = {it for static, it in DEFINED.findall(texts()[name]) if not static}
    users = ['the callers of `rlibreg.h`'] if {it for it in functions & declared('c/rlibreg.h') if it.startswith('rlibreg_')} else []
    for other, text in texts().items():
        if functions and other != name and re.match(r'c/(?!tests/).*\.cc?$', other):
            called = functions & declared(other) - {it for _, it in DEFINED.findall(text)}
            users += [other] if called and called & set(CALLED.findall(text)) else []
    return users


def users(name):
    """Returns the files that use a file, as they are printed."""
    of_build = name.startswith(('c/library/', 'c/loader/', 'c/programs/', 'c/driver/'))
    found = (by_function(name) if of_build and name.endswith('.c') else []) or by_name(name) or by_stem(name)
    found = found or (['c/build.sh'] if of_build else [])
    shown = [it if ' ' in it else f'`{Path(it).name}`' for it in sorted(found, key=lambda it: (' ' not in it, it))]
    return ', '.join(dict.fromkeys(shown[:MOST])) + (f' and {len(shown) - MOST} more' if len(shown) > MOST else '')


def rest(crate, text):
    """Returns the rows of the files of a crate that its page doesn't name otherwise."""
    named = {path for quoted in QUOTED.findall(text) for path in expanded(quoted)}
    home = ROOT / 'crates' / crate
    inner = sorted({str(Path(it).parent) for it in tracked() if re.match(rf'crates/{crate}/(src|specs)/', it)}, key=lambda it: ('/specs' in it, it))
    return [f'| `{path.relative_to(home).as_posix()}` | {OWN.sub("", file_map.sentence(path))} |' for folder in inner for path in file_map.files_in(folder, tracked())
            if path.name != 'lib.rt' and path.relative_to(home).as_posix() not in named]


def of_crate(crate):
    """Returns the page of a crate as it has to be."""
    text = (ROOT / 'crates' / crate / 'README.md').read_text()
    hand = re.sub(f'\n*{BEGIN.format(OTHERS)}.*{END.format(OTHERS)}\n*', '\n', text, flags=re.S)
    rows = rest(crate, hand)
    return between(hand, OTHERS, ['| Other files | Contents |', '|---|---|', *rows]) if rows else hand


def table(folder):
    """Returns the table of a folder's files."""
    lines = ['| File | What it does | Used by |', '|---|---|---|']
    for inner in (folder, *FOLDERS[folder]):
        for path in file_map.files_in(inner, tracked()):
            name = path.relative_to(ROOT / folder).as_posix()
            lines.append(f'| [`{name}`]({name}) | {file_map.sentence(path)} | {users(path.relative_to(ROOT).as_posix())} |')
    return lines


def between(text, mark, lines):
    """Returns a page with these lines between its marks, which are added at its end if it lacks them."""
    begin, end = BEGIN.format(mark), END.format(mark)
    if begin not in text:
        text = f'{text.rstrip()}\n\n{begin}\n{end}\n'
    before, rest = text.split(begin)
    return f'{before}{begin}\n\n' + '\n'.join(lines) + f'\n\n{end}' + rest.split(end)[1]


def pages(crates):
    """Returns the README of each folder and of each crate as it has to be."""
    found = {ROOT / 'crates' / crate / 'README.md': of_crate(crate) for crate in crates}
    for folder in FOLDERS:
        path = ROOT / folder / 'README.md'
        found[path] = between(path.read_text(), 'files', table(folder))
    return found

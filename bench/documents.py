#!/usr/bin/env python3
"""Makes the generated parts of the documents, and checks that the names in all documents exist.

    python3 bench/documents.py            writes the generated pages again
    python3 bench/documents.py --check    writes nothing, and fails if a page would change

The generated parts are CLAUSES, DEFINITIONS and MAP, the tables of definitions in PROOFS, and the tables of files in the
READMEs of folders and crates (folder_pages.py). The script fails if a name between backquotes isn't in the tree, if the
list of bench/README.md doesn't name each file of bench/ once, if a source file has no comment at its head, if a picture
would change (pictures.py), if a refusal code comes before its name on a page, if a command of a page doesn't exist
(page_checks.py), if a list of refusals differs from the definitions (refusals.py), if a crate doesn't export a name of
docs/PROMISED_CALLS.txt, or if no test calls it by its path. A name is a path, or a word of the code: a word with `_`, `::`
or a capital letter within it. In a crate's page, a path that begins with `src/`, `specs/`, `proofs/`, `data/` or `must-
fail/` is a path of that crate; in any other page it is a path of some crate. All other paths begin at the root of the
repository.
"""

import re
import sys
from pathlib import Path

sys.path.insert(1, str(Path(__file__).resolve().parent / 'pages'))
import clauses
import definitions
import file_map
import folder_pages
import page_checks
import pictures
import promised
import refusals

ROOT = Path(__file__).resolve().parent.parent
PROOFS, DEFINITIONS, CLAUSES, MAP = (ROOT / 'docs' / f'{name}.md' for name in ('PROOFS', 'DEFINITIONS', 'CLAUSES', 'MAP'))
# Names of the standards, of the system and of the toolchain, which no file of the tree contains.
ELSEWHERE = {'sqlite_std_file', 'elf_x86_64', 'thread_local', 'lW', '__cxa_atexit', 'luaL_openlibs'}
QUOTED = re.compile(r'`([^`\n]+)`')
NAME = re.compile(r'[A-Za-z_][\w]*(?:::[A-Za-z_]\w*)*')
PATH = re.compile(r'^[\w.{},*-]+(?:/[\w.{},*-]+)+/?$')
OF_THE_ROOT, IN_A_CRATE = ('crates', 'docs', 'bench', 'c', 'python', '.ci'), ('src', 'specs', 'proofs', 'data', 'must-fail')
# MADE: the folder that a build makes. PATTERN: a path with a word in capitals, such as must-fail/THE_MISTAKE.edit, which
# represents many paths of a crate.
MADE, PATTERN = 'out', re.compile(r'(?:src|specs|proofs|must-fail)/.*\b[A-Z_]{4,}\b')


def replaced(text, mark, lines):
    """Returns a page with these lines between its marks."""
    begin, end = f'<!-- {mark} -->', f'<!-- end of {mark} -->'
    before, rest = text.split(begin)
    return f'{before}{begin}\n\n' + '\n'.join(lines) + f'\n{end}' + rest.split(end)[1]


def crates():
    """Returns the names of the crates of crates.txt, in its order."""
    return re.findall(r'^(\w+)(?: staticlib)?:', (ROOT / 'crates.txt').read_text(), re.M)


def pages():
    """Returns the generated pages as they have to be."""
    files, first, needed = definitions.all_of_them()
    text = replaced(PROOFS.read_text(), 'numbers', [definitions.numbers(files, first, needed), ''])
    return {
        PROOFS: replaced(text, 'reading', definitions.reading(files)),
        DEFINITIONS: definitions.page(files, first, needed),
        CLAUSES: clauses.page(definitions.CRATES),
        MAP: file_map.page(crates())[0],
        **folder_pages.pages(crates())}


def written():
    """Returns the documents that are written by hand."""
    found = [ROOT / 'README.md', ROOT / 'CONTRIBUTING.md', *sorted(ROOT.glob('docs/*.md')), *sorted(ROOT.glob('crates/*/README.md')),
             *(ROOT / folder / 'README.md' for folder in ('bench', *folder_pages.FOLDERS))]
    return [path.relative_to(ROOT).as_posix() for path in found if path not in (CLAUSES, DEFINITIONS, MAP)]


def words_of_the_tree():
    """Returns every word of the code and of the files' names."""
    words = set()
    for path in ROOT.rglob('*'):
        parts = path.relative_to(ROOT).parts
        if MADE in parts or parts[0] == '.git':
            continue
        words.update(re.findall(r'[A-Za-z_]\w*', path.name))
        if path.is_file() and path.suffix in ('.rt', '.antt', '.py', '.c', '.h', '.sh', '.rs', '.txt', '.edit', '') and path.stat().st_size < 2 ** 22:
            words.update(re.findall(r'[A-Za-z_]\w*', path.read_text(errors='replace')))
    return words


def is_there(path, crate):
    """Returns whether the repository has a path that the page of a crate, or of no crate, names."""
    if path.split('/')[0] in OF_THE_ROOT:
        return any(ROOT.glob(path))
    return any(ROOT.glob(f'crates/{crate or "*"}/{path}'))


def is_in_code(name):
    """Returns whether a name looks like a name of the code."""
    return '_' in name.strip('_') or '::' in name or re.search(r'[a-z][A-Z]', name)


def unknown_names(text, words, crate):
    """Yields the names between backquotes, in a page of a crate or of no crate, that the tree doesn't have."""
    text = re.sub(r'^    .*$', '', text, flags=re.M)
    for quoted in QUOTED.findall(text):
        if PATH.match(quoted) and quoted.split('/')[0] in OF_THE_ROOT + IN_A_CRATE:
            if MADE not in quoted.split('/') and not PATTERN.match(quoted):
                yield from (path for path in folder_pages.expanded(quoted) if not is_there(path.strip('/'), crate))
            continue
        for name in NAME.findall(quoted):
            if is_in_code(name) and any(part not in words and part not in ELSEWHERE for part in name.split('::')):
                yield name


def unlisted():
    """Returns the files of this folder and its folders that the list of bench/README.md doesn't name exactly once."""
    named = QUOTED.findall((ROOT / 'bench' / 'README.md').read_text())
    return sorted(path.name for path in (ROOT / 'bench').rglob('*')
                  if path.is_file() and path.suffix != '.pyc' and path.name != 'README.md' and named.count(path.name) != 1)


def faults_of_files():
    """Yields each fault of the lists of files and calls, and of the pictures."""
    yield from (f'bench/README.md names {name} not once' for name in unlisted())
    yield from (f'{name} has no comment at its head' for name in file_map.page(crates())[1])
    yield from promised.broken()
    yield from refusals.wrong()
    if '--check' in sys.argv:
        yield from pictures.wrong()


def main():
    wrong = 0
    for fault in faults_of_files():
        print(fault)
        wrong += 1
    for path, text in pages().items():
        if '--check' not in sys.argv:
            path.write_text(text)
        elif not path.exists() or path.read_text() != text:
            print(f'{path.relative_to(ROOT)} would change: python3 bench/documents.py')
            wrong += 1
    words, names, known = words_of_the_tree(), page_checks.names_of_codes(), page_checks.forms()
    for name in written():
        text = (ROOT / name).read_text()
        crate = name.split('/')[1] if name.startswith('crates/') else None
        for unknown in sorted(set(unknown_names(text, words, crate))):
            print(f'{name} names {unknown}, which is nowhere')
            wrong += 1
        for fault in page_checks.faults(text, names, known):
            print(f'{name} has {fault}')
            wrong += 1
    print(f'documents: {wrong} wrong')
    sys.exit(wrong != 0)


main()

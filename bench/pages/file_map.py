"""docs/MAP.md: each source file of the repository, with the first sentence of its head comment."""

import re
import subprocess
from pathlib import Path

ROOT = Path(__file__).resolve().parents[2]
HEAD = """# Map

This page is for everyone who looks for a file. It lists the source files with the first sentence of each file's own head comment. `bench/documents.py` makes it.

In a crate, `src` has the code, and `specs` the definitions that contracts cite. The folder `proofs`, which isn't listed, has a folder for each function with answers of its own, and modules of lemmas; `must-fail` has wrong bodies, each named for its mistake.
"""
# The folders other than the crates, in the order of the page, with the purpose of each.
FOLDERS = {
    'c': 'the header of the C library, and the commands that build, install and try everything below',
    'c/library': 'the C library over files, which `c/build.sh` compiles into librlibreg',
    'c/loader': 'the loader rlibreg-run',
    'c/programs': 'the C code that is linked over the programs and the loader, and the program rlibreg-switch',
    'c/driver': 'rlibreg-gcc with its parts, which compiles and links libraries and programs for a registry',
    'c/install': 'what `c/install.sh` makes and installs besides the built files',
    'c/install/system': 'the rule, the units and the hooks that `c/install.sh` installs',
    'c/install/debian': 'the metadata of the Debian package',
    'c/tests': 'the tests of everything in `c`, which `c/tests/run.sh` runs',
    'c/tests/library': 'the tests of the C library',
    'c/tests/loader': 'the tests of the loader',
    'c/tests/driver': 'the tests of rlibreg-gcc',
    'c/tests/install': 'the tests of an installation and of the manual pages',
    'c/tests/programs': 'the programs and libraries that these tests build',
    'python/rlibreg': 'the Python module',
    'python/tests': 'its tests',
    '.ci': 'the gate',
    '.ci/tool.d': 'the parts of `.ci/tool`',
    'bench': 'the commands that make the documents and the Debian package; the folders have tests, benchmarks and the parts of both ([by kind](../bench/README.md))',
    'bench/gate': 'the tests over files and systems that the gate runs',
    'bench/trials': 'the tests that are run by hand, over devices, kernels and real programs',
    'bench/benchmarks': 'the scripts that measure times and memory',
    'bench/pages': 'the parts of `bench/documents.py`, which make and check documents',
    'bench/shared': 'the modules that these scripts share',
    'share': 'a program that is installed'}
# Files without a comment of their own, because of their format or because they have only names.
PLAIN = {
    'c/install/debian/control': 'the name, the version and the dependencies of the package',
    'c/install/debian/copyright': 'the licence of the package',
    'c/install/debian/plugin-control': "the name, the version and the dependencies of the package of gcc's plugin",
    'c/install/debian/plugin-copyright': "the licence of gcc's plugin",
    'c/install/debian/cxx-control': "the same of the package of C++'s standard library",
    'c/install/debian/cxx-copyright': "the licence of C++'s standard library",
    'c/install/debian/postinst': 'what the package does after it is installed',
    'c/install/debian/prerm': 'what the package does before it is removed',
    'c/install/debian/triggers': 'what the system does after an installation: it updates its list of libraries and its initramfs',
    'c/install/rlibreg.pc.in': 'the file with which pkg-config finds the C library',
    'bench/trials/real.sql': 'everyday commands for a shell of SQLite'}
UNLISTED = {'Lib.antt', 'inside.antt', 'README.md', 'py.typed', 'start.o'}
ENDINGS = {'.rt', '.antt', '.c', '.cc', '.h', '.py', '.sh', '.awk', '.lua', '.sql', '.rs', '.in', '.specs', '.rules', '.service', '.mount', '.conf', ''}
MARK = re.compile(r'^\s*(?:///?!?|//!|--|#|/\*+|\*(?!/)|""")[ ]?')


def head(text):
    """Returns the first comment of a text as one line, without the marks of its language."""
    lines = [line for line in text.splitlines() if not line.startswith(('#!/', '#![', 'ghost use ', 'use '))]
    block, ends = None, {'/*': '*/', '"""': '"""'}
    found = []
    for line in lines:
        inner = line.strip()
        if not found:
            block = next((end for start, end in ends.items() if inner.startswith(start)), None)
            if not block and not MARK.match(line):
                continue
        elif not block and not MARK.match(line):
            break
        found.append(MARK.sub('', line).strip() if not found or not block or inner.startswith('*') else inner)
        is_closed = block and (block in inner[3:] or inner == block and len(found) > 1)
        if is_closed or (not found[-1] and len(found) > 1):
            break
    return ' '.join(found).replace('*/', '').replace('"""', '').strip()


def sentence(path):
    """Returns the first sentence about a file, without its period, or None if the file has no comment."""
    name = path.relative_to(ROOT).as_posix()
    text = PLAIN.get(name) or head(path.read_text(errors='replace'))
    if not text:
        return None
    first = re.split(r'(?<!\.)\.(?=\s+[A-Z`"]|$)', text)[0]
    return first.rstrip('.:').replace('|', '\\|')


def files_in(folder, tracked):
    """Returns the listed files of a folder, in the order of their names."""
    return [ROOT / name for name in sorted(tracked) if str(Path(name).parent) == folder
            and Path(name).suffix in ENDINGS and Path(name).name not in UNLISTED and (ROOT / name).exists()]


def rows(folder, tracked):
    """Returns the rows of a folder's table, and the names of its files without a sentence."""
    found, silent = [], []
    for path in files_in(folder, tracked):
        said = sentence(path)
        name = path.relative_to(ROOT).as_posix()
        silent += [] if said else [name]
        found.append(f'| [`{path.relative_to(ROOT / folder).as_posix()}`](../{name}) | {said} |')
    return found, silent


def page(crates):
    """Returns the page, and the names of the files that have no comment at their head."""
    tracked = subprocess.run(['git', '-C', str(ROOT), 'ls-files', '-co', '--exclude-standard'], capture_output=True, text=True, check=True).stdout.split('\n')
    lines, silent = [HEAD], []
    for folder, purpose in FOLDERS.items():
        found, without = rows(folder, tracked)
        lines += [f'## {folder}', '', purpose[0].upper() + purpose[1:] + '.', '', '| File | Contents |', '|---|---|', *found, '']
        silent += without
    for crate in crates:
        lines += [f'## crates/{crate}', '', f'[README](../crates/{crate}/README.md)', '', '| File | Contents |', '|---|---|']
        inner = sorted({str(Path(it).parent) for it in tracked if it.startswith((f'crates/{crate}/src/', f'crates/{crate}/specs/'))},
                       key=lambda it: (not it.startswith(f'crates/{crate}/src'), it))
        for folder in inner:
            found, without = rows(folder, tracked)
            place = folder.removeprefix(f'crates/{crate}/')
            lines += [row.replace('[`', f'[`{place}/', 1) for row in found]
            silent += without
        lines.append('')
    return '\n'.join(lines).rstrip() + '\n', silent

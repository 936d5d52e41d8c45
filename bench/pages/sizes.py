#!/usr/bin/env python3
"""Prints the size of each crate of crates.txt: `python3 bench/pages/sizes.py`."""

import re
from pathlib import Path

ROOT = Path(__file__).resolve().parents[2]
HEAD = '| Crate | Lines of src (without tests), specs, proofs | Functions | Edits | Tests |\n|---|---|---|---|---|\n'


def lines(files):
    return sum(len(file.read_text().splitlines()) for file in files)


def found(pattern, files):
    return sum(len(re.findall(pattern, file.read_text(), re.M)) for file in files)


def row_of(crate):
    folder = ROOT / 'crates' / crate
    files = list(folder.glob('src/**/*.rt'))
    source = [file for file in files if 'tests' not in str(file.relative_to(folder))]
    sizes = [lines(source), lines(folder.glob('specs/**/*.antt')), lines(folder.glob('proofs/**/*.antt'))]
    functions = found(r'^\s*(?:pub(?:\([a-z]+\))? )?(?:const )?fn ', source)
    edits, tests = len(list(folder.glob('must-fail/*.edit'))), found(r'#\[test\]', files)
    return f"| `{crate}` | {', '.join(f'{size:,}' for size in sizes)} | {functions} | {edits} | {tests} |\n"


def main():
    lines_of_crates = [line.split('#')[0] for line in (ROOT / 'crates.txt').read_text().splitlines()]
    crates = [line.split(':')[0].split()[0] for line in lines_of_crates if ':' in line]
    print(HEAD + ''.join(map(row_of, crates)), end='')


main()

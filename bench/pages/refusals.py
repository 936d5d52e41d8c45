"""Compares every list of refusals with the definitions of their texts: the comments of the code, the numbers of statuses,
`c/rlibreg.h`, the names that the C library returns, Python's `Status`, the tables of COMMANDS and TOOL, and the driver's
help."""

import re
from pathlib import Path

import page_checks

ROOT = Path(__file__).resolve().parent.parent.parent
TEXT = re.compile(r'codes "(?:refused )?([SCBLE]\d+) ([A-Z]\w+)')
UNCODED = re.compile(r'codes "refused ([A-Z]\w*[a-z]\w*)[ \\]')
VARIANT = re.compile(r'^ +/// ([SCBLE]\d+): (?:.*\n)(?: +///.*\n| +#\[.*\n)* +(\w+)', re.M)
NUMBER = re.compile(r'^(\w+) \(?(?:\w+\.)(\w+)(?: \w+)*\)? = (\d+)$', re.M)
CONSTANT = re.compile(r'^ +RLIBREG_(\w+) = (\d+),?(?: +/\* ([SCBLE]\d+):)?', re.M)
NAMED = re.compile(r'\{ RLIBREG_(\w+), "([^"]*)" \}')
# A status is a refusal's number, and what is added for the refusal's letter.
ADDED = {'E': 0, 'B': 100, 'C': 200, 'S': 300}
# The variants of B1 and C1, for which the name of the file's test is printed.
NAMED_BY_TEST = {'B1': 'Program', 'C1': 'Object'}


def read(path):
    return (ROOT / path).read_text()


def definitions():
    """Returns the names of the refusals by their codes, and the names of those that have no code."""
    texts = [path.read_text() for path in sorted(ROOT.glob('crates/*/specs/*.antt'))]
    coded = {code: name for text in texts for code, name in TEXT.findall(text)}
    return coded, {name for text in texts for name in UNCODED.findall(text)}


def status(code):
    """Returns the status of a refusal."""
    return ADDED[code[0]] + int(code[1:])


def comments(names):
    """Yields each comment of the code that gives a variant another refusal's number."""
    for path in sorted(ROOT.glob('crates/*/src/*.rt')):
        for code, variant in VARIANT.findall(path.read_text()):
            if variant not in (names.get(code), NAMED_BY_TEST.get(code)):
                yield f'{path.relative_to(ROOT)} calls {variant} {code}'


def numbers(names):
    """Yields each status in the definitions of the C library's answers that isn't that of its refusal."""
    letters = {'store_number': 'S', 'bind_number': 'BS', 'refusal_number': 'CS', 'object_number': 'E', 'file_number': 'E'}
    codes = {(code[0], name): code for code, name in [*names.items(), *NAMED_BY_TEST.items()]}
    for of, name, number in NUMBER.findall(read('crates/c_answers/specs/Numbers.antt')):
        found = [codes[letter, name] for letter in letters.get(of, '') if (letter, name) in codes]
        if of in letters and [status(code) for code in found[:1]] != [int(number)]:
            yield f'Numbers.antt gives {name} the status {number}'


def constants():
    """Returns the statuses of rlibreg.h by their names, and the refusals that their comments name."""
    found = CONSTANT.findall(re.search(r'^ +RLIBREG_DONE = 0.*?^\};', read('c/rlibreg.h'), re.S | re.M)[0])
    return {name: int(number) for name, number, _ in found}, {name: code for name, _, code in found if code}


def of_c(names, uncoded):
    """Yields each fault of the header's constants, and of the names that the C library returns."""
    numbers, codes = constants()
    for name, code in codes.items():
        if status(code) != numbers[name]:
            yield f'rlibreg.h gives {name} the status {numbers[name]}, and calls it {code}'
    source = read('c/library/rlibreg_status.c')
    texts = {status(code): f'{code} {name}' for code, name in names.items() if code[0] in 'BCS'}
    texts |= {status(code): code for code in NAMED_BY_TEST}
    for name, text in NAMED.findall(source):
        number = numbers.get(name)
        if number is None or number > 400 and text not in uncoded or 100 < number < 400 and texts.get(number) != text:
            yield f'rlibreg_status.c calls {name} "{text}"'
    if re.findall(r'"(E\d+ \w+)"', source) != [f'E{n} {names[f"E{n}"]}' for n in range(1, 34)]:
        yield 'rlibreg_status.c has other names of the tests of a file'


def of_python():
    """Yields the fault that Python's statuses aren't those of rlibreg.h."""
    ours = re.search(r'class Status.*?(?=\n\n\n)', read('python/rlibreg/__init__.py'), re.S)[0]
    if {name: int(number) for name, number in re.findall(r'^    ([A-Z_]+) = (\d+)', ours, re.M)} != constants()[0]:
        yield "Python's Status isn't the list of rlibreg.h"


def of_pages(names):
    """Yields each refusal that the tables of COMMANDS and TOOL lack or give another name, and each that the driver's help
    invents."""
    tables = page_checks.names_of_codes()
    for code in sorted({*names, *tables}):
        if names.get(code) != tables.get(code):
            yield f'COMMANDS and TOOL call {code} {tables.get(code)}, and the definitions {names.get(code)}'
    for code in re.findall(r"'[^'\n]* ([SCBLE]\d+) ", read('c/driver/rlibreg-ld')):
        if code not in names:
            yield f'rlibreg-ld helps with {code}, which is no refusal'


def wrong():
    """Yields each fault of a list of refusals."""
    names, uncoded = definitions()
    yield from comments(names)
    yield from numbers(names)
    yield from of_c(names, uncoded)
    yield from of_python()
    yield from of_pages(names)

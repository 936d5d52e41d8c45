"""Checks of a page, besides the check of its names: refusal codes, forms of the programs' command lines, and paths in
commands."""

import re
from pathlib import Path

ROOT = Path(__file__).resolve().parents[2]
CODE = re.compile(r'(?<![\w/.-])([SCBLE]\d{1,2})(?![\w-])')
RANGE = re.compile(r'[SCBLE]\d+ to [SCBLE]\d+')
NAMED = re.compile(r'`refused (?:[SBC]1 )?([SCBLE]\d+) ([A-Z]\w+)|^\| (E33) (\w+)', re.M)
# B1 and C1 have no name: a test of the file comes after them, with its own name.
NAMELESS = {'B1', 'C1'}
FORMS = {'rlibreg': 'commands', 'rlibreg-tool': 'tool_commands'}
CALL = re.compile(r'(?<![\w./-])(rlibreg|rlibreg-tool) ([a-z]+)\b')
QUOTED = re.compile(r'`([^`\n]+)`')
PATH = re.compile(r'(?<![\w./$-])((?:c|bench|crates|docs|python|\.ci)/[\w./-]+)')


def names_of_codes():
    """Returns the name of each refusal code, from the tables of COMMANDS and TOOL."""
    found = {}
    for page in ('COMMANDS', 'TOOL'):
        for code, name, other, its in NAMED.findall((ROOT / 'docs' / f'{page}.md').read_text()):
            found.setdefault(code or other, name or its)
    return found


def forms():
    """Returns the forms of both programs, from the code that reads their arguments."""
    read = lambda crate: (ROOT / 'crates' / crate / 'src' / 'form.rt').read_text()
    return {program: set(re.findall(r'^ +"([a-z]+)" => (?!Some)', read(crate), re.M)) for program, crate in FORMS.items()}


def prose_and_code(text):
    """Yields each line of a page with whether it is code: in a fence, or indented as a block."""
    in_fence = False
    for line in text.splitlines():
        if line.startswith('```'):
            in_fence = not in_fence
        yield line, in_fence or line.startswith('    ')


def unnamed_codes(text, names):
    """Yields the refusal codes whose first use on a page is without their name."""
    seen = set(NAMELESS)
    for line, is_code in prose_and_code(text):
        for code in CODE.findall('' if is_code else RANGE.sub('', line)):
            if code not in seen and names.get(code, '?') not in line:
                yield f'{code} before its name'
            seen.add(code)


def unknown_calls(text, known):
    """Yields the forms in a page's code that a program doesn't have, and the paths in commands that don't exist."""
    for line, is_code in prose_and_code(text):
        for part in [line] if is_code else QUOTED.findall(line):
            for program, form in CALL.findall(part):
                if form not in known[program]:
                    yield f'{program} {form}, which is no form'
        for path in PATH.findall(line) if is_code else ():
            if '/out' not in path and not (ROOT / path.rstrip('/.')).exists():
                yield f'{path}, which is nowhere'


def faults(text, names, known):
    """Yields each fault of a page."""
    yield from sorted({*unnamed_codes(text, names), *unknown_calls(text, known)})

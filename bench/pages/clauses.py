"""The public calls of each crate with their clauses, as docs/CLAUSES.md has them, from the text of `src/`.

A call links to its file, and is described by the first sentence of its comment. After it come its clauses. Each group
of clauses comes after the `//` lines above it. A clause of up to MOST characters, or without a label, is copied as it
is; of a longer clause only the label is copied. If a clause cites one record, the record's parts follow in square
brackets: the record's fields, each group of them with the comment above it. docs/PROOFS.md and docs/DEFINITIONS.md
explain the words of a clause.
"""

import re
from functools import cache
from pathlib import Path

import definitions

ROOT = Path(__file__).resolve().parents[2]
ITEM = re.compile(r'^( *)pub (?:const )?(?:unsafe )?(?:extern "C" )?fn (\w+)')
TRAIT_ITEM = re.compile(r'^    fn (\w+)')
OWNER = re.compile(r'^(?:pub )?(impl|trait)\b(?:<.*?>)? ?(?:[\w:]+(?:<.*?>)? for )?(\w+)')
CLAUSE = re.compile(r'^ *ensures (?:(\w+) )?\{')
# The maximum length of a clause with a label that is copied as it is.
MOST = 100
# Records of disks and of states that most clauses cite. Their parts say nothing about a single call.
GENERAL = {'sector_disk/Disk', 'states/State', 'store/Opened', 'store/Stands', 'registry/Opened', 'registry/Stands'}
HEAD = """# Clauses

This page is for everyone who uses a crate, or asks what is proved of a call. It lists each public call, as a link to its file, with its clauses after the comments above them. Labels are in italics. If a clause has more than 100 characters, the page has only its label; the clause is in that file, before the function's body. If a clause cites one record, the record's parts are in square brackets. No call that [PROMISED_CALLS.txt](PROMISED_CALLS.txt) lists is renamed or removed. `bench/documents.py` makes this page.

"""


def exported(crate):
    """Returns the names that a crate's lib.rt gives its users, and those that it exports to C."""
    names = set()
    for used in re.findall(r'^pub use ([^;]*);', (crate / 'src' / 'lib.rt').read_text(), re.M):
        names.update(re.findall(r'\w+', used.split('::', 1)[-1]))
    for path in (crate / 'src').glob('*.rt'):
        names.update(re.findall(r'^pub extern "C" fn (\w+)', path.read_text(), re.M))
    return names


def described(comment):
    """Returns the first sentence of a comment."""
    text = ' '.join(line.strip()[4:] for line in comment)
    return re.split(r'(?<=[.:]) (?=[A-Z])', text)[0].rstrip('.')


@cache
def cited_by(path):
    """Returns the definitions to which the names in a file of code or of definitions refer, and the file's lines
    without comments."""
    lines = path.read_text().splitlines()
    return definitions.uses_of(lines), lines


def found_at(name, path):
    """Returns the file of definitions and the name that a name in `path` refers to, or None."""
    first, *rest = name.split('.')
    used = cited_by(path)[0].get(first)
    if used is None:
        return (path, name) if path.suffix == '.antt' else None
    place, last = used[0], used[1] or (rest[0] if rest else first)
    crate, module = place.split('/')
    file = ROOT / 'crates' / crate / 'specs' / (module.replace('.', '/') + '.antt')
    return (file, last) if file.exists() else None


def conjuncts(text):
    """Returns the first word of each part of a clause's conclusion, which comes after its premises and binders. An
    alternative has no such words."""
    text = ' '.join(text.split())
    text = re.split(r' → (?![^(]*\))|→ ', text)[-1] if '→' in text else text
    text = re.sub(r'^(?:IfOk|IfErr|IfSome) \w+ \((?:λ \w+\. )?', '', text)
    if '⊎' in text:
        return []
    heads = (re.match(r'\(*([A-Z][\w.]*)', part) for part in text.split(' × '))
    return [head.group(1) for head in heads if head]


@cache
def parts_of(name, path):
    """Returns the parts of the record that a name refers to: each group of fields with the comment above it. Returns
    none if the name isn't that of a record. An abbreviation is replaced by its text."""
    found = found_at(name, path)
    if found is None or f'{found[0].parts[-3]}/{found[0].stem}' in GENERAL:
        return ()
    file, last = found
    lines = cited_by(file)[1]
    for number, line in enumerate(lines):
        if re.match(rf'(?:  )?pub record {last}\b', line):
            return tuple(fields_of(lines[number + 1:], len(line) - len(line.lstrip()), file))
        if re.match(rf'(?:  )?abbrev pub {last}\b', line):
            return cited_in(body_of(last, lines[number + 1:]), file, last)
    return ()


def body_of(name, lines):
    """Returns the text of an abbreviation."""
    body = []
    for line in lines:
        if not body and line.strip().startswith(f'{name} ') and ' =' in line:
            body.append(line.split(' =', 1)[1])
        elif body and not line.startswith('    '):
            break
        elif body:
            body.append(line)
    return ' '.join(body)


def cited_in(text, path, own=None):
    """Returns the parts of the records that a text cites."""
    return tuple(part for name in conjuncts(text) if name != own for part in parts_of(name, path))


def fields_of(lines, indent, path):
    """Returns the fields of a record: groups of a comment and names, each with the parts of a record that it cites
    without a premise."""
    groups, margin = [], ' ' * (indent + 2)
    for line in lines:
        named = re.match(rf'{margin}pub (\w+) : (.*)', line)
        if re.match(rf'{margin}-- ', line):
            if groups and not groups[-1][1]:
                groups[-1][0] += ' ' + line.strip()[3:]
            else:
                groups.append([line.strip()[3:], []])
        elif named:
            if not groups:
                groups.append(['', []])
            inner = () if '→' in named.group(2) else cited_in(named.group(2), path)
            groups[-1][1].append(f'`{named.group(1)}`' + told(inner))
        elif line and not line.startswith(margin):
            break
    return [(comment.rstrip('.'), tuple(names)) for comment, names in groups]


def told(parts):
    """Returns the text of parts, in square brackets."""
    listed = '; '.join(', '.join(names) + (f': {comment}' if comment else '') for comment, names in parts)
    return f' [{listed}]' if listed else ''


def clause_at(number, lines, path):
    """Returns the clause at a line as the page has it: its label; the clause itself if it is short or has no label;
    and the parts of the record that it cites."""
    label = CLAUSE.match(lines[number]).group(1)
    clause = ' '.join(next(definitions.clause_texts(' '.join(lines[number:]), label or 'result')).split())
    shown = [f'*{label}*'] if label else []
    if not label or len(clause) <= MOST:
        shown.append('`' + clause.replace('|', '\\|') + '`')
    return ' '.join(shown) + told(cited_in(clause, path))


def groups_of(lines, path):
    """Returns the clauses of a call: for each group between empty lines, its comment and the clauses."""
    groups, comment, clauses = [], [], []
    for number, line in enumerate([*lines, '']):
        if CLAUSE.match(line):
            clauses.append(clause_at(number, lines, path))
        elif line.strip().startswith('//'):
            if clauses:
                groups.append((comment, clauses))
                comment, clauses = [], []
            comment.append(line.strip()[3:])
        elif not line.strip() and (clauses or comment):
            groups.append((comment, clauses))
            comment, clauses = [], []
    return [(' '.join(comment).rstrip('.'), clauses) for comment, clauses in groups if clauses]


def end_of_header(lines, number):
    """Returns the line after a function's clauses: the function's body begins at this line, or the function has no body."""
    depth = 0
    for k in range(number, len(lines)):
        line = lines[k].split('//')[0].rstrip()
        if depth == 0 and line.endswith(('{', '{}')) and not re.match(r' *(?:ensures|requires)\b', line):
            return k
        depth += line.count('{') - line.count('}')
        if depth == 0 and line.endswith(';'):
            return k + 1
    return len(lines)


def calls_in(path, names):
    """Returns the public calls of a file, with the file, their descriptions, and their clauses."""
    owner, comment, found = None, [], []
    lines = path.read_text().splitlines()
    for number, line in enumerate(lines):
        owned = OWNER.match(line)
        if owned:
            owner = owned.groups()
        item = ITEM.match(line) or (owner and owner[0] == 'trait' and TRAIT_ITEM.match(line))
        if line.startswith('}'):
            owner = None
        if item:
            name = item.group(item.lastindex)
            if (owner[1] if owner else name) in names:
                header = lines[number:end_of_header(lines, number)]
                found.append((f'{owner[1]}::{name}' if owner else name, path, described(comment), groups_of(header, path)))
        comment = [*comment, line] if line.strip().startswith('///') else comment if line.strip().startswith('#[') else []
    return found


def row_of(name, path, said, groups):
    """Returns the row of a call."""
    parts = [(f'{comment}: ' if comment else '') + '; '.join(clauses) for comment, clauses in groups]
    return f'| [`{name}`](../{path.relative_to(ROOT)}) | {said} | {"<br>".join(parts)} |'.replace('  ', ' ')


def page(crates):
    """Returns the page of all crates: their names with their titles."""
    lines = [HEAD.rstrip('\n'), '']
    for crate, title in crates:
        folder = ROOT / 'crates' / crate
        rows = [row_of(*call) for path in sorted((folder / 'src').glob('*.rt')) for call in calls_in(path, exported(folder))]
        if rows:
            lines += [f'## {crate}', '', f'{title}.', '', '| Call | Does | Clauses |', '|---|---|---|', *rows, '']
    return '\n'.join(lines)

#!/usr/bin/env python3
"""manual_calls.py FOLDER VERSION makes the manual pages of section 3 from the comments of rlibreg.h: one
page for each call, and rlibreg.h.3 for what applies to all calls.

A comment at the beginning of a line, and the declarations after it up to the next such comment, are a
group. A comment that begins with `----` begins a section, whose text applies to each call after it.
"""

import re
import sys
import textwrap
from pathlib import Path

HEADER = Path(__file__).resolve().parent.parent / 'rlibreg.h'
GROUP = re.compile(r'^/\*(.*?)\*/\n(.*?)(?=^/\*|\Z)', re.M | re.S)
CALL = re.compile(r'^[a-z][\w *]*?\b(rlibreg_\w+)\([^;{]*\);', re.M | re.S)
STRUCTURE = re.compile(r'^typedef struct (\w+) \{(.*?)^\}', re.M | re.S)
FIELD = re.compile(r'([a-z]\w* \**\w+);[ \t]*(?:/\*(.*?)\*/)?', re.S)
CONSTANT = re.compile(r'(RLIBREG_\w+)(?: = |\s+)(\d\w+|\d),?[ \t]*(?:/\*(.*?)\*/)?', re.S)
NAME = re.compile(r'`([^`]+)`|\b(rlibreg_[a-z_]+|RLIBREG_[A-Z_]+)\b(?!\*)')
REFUSALS = re.compile(r'[Rr]efusals:\s(.*?)\.(?:\s|$)', re.S)
CODE = re.compile(r'\b([BCS])(\d+)(?: to [BCS](\d+))?')
CAPTION = re.compile(r'^([A-Z][A-Z ]+)\n\n', re.M)
LIKE = re.compile(r'\b(?:as|and)\s(rlibreg_\w+)')
BUFFER_TOO_SMALL = 1  # of buffers, which calls over a file make themselves
HUNDREDS = {'B': 100, 'C': 200, 'S': 300}
DOCUMENTS = {'docs/COMMANDS.md': 'rlibreg(1)', 'docs/C.md': 'rlibreg(3)'}


def plain(comment):
    """Returns the text of a comment, without the marks at the beginnings of its lines."""
    return '\n'.join(re.sub(r'^\s*\*(?: |$)', '', line) for line in (comment or '').split('\n')).strip()


class Group:
    """A comment, and the declarations that it is about."""

    def __init__(self, comment, code, section):
        self.text, self.title, self.section = plain(comment), None, section
        if self.text.startswith('---- '):
            first, _, self.text = self.text.partition('\n')
            self.title, self.text, self.section = first[5:], self.text.strip(), self
        self.calls = {it[1]: it[0] for it in CALL.finditer(code)}
        self.structures = {name: [(field, plain(text)) for field, text in FIELD.findall(body)]
                           for name, body in STRUCTURE.findall(code)}
        self.constants = {name: (number, plain(text))
                          for name, number, text in CONSTANT.findall(code)}

    def is_told_of_by(self, prototypes, words):
        """Returns whether a page has to contain this group. The group about plans belongs to the pages
        of calls that return a plan. Any other group without calls belongs to the pages that name one of
        its constants."""
        if self.text.startswith('PLANS.'):
            return '*plan,' in prototypes
        return not self.calls and any(re.search(rf'\b{it}\b', words) for it in self.constants)


class Header:
    def __init__(self, text):
        self.groups = []
        for comment, code in GROUP.findall(text):
            self.groups.append(Group(comment, code, self.groups and self.groups[-1].section))
        self.calls = {name: it for it in self.groups for name in it.calls}
        self.statuses = next(it for it in self.groups if 'RLIBREG_DONE' in it.constants)
        self.structures = {name: it for it in self.groups for name in it.structures}
        self.defined = dict(re.findall(r'^#define (RLIBREG_\w+) (\w+)$', text, re.M))

    def structures_of(self, words):
        """Returns the structures that `words` name, and those that the fields of these structures
        name."""
        named = [it for it in self.structures if re.search(rf'\b{it}\b', words)]
        for it in named:
            fields = ' '.join(field for field, _ in self.structures[it].structures[it])
            named += [one for one in self.structures_of(fields) if one not in named]
        return named

    def numbers_of(self, call):
        """Returns the numbers of the statuses that the comments name for a call."""
        group = self.calls[call]
        said = group.text + (group.section.text if group.section is not group else '')
        found = {int(self.statuses.constants[it][0]) for _, it in NAME.findall(said)
                 if it in self.statuses.constants}
        for sentence in REFUSALS.findall(group.text):
            for letter, first, last in CODE.findall(sentence):
                found.update(HUNDREDS[letter] + n for n in range(int(first), int(last or first) + 1))
            if re.match(r'those\sof\sthe\splan', sentence):
                found |= self.numbers_of(call.replace('rlibreg_', 'rlibreg_plan_')) - {BUFFER_TOO_SMALL}
        for like in LIKE.findall(group.text):
            found |= self.numbers_of(like) - {BUFFER_TOO_SMALL}
        return found


# ---- The words of a page


class Page:
    """A page of section 3, in the macros of man(7)."""

    def __init__(self, name, about, version, calls):
        self.name, self.calls = name, calls
        head = f'rlibreg {version}'
        self.lines = [f'.TH "{name}" "3" "" "{head}" "{head}"', '.nh', '.ad l', '.SH NAME']
        self.lines.append(self.escaped(f'{name} ') + '\\- ' + self.escaped(about))

    @staticmethod
    def escaped(text):
        for character, spelt in (('\\', '\\e'), ('^', '\\(ha'), ('~', '\\(ti')):
            text = text.replace(character, spelt)
        return text

    def marked(self, text):
        """Returns text with its names in bold. The name of a call is followed by its section."""
        for document, page in DOCUMENTS.items():
            text = text.replace(document, f'`{page}`')
        text = NAME.sub(lambda it: f'\0{it[1] or it[2]}\1' + '(3)' * (it[2] in self.calls), text)
        text = self.escaped(text).replace('\0', '\\fB').replace('\1', '\\fR')
        return re.sub(r"^(?=[.'])", r'\\&', textwrap.fill(text, 79), flags=re.M)

    def head(self, title):
        self.lines.append(f'.SH {title}')

    def code(self, lines):
        """Appends lines of code, without filling them."""
        written = (re.sub(r"^(?=[.'])", r'\\&', self.escaped(line[4:])) for line in lines)
        self.lines += ['.PP', '.RS 4', '.nf', *written, '.fi', '.RE']

    def paragraphs(self, text):
        """Appends paragraphs, lists and code. The first paragraph after a heading needs no macro of its
        own."""
        for block in text.split('\n\n'):
            if all(line.startswith('    ') for line in block.split('\n')):
                self.code(block.split('\n'))
            elif re.match(r'- |1\. ', block):
                for it in re.split(r'\n(?=- |\d\. )', block):
                    mark, words = it.split(' ', 1)
                    self.lines += [f'.IP {mark if mark != "-" else "*"} 4']
                    self.lines.append(self.marked(re.sub(r'\n +', '\n', words)))
            else:
                is_first = self.lines[-1].startswith('.S')
                self.lines += [self.marked(block)] if is_first else ['.PP', self.marked(block)]

    def listed(self, pairs):
        for name, text in pairs:
            self.lines += ['.TP', name, self.marked(text) or '\\&']

    def write(self, folder):
        Path(folder, f'{self.name}.3').write_text('\n'.join(self.lines) + '\n')


def brief(group):
    """Returns the first sentence."""
    return re.split(r'[.;](?:\s|$)', group.text)[0].replace('\n', ' ').replace('`', '')


def wrapped(prototype):
    """Returns a declaration in lines of at most 72 columns. No parameter is split over two lines."""
    whole = ' '.join(prototype.split()).replace(', ', ',\0')
    lines = textwrap.wrap(re.sub(' ', '\1', whole).replace('\0', ' '), 72, subsequent_indent=' ' * 8)
    return '\n'.join(lines).replace('\1', ' ')


def constants(page, pairs):
    page.listed((f'\\fB{name}\\fR ({number})', text) for name, (number, text) in pairs)


def page_of_call(header, name, version):
    group, statuses = header.calls[name], header.statuses
    page = Page(name, brief(group), version, header.calls)
    prototypes = '\n'.join(wrapped(it) for it in group.calls.values())
    page.head('SYNOPSIS')
    defined = [f'#define {it} {header.defined[it]}' for it in header.defined
               if re.search(rf'\b{it}\b', prototypes)]
    page.lines += ['.nf', '\\fB#include <rlibreg.h>', '', *defined, prototypes + '\\fR', '.fi']
    page.head('DESCRIPTION')
    page.paragraphs(group.text)
    words = group.text + prototypes
    for it in header.structures_of(prototypes):
        home = header.structures[it]
        page.lines.append(f'.SS struct {it}')
        if home is not group:
            page.paragraphs(home.text)
        page.listed((f'\\fB{field}\\fR', text) for field, text in home.structures[it])
        words += ' '.join(text for _, text in home.structures[it])
    for it in header.groups:
        if it is not statuses and it is not group and it.is_told_of_by(prototypes, words):
            plan = it.text.startswith('PLANS.')
            page.lines.append('.SS Plans' if plan else f'.SS {", ".join(it.constants)}')
            page.paragraphs(it.text[7:] if plan else it.text)
            constants(page, ((one, about) for one, about in it.constants.items() if about[1]))
    if group.calls[name].startswith('uint32_t') and group is not group.section:
        page.head('RETURN VALUE')
        page.paragraphs(statuses.text)
        page.head('ERRORS')
        numbers = header.numbers_of(name)
        constants(page, (it for it in statuses.constants.items() if int(it[1][0]) in numbers))
    if group.section is not group:
        page.head('NOTES')
        page.paragraphs(group.section.text)
    page.head('SEE ALSO')
    page.lines.append('\\fBrlibreg.h\\fR(3), \\fBrlibreg\\fR(3)')
    return page


def page_of_all(header, version):
    """Returns the page about all calls: how the library is used, and its statuses."""
    first = header.groups[0]
    name, about = brief(first).split(': ', 1)
    page = Page(name, about, version, header.calls)
    use, *captions = CAPTION.split(first.text)
    page.head('DESCRIPTION')
    page.paragraphs(use.strip().split('\n\n', 1)[1])
    for title, text in zip(captions[::2], captions[1::2]):
        page.head(title)
        page.paragraphs(text.strip())
    for it in header.groups:
        if it.title and it.title.isalpha() and it.text:
            page.head(it.title.upper())
            page.paragraphs(it.text)
            constants(page, it.constants.items())
    page.head('CALLS')
    page.listed((f'\\fB{it}\\fR(3)', brief(group)) for it, group in header.calls.items())
    page.head('SEE ALSO')
    page.lines.append('\\fBrlibreg\\fR(3)')
    return page


def main():
    folder, version = sys.argv[1:]
    header = Header(HEADER.read_text())
    page_of_all(header, version).write(folder)
    for name in header.calls:
        page_of_call(header, name, version).write(folder)


main()

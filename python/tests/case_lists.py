"""Reads lists of stored cases, in the format of docs/CASES.md."""

import functools
import re
from pathlib import Path
from typing import NamedTuple

DATA = Path(__file__).resolve().parents[2] / 'crates' / 'cases' / 'data'


class Case(NamedTuple):
    where: str  # the list and the line
    call: str  # its first word
    words: list  # the other words; words of the program may be empty
    answer: str
    holds: bool  # whether the call has to return this answer, or a different one


def number(word):
    return int(word, 16 if word.startswith('0x') else 10)


@functools.lru_cache(maxsize=64)
def stored(name):
    return (DATA / name).read_bytes()


def change(data, word):
    """Returns a file's bytes after one change."""
    place, spelt = word.split('=', 1)
    if place == 'cut':
        del data[number(spelt):]
    elif place == 'pad':
        data.extend(bytes(max(number(spelt) - len(data), 0)))
    else:
        new = stored(spelt[1:]) if spelt.startswith('@') else bytes.fromhex(spelt)
        data[number(place):number(place) + len(new)] = new


@functools.lru_cache(maxsize=256)
def file(spelt):
    """Returns the bytes of a FILE: its first word, and its changes."""
    first, *changes = spelt.split()
    if first.startswith('made='):
        data = bytearray(file(stored(first[5:]).decode()))
    elif first.startswith('bytes='):
        data = bytearray.fromhex(first[6:])
    else:
        data = bytearray(stored(first))
    for word in changes:
        change(data, word)
    return bytes(data)


def answer(spelt):
    """Returns the bytes of an ANSWER."""
    if spelt == 'nothing':
        return b''
    return file(spelt[5:]) if spelt.startswith('file ') else spelt.encode() + b'\n'


def cases():
    """Yields every case of every list, except the cuts of a file: one line has many of them."""
    for path in sorted(DATA.glob('*.txt')):
        for count, line in enumerate(path.read_text().splitlines(), 1):
            found = re.fullmatch(r'(\w+) (.*?) (=/?>) (.*)', line)
            if found and '..' not in found[2]:
                call, words, mark, wanted = found.groups()
                yield Case(f'{path.name}:{count}', call, words.split(' '), wanted, mark == '=>')

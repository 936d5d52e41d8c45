"""A second reading of the program: the effects of its words, with a disk or without one."""

import re

from disk import OnDisk, Refused
from make import DATA
from scripts import BASE_WORD, SECTOR
from sectors import FEWEST, MOST

WORDS_BEHIND = {'format': 2, 'install': 2, 'replace': 2, 'remove': 2, 'list': 1, 'bind': 3, 'script': 1, 'upgrade': 1}
READS_FILE = ('install', 'replace', 'bind')


def is_command(words):
    name, *rest = words
    if name == 'format' and len(rest) == 2:
        return re.fullmatch('[0-9]{1,7}', rest[1], re.A) is not None and FEWEST <= int(rest[1]) <= MOST
    return len(rest) == WORDS_BEHIND.get(name) or (name == 'preload' and len(rest) >= 1)


class Program:
    """The effects of the program's words, over the disk `disk` or without a disk: a status, an output, an error, and
    the disk afterwards."""

    def __init__(self, reading=OnDisk):
        self.reading = reading

    def content(self, path, disk):
        if path == 'disk':
            return disk
        return (DATA / path).read_bytes() if path and (DATA / path).is_file() else None

    def ask(self, registry, name, rest, file, given):
        def spelt(words):
            return [word.encode() for word in words]
        if name == 'install':
            return registry.install(file)
        if name == 'replace':
            return registry.replace(file)
        if name == 'remove':
            return registry.remove(*spelt(rest))
        if name == 'preload':
            return registry.preload(spelt(rest))
        if name == 'bind':
            return registry.bind(int(rest[1], 16), file)
        return registry.list() if name == 'list' else registry.script(given)

    def format(self, sectors, disk):
        registry = self.reading(bytes(SECTOR * sectors) if disk is None else disk)
        answer = registry.told(registry.format, sectors)
        return int(answer != 'ok\n'), answer, '', bytes(registry.data)

    def cannot_read(self, path, disk):
        return 3, '', f'rlibreg: cannot read {path}\n', disk

    def first_missing(self, name, rest, path, disk):
        """Returns the first missing file: first the file that is read, then the disk."""
        if name in READS_FILE and self.content(rest[0], disk) is None:
            return rest[0]
        return path if path != 'disk' or (disk is None and name != 'format') else None

    def run(self, words, disk, given=b''):
        if not is_command(words):
            return 2, '', 'rlibreg: bad command line\n', disk
        name, path, *rest = words
        if name == 'bind' and not BASE_WORD.fullmatch(rest[1].encode()):
            return 2, '', 'rlibreg: bad base\n', disk
        missing = self.first_missing(name, rest, path, disk)
        if missing is not None:
            return self.cannot_read(missing, disk)
        if name == 'format':
            return self.format(int(rest[0]), disk)
        file = self.content(rest[0], disk) if name in READS_FILE else None
        registry = self.reading(disk)
        try:
            answer = registry.told(registry.upgrade) if name == 'upgrade' else self.ask(registry.open(), name, rest, file, given)
        except Refused as refused:
            answer = f'refused {refused}\n'
        return int(any(line.startswith('refused ') for line in answer.splitlines())), answer, '', bytes(registry.data)

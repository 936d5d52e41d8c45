"""A second reading of a registry on a disk, simple and slow, for expected answers.

It shares no code with the program. Each rule is a method, so that a class can break one rule (`wrong_disks.py` has
such classes).
"""

from functools import lru_cache

import rules
from scripts import (
    IN_CATALOGUE, MOST_LIBRARIES, MOST_PRELOADS, SECTOR, SLOTS, Model, are_distinct, catalogues_for, sectors_of, soname)
from sectors import (
    FEWEST, MAGIC, MOST, MOST_EXTENTS, Entry, Root, padded, read_catalogue, read_entry, read_root, spelt_catalogue, spelt_entry,
    spelt_root)

LAST_GENERATION = (1 << 64) - 1
library_refusal = lru_cache(maxsize=None)(rules.library_refusal)


class Refused(Exception):
    """A refusal, with its number and its name."""


class OnDisk(Model):
    """A registry on a disk of bytes: its current root, the sectors of its entries, and the entries; and its binders,
    each with these entries and with the sectors of the entries that it may read."""

    def __init__(self, data):
        self.data, self.slots = bytearray(data), [None] * SLOTS

    def count(self):
        return len(self.data) // SECTOR

    def sector(self, k):
        return bytes(self.data[SECTOR * k:SECTOR * (k + 1)])

    def write(self, k, content):
        self.data[SECTOR * k:SECTOR * (k + 1)] = content

    # Opening

    def slot(self, k):
        sector = self.sector(k)
        if sector[:8] not in MAGIC.values():
            return 'empty'
        return read_root(sector) or 'bad'

    def is_pair(self, even, odd):
        return even.generation % 2 == 0 and odd.generation % 2 == 1 and abs(even.generation - odd.generation) == 1

    def goes_back(self, newer, older):
        """Returns whether a root of version 1 comes after a root of version 2. No commit writes such a root."""
        return newer.version < older.version

    def choose(self):
        even, odd = self.slot(0), self.slot(1)
        if even == 'empty' and odd == 'empty':
            raise Refused('S3 NotFormatted')
        if isinstance(even, Root) and odd == 'empty' and even.generation == 0:
            return even
        if isinstance(even, Root) and isinstance(odd, Root) and self.is_pair(even, odd):
            newer, older = sorted((even, odd), key=lambda root: -root.generation)
            if not self.goes_back(newer, older):
                return newer
        raise Refused('S5 Damaged')

    def catalogue(self, k, wanted):
        """Returns the entry sectors that a catalogue lists. Their number has to be `wanted`."""
        entries = read_catalogue(self.sector(k)) if k < self.count() else None
        if entries is None or len(entries) != wanted:
            raise Refused('S5 Damaged')
        return entries

    def listed_entries(self, root):
        """Returns the sectors of the entries of all libraries."""
        if root.version == 1:
            return root.listed
        parts = [self.catalogue(k, min(IN_CATALOGUE, root.count - IN_CATALOGUE * j)) for j, k in enumerate(root.listed)]
        return [k for part in parts for k in part]

    def catalogues(self):
        return self.root.listed if self.root.version == 2 else []

    def used(self, entries):
        """Returns the sectors of catalogues, entries and files, each as often as it is used."""
        return self.catalogues() + self.places + [k for e in entries for start, n in e.extents for k in range(start, start + n)]

    def unspent(self, libraries):
        """Returns the number of free sectors of a registry of `libraries` libraries with these entries: all sectors
        that belong to no root, entry or file, minus two for each catalogue."""
        entries = self.entries + list(self.only_held().values())
        return self.count() - 2 - sum(sectors_of(e.length) + 1 for e in entries) - 2 * catalogues_for(libraries)

    def is_short(self):
        """Returns whether there is no room to write the catalogues again."""
        return self.root.version == 2 and self.unspent(len(self.entries)) < 0

    def is_sound(self, entries):
        used = self.used(entries)
        return (all(2 <= k < self.count() for k in used) and self.root.sectors == self.count() and are_distinct(used)
                and are_distinct([e.name for e in entries]) and not self.is_short())

    def file(self, entry):
        content = b''.join(self.sector(k) for start, n in entry.extents for k in range(start, start + n))
        return content[:entry.length]

    def is_library(self, entry):
        file = self.file(entry)
        return library_refusal(file) is None and soname(file) == entry.name

    def geometry(self):
        if len(self.data) % SECTOR or not FEWEST <= self.count() <= MOST:
            raise Refused('S6 BadGeometry')

    def look(self, root):
        """Reads the entries that a root of either version lists."""
        self.root, self.places = root, self.listed_entries(root)
        if any(k >= self.count() for k in self.places):
            raise Refused('S5 Damaged')
        self.entries = [read_entry(self.sector(k)) for k in self.places]
        if None in self.entries or not self.is_sound(self.entries) or not all(map(self.is_library, self.entries)):
            raise Refused('S5 Damaged')

    def open(self):
        self.geometry()
        root = self.choose()
        if root.version == 1:
            raise Refused('S12 OldFormat')
        self.look(root)
        return self

    def upgrade(self):
        self.geometry()
        root = self.choose()
        if root.version == 2:
            return self.open()
        self.look(root)
        if self.has_ended():
            raise Refused('S10 GenerationEnd')
        if self.has_no_room_for_catalogues():
            raise Refused('S7 Full')
        self.commit(root.preloads, self.places, self.put_catalogues(self.places, []))

    def has_no_room_for_catalogues(self):
        return self.unspent(len(self.entries)) < 0

    def format(self, sectors):
        if len(self.data) != SECTOR * sectors:
            raise Refused('S6 BadGeometry')
        if self.slot(0) != 'empty' or self.slot(1) != 'empty':
            raise Refused('S4 AlreadyFormatted')
        self.write(0, spelt_root(Root(2, 0, sectors, 0, [], [])))

    # The state

    @property
    def libraries(self):
        return [(e.name, self.file(e)) for e in self.entries]

    def names(self):
        return [e.name for e in self.entries]

    @property
    def preloads(self):
        return [self.entries[p].name for p in self.root.preloads]

    # Binders

    def begin(self, base, program):
        told = super().begin(base, program)
        if told.startswith('slot '):
            self.slots[int(told[5:])].versions = list(zip(self.places, self.entries))
        return told

    def only_held(self):
        """Returns the entries that only binders have, not the registry, by their sectors."""
        held = {place: entry for flight in self.slots if flight for place, entry in flight.versions}
        return {place: entry for place, entry in held.items() if place not in self.places}

    # Sectors that a change takes

    def free(self):
        held = self.only_held()
        used = set(self.used(self.entries)) | set(held) | {
            k for e in held.values() for start, n in e.extents for k in range(start, start + n)}
        return [k for k in range(2, self.count()) if k not in used]

    def unused_runs(self):
        runs = []
        for k in self.free():
            if runs and sum(runs[-1]) == k:
                runs[-1] = (runs[-1][0], runs[-1][1] + 1)
            else:
                runs.append((k, 1))
        return runs

    def in_order(self, runs):
        return sorted(runs, key=lambda run: (-run[1], run[0]))

    def part(self, start, count, need):
        return start, min(count, need)

    def take(self, need):
        extents = []
        for start, n in self.in_order(self.unused_runs())[:MOST_EXTENTS]:
            if need > 0:
                extents.append(self.part(start, n, need))
                need -= extents[-1][1]
        if need > 0:
            raise Refused('S8 Fragmented')
        return extents

    def take_one(self, taken):
        rest = [k for k in self.free() if k not in taken]
        if not rest:
            raise Refused('S7 Full')
        return rest[0]

    def places_of(self, need):
        """Returns the extents of a file, and the sector of its entry."""
        extents = self.take(need)
        return extents, self.take_one([k for start, n in extents for k in range(start, start + n)])

    # Changes

    def last_sector(self, old, content):
        return padded(content, SECTOR)

    def part_of_list(self, places):
        """Returns the entry sectors of each catalogue."""
        return [places[j:j + IN_CATALOGUE] for j in range(0, len(places), IN_CATALOGUE)]

    def put_catalogues(self, places, taken):
        """Writes the catalogues of a list, none of them over an existing catalogue. Returns their sectors."""
        sectors = []
        for part in self.part_of_list(places):
            sectors.append(self.take_one(taken + sectors))
            self.write(sectors[-1], spelt_catalogue(part))
        return sectors

    def commit(self, preloads, places, catalogues):
        generation = self.root.generation + 1
        self.write(generation % 2, spelt_root(Root(2, generation, self.count(), len(places), preloads, catalogues)))
        self.look_again(self.choose())

    def look_again(self, root):
        self.root, self.places = root, self.listed_entries(root)
        self.entries = [read_entry(self.sector(k)) for k in self.places]

    def has_ended(self):
        return self.root.generation == LAST_GENERATION

    def is_too_long(self, need, libraries):
        """Returns whether there is no room for a file of `need` sectors in a list that then has `libraries`
        libraries."""
        return need + 1 > self.unspent(libraries)

    def put(self, name, file, libraries):
        """Writes a file and its entry. Returns the entry's sector and all sectors that were taken."""
        need = sectors_of(len(file))
        if self.has_ended():
            raise Refused('S10 GenerationEnd')
        if self.is_too_long(need, libraries):
            raise Refused('S7 Full')
        extents, at = self.places_of(need)
        sectors = [k for start, n in extents for k in range(start, start + n)]
        for j, k in enumerate(sectors):
            self.write(k, self.last_sector(self.sector(k), file[SECTOR * j:SECTOR * (j + 1)]))
        self.write(at, spelt_entry(Entry(name, len(file), extents)))
        return at, sectors + [at]

    def as_library(self, file):
        refusal = library_refusal(file)
        if refusal:
            raise Refused('C1 ' + refusal)
        return soname(file)

    def new_list(self, place, at):
        """Returns the entry sectors with another sector at a place, or at the end."""
        return self.places[:place] + [at] + self.places[place + 1:]

    def put_listed(self, name, file, place, libraries):
        """Makes a commit of a file whose entry has this place in the list."""
        at, taken = self.put(name, file, libraries)
        places = self.new_list(place, at)
        self.commit(self.root.preloads, places, self.put_catalogues(places, taken))

    def install_file(self, file):
        name = self.as_library(file)
        if name in self.names():
            raise Refused('C2 AlreadyInstalled')
        if len(self.entries) == MOST_LIBRARIES:
            raise Refused('S9 TooMany')
        self.put_listed(name, file, len(self.entries), len(self.entries) + 1)

    def replace_file(self, file):
        name = self.as_library(file)
        if name not in self.names():
            raise Refused('C3 NotInstalled')
        self.put_listed(name, file, self.names().index(name), len(self.entries))

    def moved(self, preload, place):
        return preload - 1 if preload > place else preload

    def remove_name(self, name):
        if name not in self.names():
            raise Refused('C3 NotInstalled')
        if name in self.preloads:
            raise Refused('C4 InPreloads')
        if self.has_ended():
            raise Refused('S10 GenerationEnd')
        place = self.names().index(name)
        places = self.places[:place] + self.places[place + 1:]
        self.commit([self.moved(p, place) for p in self.root.preloads], places, self.put_catalogues(places, []))

    def preload_names(self, names):
        if len(names) > MOST_PRELOADS:
            raise Refused('C6 TooManyPreloads')
        if not are_distinct(names):
            raise Refused('C5 RepeatedPreload')
        if any(name not in self.names() for name in names):
            raise Refused('C3 NotInstalled')
        if self.has_ended():
            raise Refused('S10 GenerationEnd')
        self.commit([self.names().index(name) for name in names], self.places, self.root.listed)

    # Answers

    def told(self, change, *words):
        try:
            change(*words)
        except Refused as refused:
            return f'refused {refused}\n'
        return 'ok\n'

    def install(self, file):
        return self.told(self.install_file, file)

    def replace(self, file):
        return self.told(self.replace_file, file)

    def remove(self, name):
        return self.told(self.remove_name, name)

    def preload(self, names):
        return self.told(self.preload_names, names)

    def script(self, text):
        *whole, cut = text.split(b'\n')
        return ''.join([self.answer(line) for line in whole] + (['refused L2 CutLine\n'] if cut else []))

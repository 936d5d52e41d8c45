"""Readings of a disk. Each breaks one rule. `tell` returns those that no case distinguishes from `disk.py`."""

from disk import LAST_GENERATION, OnDisk, Refused, library_refusal
from program import Program, is_command
from scripts import IN_CATALOGUE, MOST_LIBRARIES, SECTOR, catalogues_for, sectors_of
from sectors import MOST_EXTENTS, Root, read_catalogue, spelt_catalogue, spelt_root


class Stays(OnDisk):
    """Makes a commit with the root that `following` makes of the right root."""

    def following(self, root):
        return root

    def place(self, root):
        return root.generation % 2

    def commit(self, preloads, places, catalogues):
        root = self.following(Root(2, self.root.generation + 1, self.count(), len(places), preloads, catalogues))
        self.write(self.place(root), spelt_root(root))
        self.look_again(root)


class RootInTheOtherSector(Stays):
    def place(self, root):
        return (root.generation + 1) % 2


class GenerationNotRaised(Stays):
    def following(self, root):
        return root._replace(generation=root.generation - 1)


class GenerationRaisedByTwo(Stays):
    def following(self, root):
        return root._replace(generation=root.generation + 1)


class GenerationOf32Bits(Stays):
    def following(self, root):
        return root._replace(generation=root.generation % (1 << 32))


class OlderRootWrittenOver(Stays):
    def commit(self, preloads, places, catalogues):
        super().commit(preloads, places, catalogues)
        self.write((self.root.generation + 1) % 2, bytes(SECTOR))


class NewEntryInFront(OnDisk):
    def new_list(self, place, at):
        return [at] + self.places if place == len(self.places) else super().new_list(place, at)


class HighestSectors(OnDisk):
    def part(self, start, count, need):
        return start + count - min(count, need), min(count, need)


class LowestRunFirst(OnDisk):
    def in_order(self, runs):
        return runs


class ShortestRunFirst(OnDisk):
    def in_order(self, runs):
        return sorted(runs, key=lambda run: (run[1], run[0]))


class HigherOfTwoRuns(OnDisk):
    def in_order(self, runs):
        return sorted(runs, key=lambda run: (-run[1], -run[0]))


class RunsOfOneSector(OnDisk):
    def part(self, start, count, need):
        return start, 1


class EntryFirst(OnDisk):
    def places_of(self, need):
        at = self.free()[0]
        free = self.free
        self.free = lambda: [k for k in free() if k != at]
        extents = self.take(need)
        self.free = free
        return extents, at


class EntryInTheHighestSector(OnDisk):
    def take_one(self, taken):
        return next(k for k in reversed(self.free()) if k not in taken)


class EntryBehindTheData(OnDisk):
    def take_one(self, taken):
        after = taken[-1] + 1 if taken else 0
        return after if after in self.free() and after not in taken else super().take_one(taken)


class OldSectorsAtOnce(OnDisk):
    """Gives the sectors of a replaced file to the new file in the same commit."""

    def replace_file(self, file):
        name = self.as_library(file)
        used = self.used
        self.used = lambda entries: [k for k in used([e for e in entries if e.name != name])
                                     if name not in self.names() or k != self.places[self.names().index(name)]]
        super().replace_file(file)


class OldCataloguesAtOnce(OnDisk):
    """Gives the sectors of the old catalogues to new data in the same commit."""

    def free(self):
        return sorted(super().free() + self.catalogues())


class CataloguesWrittenOver(OnDisk):
    """Writes new catalogues over the old ones, up to the number of the old ones."""

    def put_catalogues(self, places, taken):
        sectors = []
        for part in self.part_of_list(places):
            old = self.catalogues()[len(sectors):]
            sectors.append(old[0] if old else self.take_one(taken + sectors))
            self.write(sectors[-1], spelt_catalogue(part))
        return sectors


class CataloguesStay(OnDisk):
    """Writes only catalogues that differ."""

    def put_catalogues(self, places, taken):
        sectors = []
        for part in self.part_of_list(places):
            old = self.catalogues()[len(sectors):]
            if old and read_catalogue(self.sector(old[0])) == part:
                sectors.append(old[0])
            else:
                sectors.append(self.take_one(taken + sectors))
                self.write(sectors[-1], spelt_catalogue(part))
        return sectors


class CataloguesBeforeTheEntry(OnDisk):
    def places_of(self, need):
        extents = self.take(need)
        sectors = [k for start, n in extents for k in range(start, start + n)]
        for _ in range(catalogues_for(len(self.places))):
            sectors.append(self.take_one(sectors))
        return extents, self.take_one(sectors)


class CataloguesForPreloads(OnDisk):
    """Writes the catalogues again for a change of preloads."""

    def preload_names(self, names):
        commit = self.commit
        self.commit = lambda preloads, places, _: commit(preloads, places, self.put_catalogues(places, []))
        super().preload_names(names)


class CatalogueOfNone(OnDisk):
    """Gives an empty list a catalogue."""

    def part_of_list(self, places):
        return super().part_of_list(places) or [[]]


class LastCatalogueIsFull(OnDisk):
    """Takes the count of the last catalogue to be 64 in any case."""

    def catalogue(self, k, wanted):
        return super().catalogue(k, IN_CATALOGUE)[:wanted]

    def part_of_list(self, places):
        return [part + [0] * (IN_CATALOGUE - len(part)) for part in super().part_of_list(places)]


class OrderLostAtThe65th(OnDisk):
    def new_list(self, place, at):
        places = super().new_list(place, at)
        return places[-1:] + places[:-1] if len(places) == IN_CATALOGUE + 1 else places


class CountsOfCataloguesNotTested(OnDisk):
    def catalogue(self, k, wanted):
        entries = read_catalogue(self.sector(k)) if k < self.count() else None
        if entries is None:
            raise Refused('S5 Damaged')
        return entries[:wanted]


class ShortNotTested(OnDisk):
    def is_short(self):
        return False


class ShortByOne(OnDisk):
    """Requires room for all catalogues and one more."""

    def is_short(self):
        return self.root.version == 2 and self.entries and self.unspent(len(self.entries)) <= 0


class CataloguesCountOnce(OnDisk):
    def unspent(self, libraries):
        return super().unspent(libraries) + catalogues_for(libraries)


class CataloguesOfTheListBefore(OnDisk):
    """Counts the catalogues of the list before an installation."""

    def is_too_long(self, need, libraries):
        return super().is_too_long(need, len(self.entries))


class CataloguesForgotten(OnDisk):
    def is_too_long(self, need, libraries):
        return need + 1 > self.unspent(libraries) + 2 * catalogues_for(libraries)


class CataloguesForgottenByReplace(CataloguesForgotten):
    def is_too_long(self, need, libraries):
        return super().is_too_long(need, libraries) if libraries == len(self.entries) else OnDisk.is_too_long(self, need, libraries)


class CataloguesForgottenByInstall(CataloguesForgotten):
    def is_too_long(self, need, libraries):
        return super().is_too_long(need, libraries) if libraries > len(self.entries) else OnDisk.is_too_long(self, need, libraries)


class ReplaceCountsANewLibrary(OnDisk):
    def is_too_long(self, need, libraries):
        return super().is_too_long(need, len(self.entries) + 1)


class RemoveIsFull(OnDisk):
    def remove_name(self, name):
        if name in self.names() and name not in self.preloads and self.unspent(len(self.entries)) == 0 and len(self.entries) > 1:
            raise Refused('S7 Full')
        super().remove_name(name)


class CataloguesMayBeOthers(OnDisk):
    """Permits the sector of a catalogue to be an entry's or a file's too."""

    def used(self, entries):
        return [k for k in super().used(entries) if k not in self.catalogues()] + self.catalogues()


class OldFormatNeverAnswered(OnDisk):
    """Opens a disk of version 1 by the rules of version 1."""

    def open(self):
        self.geometry()
        self.look(self.choose())
        return self


class OldFormatAfterTheEntries(OnDisk):
    def open(self):
        self.geometry()
        root = self.choose()
        self.look(root)
        return super().open()


class OldFormatIsDamaged(OnDisk):
    def open(self):
        try:
            return super().open()
        except Refused as refused:
            raise Refused('S5 Damaged' if str(refused) == 'S12 OldFormat' else str(refused))


class OldFormatWhereARootIsOld(OnDisk):
    """Counts the older of two roots too."""

    def open(self):
        self.geometry()
        self.choose()
        if any(isinstance(slot, Root) and slot.version == 1 for slot in (self.slot(0), self.slot(1))):
            raise Refused('S12 OldFormat')
        return super().open()


class OldBehindNew(OnDisk):
    """Takes a root of version 1 as current after a root of version 2."""

    def goes_back(self, newer, older):
        return False


class NewBesideOldIsDamaged(OnDisk):
    def goes_back(self, newer, older):
        return newer.version != older.version


class NoOldMagic(OnDisk):
    """Takes a sector with the magic of version 1 for an empty one."""

    def slot(self, k):
        return 'empty' if self.sector(k)[:8] == b'RLIBREG1' else super().slot(k)


class FormatsOldDisks(OnDisk):
    def format(self, sectors):
        slot = self.slot
        self.slot = lambda k: 'empty' if self.sector(k)[:8] == b'RLIBREG1' else slot(k)
        super().format(sectors)


class UpgradeKeepsTheGeneration(Stays):
    def following(self, root):
        return root._replace(generation=root.generation - 1) if self.root.version == 1 else root


class UpgradeRaisesItByTwo(Stays):
    def following(self, root):
        return root._replace(generation=root.generation + 1) if self.root.version == 1 else root


class UpgradeDropsPreloads(Stays):
    def following(self, root):
        return root._replace(preloads=[]) if self.root.version == 1 else root


class UpgradeWritesAgain(OnDisk):
    """Makes a commit on a disk of version 2 too."""

    def upgrade(self):
        if super().upgrade():
            self.commit(self.root.preloads, self.places, self.root.listed)


class UpgradeWipesTheOldRoot(OnDisk):
    def upgrade(self):
        if not super().upgrade():
            self.write((self.root.generation + 1) % 2, bytes(SECTOR))


class UpgradeTestsNoFile(OnDisk):
    def upgrade(self):
        self.is_library = lambda entry: True
        return super().upgrade()


class UpgradeIsFullBeforeTheGeneration(OnDisk):
    def has_ended(self):
        if self.root.version == 1 and self.has_no_room_for_catalogues():
            raise Refused('S7 Full')
        return super().has_ended()


class UpgradeNeedsOneSectorMore(OnDisk):
    def has_no_room_for_catalogues(self):
        return self.unspent(len(self.entries)) <= 0 and bool(self.entries)


class UpgradeNeedsItsCatalogues(OnDisk):
    """Accepts room for the catalogues once."""

    def has_no_room_for_catalogues(self):
        return self.unspent(len(self.entries)) + catalogues_for(len(self.entries)) < 0


class UpgradeNeedsNoRoom(OnDisk):
    def has_no_room_for_catalogues(self):
        return self.unspent(len(self.entries)) + 2 * catalogues_for(len(self.entries)) < 0


class UpgradeBeforeTheEntries(OnDisk):
    """Reports S7 before it tests the entries' contents."""

    def is_sound(self, entries):
        if self.root.version == 1 and None not in entries and self.has_no_room_for_catalogues():
            raise Refused('S7 Full')
        return super().is_sound(entries)


class OldEntryWrittenOver(Stays):
    """Doesn't change the list: writes the new entry over the old one."""

    def put_listed(self, name, file, place, libraries):
        at, taken = self.put(name, file, libraries)
        if place < len(self.places):
            self.write(self.places[place], self.sector(at))
            at = self.places[place]
        places = self.new_list(place, at)
        self.commit(self.root.preloads, places, self.put_catalogues(places, taken))


class ReplacedComesLast(OnDisk):
    def new_list(self, place, at):
        return self.places[:place] + self.places[place + 1:] + [at]


class LastSectorNotPadded(OnDisk):
    def last_sector(self, old, content):
        return content + old[len(content):]


class RemovedSectorsZeroed(OnDisk):
    def remove_name(self, name):
        old = [k for e in self.entries if e.name == name for start, n in e.extents for k in range(start, start + n)]
        super().remove_name(name)
        for k in old:
            self.write(k, bytes(SECTOR))


class LastMovesIntoTheHole(OnDisk):
    def remove_name(self, name):
        place = self.names().index(name) if name in self.names() else 0
        put = self.put_catalogues
        def filled(places, taken):
            return put(places[:place] + places[-1:] + places[place:-1] if place < len(places) else places, taken)
        self.put_catalogues = filled
        super().remove_name(name)


class PreloadsKeepTheirNumbers(OnDisk):
    def moved(self, preload, place):
        return preload if preload < len(self.entries) - 1 else preload - 1


class AnyTwoGenerations(OnDisk):
    def is_pair(self, even, odd):
        return True


class AnyParity(OnDisk):
    def is_pair(self, even, odd):
        return abs(even.generation - odd.generation) == 1


class TheGoodRootAlone(OnDisk):
    """If one root is bad or missing, takes the other one as current."""

    def choose(self):
        roots = [root for root in (self.slot(0), self.slot(1)) if isinstance(root, Root)]
        if not roots:
            return super().choose()
        return max(roots, key=lambda root: root.generation)


class EmptyBesideGenerationOne(OnDisk):
    def choose(self):
        odd = self.slot(1)
        if self.slot(0) == 'empty' and isinstance(odd, Root) and odd.generation == 1:
            return odd
        return super().choose()


class SizeOfTheRootNotTested(OnDisk):
    def is_sound(self, entries):
        self.root = self.root._replace(sectors=self.count())
        return super().is_sound(entries)


class SectorsUsedTwice(OnDisk):
    def used(self, entries):
        return list(dict.fromkeys(super().used(entries)))


class FilesNotTested(OnDisk):
    def is_library(self, entry):
        return True


class NamesNotCompared(OnDisk):
    def is_library(self, entry):
        return library_refusal(self.file(entry)) is None


class OneSectorLess(OnDisk):
    def is_too_long(self, need, libraries):
        return need + 1 >= self.unspent(libraries)


class FullBeforeTheGeneration(OnDisk):
    def put(self, name, file, libraries):
        if self.is_too_long(sectors_of(len(file)), libraries):
            raise Refused('S7 Full')
        return super().put(name, file, libraries)


class GenerationBeforeTheName(OnDisk):
    def as_library(self, file):
        name = super().as_library(file)
        if self.has_ended():
            raise Refused('S10 GenerationEnd')
        return name


class GenerationNeverEnds(OnDisk):
    def has_ended(self):
        return False

    def commit(self, preloads, places, catalogues):
        if self.root.generation == LAST_GENERATION:
            self.root = self.root._replace(generation=-1)
        super().commit(preloads, places, catalogues)


class GenerationEndsEarly(OnDisk):
    def has_ended(self):
        return self.root.generation >= LAST_GENERATION - 2


class TooManyAfterFull(OnDisk):
    def install_file(self, file):
        name = self.as_library(file)
        if name not in self.names() and len(self.entries) == MOST_LIBRARIES and self.is_too_long(
                sectors_of(len(file)), MOST_LIBRARIES + 1):
            raise Refused('S7 Full')
        super().install_file(file)


class TooManyIsOneMore(OnDisk):
    def install_file(self, file):
        name = self.as_library(file)
        if name not in self.names() and len(self.entries) == MOST_LIBRARIES:
            raise Refused('S7 Full')
        super().install_file(file)


class TooManyForReplace(OnDisk):
    def replace_file(self, file):
        if len(self.entries) == MOST_LIBRARIES:
            raise Refused('S9 TooMany')
        super().replace_file(file)


class OneRunLess(OnDisk):
    def take(self, need):
        runs = self.unused_runs
        self.unused_runs = lambda: self.in_order(runs())[:MOST_EXTENTS - 1]
        try:
            return super().take(need)
        finally:
            self.unused_runs = runs


class FullWhereFragmented(OnDisk):
    def take(self, need):
        try:
            return super().take(need)
        except Refused:
            raise Refused('S7 Full')


class FormatWipes(OnDisk):
    def format(self, sectors):
        super().format(sectors)
        for k in range(1, sectors):
            self.write(k, bytes(SECTOR))


class FormatWritesBothRoots(OnDisk):
    def format(self, sectors):
        super().format(sectors)
        self.write(1, spelt_root(Root(2, 1, sectors, 0, [], [])))


class FormatLooksAtSectorZero(OnDisk):
    def format(self, sectors):
        if len(self.data) == SECTOR * sectors and self.slot(0) == 'empty' and self.slot(1) != 'empty':
            self.write(0, spelt_root(Root(2, 0, sectors, 0, [], [])))
        else:
            super().format(sectors)


class FormatsAgain(OnDisk):
    def format(self, sectors):
        if len(self.data) != SECTOR * sectors:
            raise Refused('S6 BadGeometry')
        self.write(0, spelt_root(Root(2, 0, sectors, 0, [], [])))


class FormatWritesVersionOne(OnDisk):
    def format(self, sectors):
        super().format(sectors)
        self.write(0, spelt_root(Root(1, 0, sectors, 0, [], [])))


class FormattedBeforeTheLength(OnDisk):
    def format(self, sectors):
        if self.slot(0) != 'empty' or self.slot(1) != 'empty':
            raise Refused('S4 AlreadyFormatted')
        super().format(sectors)


class FormatOfAnyLength(OnDisk):
    def format(self, sectors):
        super().format(len(self.data) // SECTOR)


class SevenSectors(OnDisk):
    def geometry(self):
        if len(self.data) % SECTOR:
            raise Refused('S6 BadGeometry')


class HalfSectorsIgnored(OnDisk):
    def geometry(self):
        del self.data[len(self.data) // SECTOR * SECTOR:]
        super().geometry()


class NothingDiffersNothingWritten(OnDisk):
    def preload_names(self, names):
        if names != self.preloads or self.has_ended() or not names:
            super().preload_names(names)


class DamagedIsNotFormatted(OnDisk):
    def open(self):
        try:
            return super().open()
        except Refused as refused:
            raise Refused('S3 NotFormatted' if str(refused) == 'S5 Damaged' else str(refused))


class FileAfterTheDisk(Program):
    def first_missing(self, name, rest, path, disk):
        if path == 'disk' and disk is None and name != 'format':
            return path
        return super().first_missing(name, rest, path, disk)


class DiskIsMade(Program):
    def run(self, words, disk, given=b''):
        status, answer, error, left = super().run(words, disk, given)
        return status, answer, error, b'' if left is None else left


class BaseAfterTheFile(Program):
    def run(self, words, disk, given=b''):
        if is_command(words) and words[0] == 'bind' and self.content(words[2], disk) is None:
            return self.cannot_read(words[2], disk)
        return super().run(words, disk, given)


class StopsAtARefusal(OnDisk):
    def script(self, text):
        *whole, cut = text.split(b'\n')
        answers = []
        for line in whole:
            answers.append(self.answer(line))
            if answers[-1].startswith('refused'):
                return ''.join(answers)
        return ''.join(answers) + ('refused L2 CutLine\n' if cut else '')


class RunsTheCutLine(OnDisk):
    def script(self, text):
        return super().script(text + b'\n' if text and not text.endswith(b'\n') else text)


def readings():
    """Returns each class of this module that breaks a rule, as a program."""
    bases = (OnDisk, Program, Stays)
    kinds = [kind for kind in globals().values() if isinstance(kind, type) and kind.__module__ == __name__ and kind not in bases]
    return [(kind.__name__, kind() if issubclass(kind, Program) else Program(kind)) for kind in kinds if issubclass(kind, (OnDisk, Program))]


def ends_otherwise(program, disk, words, given, ending):
    """Returns whether a case ends differently. A failure of the reading itself shows nothing."""
    try:
        return program.run(words.split(' '), disk, given) != ending
    except (ArithmeticError, LookupError, ValueError, TypeError, AttributeError, StopIteration):
        return False


def tells(program, cases):
    """Returns whether some case ends differently."""
    return any(ends_otherwise(program, *case) for case in cases)


def tell(cases):
    """Returns the names of the readings that no case distinguishes from the rules, and the number of readings."""
    all_of_them = readings()
    return [name for name, program in all_of_them if not tells(program, cases)], len(all_of_them)

"""Readings of the rules of symbolic objects, for `symbolic.py`. Each breaks one rule."""

from binder import Binder, Placed
from rules import FLAGS, SYMBOLIC, elf_hash, find


def flags(o):
    return o.elf.value(FLAGS) or 0


def has_tag(o):
    return o.elf.value(SYMBOLIC) is not None


class FlagOfBit8(Binder):
    def is_symbolic(self, o):
        return has_tag(o) or flags(o) & 0x8 != 0


class FlagOfBit8Too(Binder):
    def is_symbolic(self, o):
        return has_tag(o) or flags(o) & 0xa != 0


class FlagOfBit1(Binder):
    def is_symbolic(self, o):
        return has_tag(o) or flags(o) & 0x1 != 0


class FlagOfBit4(Binder):
    def is_symbolic(self, o):
        return has_tag(o) or flags(o) & 0x4 != 0


class AnyFlag(Binder):
    def is_symbolic(self, o):
        return has_tag(o) or flags(o) != 0


class FlagWithoutOthers(Binder):
    def is_symbolic(self, o):
        return has_tag(o) or flags(o) == 2


class FlagFromTwoOn(Binder):
    def is_symbolic(self, o):
        return has_tag(o) or flags(o) >= 2


class FlagOfAnyWord(Binder):
    """Counts the bit in the high 32 bits too."""

    def is_symbolic(self, o):
        return has_tag(o) or (flags(o) | flags(o) >> 32) & 2 != 0


class FlagOfAnyByte(Binder):
    def is_symbolic(self, o):
        return has_tag(o) or any(byte & 2 for byte in flags(o).to_bytes(8, 'little'))


class TagAlone(Binder):
    def is_symbolic(self, o):
        return has_tag(o)


class FlagAlone(Binder):
    def is_symbolic(self, o):
        return flags(o) & 2 != 0


class TagAndFlag(Binder):
    def is_symbolic(self, o):
        return has_tag(o) and flags(o) & 2 != 0


class FlagsReplaceTheTag(Binder):
    """If there is a FLAGS, ignores the tag."""

    def is_symbolic(self, o):
        return flags(o) & 2 != 0 if o.elf.value(FLAGS) is not None else has_tag(o)


class TagByItsValue(Binder):
    def is_symbolic(self, o):
        return bool(o.elf.value(SYMBOLIC)) or flags(o) & 2 != 0


class TagOfTheValueZero(Binder):
    def is_symbolic(self, o):
        return o.elf.value(SYMBOLIC) == 0 or flags(o) & 2 != 0


class OtherFlags(Binder):
    """Reads FLAGS_1 in place of FLAGS."""

    def is_symbolic(self, o):
        return has_tag(o) or (o.elf.value(0x6ffffffb) or 0) & 2 != 0


class OtherFlagsToo(Binder):
    def is_symbolic(self, o):
        return has_tag(o) or flags(o) & 2 != 0 or (o.elf.value(0x6ffffffb) or 0) & 2 != 0


class TagsOf32Bits(Binder):
    def is_symbolic(self, o):
        entries = [(tag & 0xffffffff, value) for tag, value in o.elf.entries()]
        return any(tag == SYMBOLIC or (tag == FLAGS and value & 2) for tag, value in entries)


class BehindTheEnd(Binder):
    """Reads entries after the first NULL."""

    def is_symbolic(self, o):
        at, size = o.elf.dynamics[0]['offset'], o.elf.dynamics[0]['filesz']
        word = lambda k: int.from_bytes(o.data[at + k:at + k + 8], 'little')
        entries = [(word(k), word(k + 8)) for k in range(0, size, 16)]
        return any(tag == SYMBOLIC or (tag == FLAGS and value & 2) for tag, value in entries)


class AbsentFlags(Binder):
    """If there is no FLAGS, takes the value of another entry for it."""

    def other(self, o):
        raise NotImplementedError

    def is_symbolic(self, o):
        value = o.elf.value(FLAGS)
        return has_tag(o) or (self.other(o) if value is None else value) & 2 != 0


class AbsentFlagsOfTheFirst(AbsentFlags):
    def other(self, o):
        return o.elf.entries()[0][1]


class AbsentFlagsOfTheLast(AbsentFlags):
    def other(self, o):
        return o.elf.entries()[-1][1]


class AbsentFlagsOfTheEnd(AbsentFlags):
    """Takes the value of NULL."""

    def other(self, o):
        at = o.elf.dynamics[0]['offset'] + 16 * len(o.elf.entries()) + 8
        return int.from_bytes(o.data[at:at + 8], 'little')


class AbsentFlagsAreSet(AbsentFlags):
    def other(self, o):
        return 2


class AbsentFlagsOfTheFile(AbsentFlags):
    """Takes the value at the file's beginning."""

    def other(self, o):
        return int.from_bytes(o.data[8:16], 'little') | int.from_bytes(o.data[:8], 'little')


class NeverSymbolic(Binder):
    def is_symbolic(self, o):
        return False


class AlwaysSymbolic(Binder):
    def is_symbolic(self, o):
        return True


class TheProgramForAll(Binder):
    """Takes all objects as symbolic if the program is, and otherwise none."""

    def scope(self, order, asker):
        return [asker] + order if self.is_symbolic(order[0]) else order


class TheProgramForAllToo(Binder):
    def scope(self, order, asker):
        return [asker] + order if self.is_symbolic(order[0]) or self.is_symbolic(asker) else order


class LoadOrderFirst(Binder):
    def scope(self, order, asker):
        return order + [asker]


class ItselfAlone(Binder):
    """Looks up a symbolic object's names in no other object."""

    def scope(self, order, asker):
        return [asker] if self.is_symbolic(asker) else order


class ProgramFirst(Binder):
    """Looks in the program before a symbolic object."""

    def scope(self, order, asker):
        return [order[0], asker] + order if self.is_symbolic(asker) else order


class PreloadsFirst(Binder):
    """Looks in objects of level 0 before a symbolic object."""

    def load_order(self, program, libraries, preloads):
        self.first = 1 + len(preloads)
        return super().load_order(program, libraries, preloads)

    def scope(self, order, asker):
        return order[:self.first] + [asker] + order if self.is_symbolic(asker) else order


class FromItselfOn(Binder):
    """For a symbolic object, looks in the objects after it before those that precede it."""

    def scope(self, order, asker):
        at = next(i for i, o in enumerate(order) if o is asker)
        return order[at:] + order[:at] if self.is_symbolic(asker) else order


class ItsNeedsToo(Binder):
    """Looks in a symbolic object's needed libraries before the load order."""

    def scope(self, order, asker):
        if not self.is_symbolic(asker):
            return order
        return [asker] + [o for name in asker.needed() for o in order if o.name == name] + order


class ItsNeedersToo(Binder):
    """For an object that needs a symbolic library, looks in that library first."""

    def scope(self, order, asker):
        needed = [o for name in asker.needed() for o in order if o.name == name and self.is_symbolic(o) and o is not order[0]]
        own = super().scope(order, asker)
        return needed + own if asker is not order[0] else own


class FirstForAll(Binder):
    """Looks in symbolic objects first for all objects."""

    def scope(self, order, asker):
        return [o for o in order if self.is_symbolic(o)] + order


class LastForOthers(Binder):
    """Finds no definitions of a symbolic object for other objects."""

    def scope(self, order, asker):
        return [o for o in super().scope(order, asker) if o is asker or not self.is_symbolic(o)]


class TheFirstAlone(Binder):
    """Looks first only in the first symbolic object in load order."""

    def scope(self, order, asker):
        first = next((o for o in order if self.is_symbolic(o)), None)
        return [asker] + order if asker is first else order


class TheLastAlone(Binder):
    def scope(self, order, asker):
        last = next((o for o in reversed(order) if self.is_symbolic(o)), None)
        return [asker] + order if asker is last else order


class LibrariesAlone(Binder):
    """Takes no preload as symbolic."""

    def load_order(self, program, libraries, preloads):
        self.preloads = preloads
        return super().load_order(program, libraries, preloads)

    def scope(self, order, asker):
        return order if asker.name in self.preloads else super().scope(order, asker)


class TwiceInLoadOrder(Binder):
    """Lists a symbolic object twice in load order."""

    def load_order(self, program, libraries, preloads):
        order = super().load_order(program, libraries, preloads)
        return [p for o in order for p in ([o, Placed(o.name, o.data, 0)] if self.is_symbolic(o) and o is not order[0] else [o])]


class FirstInLoadOrder(Binder):
    """Puts symbolic objects before the others in load order."""

    def load_order(self, program, libraries, preloads):
        program, *order = super().load_order(program, libraries, preloads)
        return [program] + sorted(order, key=lambda o: not self.is_symbolic(o))


def own_symbols(o, name):
    return [(i, o.elf.symbol(i)) for i in range(1, o.elf.symbol_count()) if o.elf.string(o.elf.symbol(i)['name']) == name]


class OwnUndefinedTaken(Binder):
    """Counts a symbolic object's own undefined symbol as its definition."""

    def lookup(self, order, asker, name):
        if self.is_symbolic(asker):
            for i, s in own_symbols(asker, name):
                if s['section'] == 0 and s['binding'] != 0:
                    return asker, i
        return super().lookup(order, asker, name)


class OwnUndefinedOfAValueTaken(Binder):
    def lookup(self, order, asker, name):
        if self.is_symbolic(asker):
            for i, s in own_symbols(asker, name):
                if s['section'] == 0 and s['binding'] != 0 and s['value'] != 0:
                    return asker, i
        return super().lookup(order, asker, name)


class OwnNotExportedTaken(Binder):
    """Counts a symbolic object's own definition for that object, even if it isn't exported."""

    def counts(self, s):
        return s['section'] != 0

    def lookup(self, order, asker, name):
        if self.is_symbolic(asker) and find(asker.data, name) is None:
            for i, s in own_symbols(asker, name):
                if self.counts(s):
                    return asker, i
        return super().lookup(order, asker, name)


class OwnHiddenTaken(OwnNotExportedTaken):
    def counts(self, s):
        return s['section'] != 0 and s['binding'] != 0 and s['visibility'] in (1, 2) and s['type'] in (0, 1, 2)


class OwnLocalTaken(OwnNotExportedTaken):
    def counts(self, s):
        return s['section'] != 0 and s['binding'] == 0


class OwnOfAnyTypeTaken(OwnNotExportedTaken):
    def counts(self, s):
        return s['section'] != 0 and s['type'] not in (0, 1, 2)


class HiddenFoundForOthers(Binder):
    """Finds a symbolic object's hidden definition for another object."""

    def exported(self, o, name):
        found = super().exported(o, name)
        if found is None and self.is_symbolic(o):
            return next((i for i, s in own_symbols(o, name) if s['section'] != 0 and s['binding'] != 0 and s['visibility'] in (1, 2)), None)
        return found


class LocalFoundForOthers(Binder):
    def exported(self, o, name):
        found = super().exported(o, name)
        if found is None and self.is_symbolic(o):
            return next((i for i, s in own_symbols(o, name) if s['section'] != 0 and s['binding'] == 0), None)
        return found


class AskedForWhatItDefines(Binder):
    """Looks first in a symbolic object only for symbols that it defines itself."""

    def value(self, order, o, i):
        self.asks = o.elf.symbol(i)['section'] != 0
        return super().value(order, o, i)

    def scope(self, order, asker):
        return super().scope(order, asker) if self.asks else order


class TakenAsItStands(Binder):
    """Gives each defined symbol of a symbolic object its own address, exported or not."""

    def value(self, order, o, i):
        if i and self.is_symbolic(o) and o.elf.symbol(i)['section'] != 0:
            return self.own(o, i)
        return super().value(order, o, i)


class HiddenLookedUpInItself(Binder):
    """Looks up an undefined hidden symbol of a symbolic object in the object itself."""

    def value(self, order, o, i):
        symbol = o.elf.symbol(i)
        if i and self.is_symbolic(o) and symbol['section'] == 0 and symbol['binding'] != 0 and symbol['visibility'] in (1, 2):
            found = find(o.data, o.elf.string(symbol['name']))
            if found is not None:
                return self.own(o, found)
        return super().value(order, o, i)


class OwnStrongAlone(Binder):
    """Doesn't put the object's own weak definition first."""

    def lookup(self, order, asker, name):
        found = find(asker.data, name)
        if found is not None and asker.elf.symbol(found)['binding'] == 2:
            return next(((o, self.exported(o, name)) for o in order if self.exported(o, name) is not None), None)
        return super().lookup(order, asker, name)


class OwnOfValueZeroSkipped(Binder):
    def lookup(self, order, asker, name):
        found = find(asker.data, name)
        if found is not None and asker.elf.symbol(found)['value'] == 0:
            return next(((o, self.exported(o, name)) for o in order if self.exported(o, name) is not None), None)
        return super().lookup(order, asker, name)


class OwnProtectedNotTaken(Binder):
    """Looks up a protected definition of a symbolic object elsewhere."""

    def is_own(self, symbol):
        return symbol['binding'] == 0 or (symbol['section'] != 0 and symbol['visibility'] in (1, 2))

    def lookup(self, order, asker, name):
        found = find(asker.data, name)
        protected = found is not None and asker.elf.symbol(found)['visibility'] == 3
        if protected and not self.is_symbolic(asker):
            return asker, found
        if protected:
            return super().lookup([o for o in order if o is not asker] + [asker], order[0], name)
        return super().lookup(order, asker, name)


class OwnAbsoluteWithBase(Binder):
    def address_found(self, asker, definer, i):
        value = super().address_found(asker, definer, i)
        absolute = definer.elf.symbol(i)['section'] == 0xfff1
        return (value + asker.base) % (1 << 64) if absolute and definer is asker and self.is_symbolic(asker) else value


class OfTheSameBytes(Binder):
    """Recognizes the object itself by its bytes."""

    def scope(self, order, asker):
        return [next(o for o in order if o.data == asker.data)] + order if self.is_symbolic(asker) else order


class OfTheSameHash(Binder):
    """Takes any symbol of a symbolic object with the same hash for its own definition."""

    def lookup(self, order, asker, name):
        if self.is_symbolic(asker):
            for i in asker.elf.exports():
                if elf_hash(asker.elf.string(asker.elf.symbol(i)['name'])) == elf_hash(name):
                    return asker, i
        return super().lookup(order, asker, name)


class NoSlots(Binder):
    """Looks up the slots of a symbolic object like those of another object."""

    def written(self, order, o, kind, symbol, addend):
        self.kind = kind
        return super().written(order, o, kind, symbol, addend)

    def scope(self, order, asker):
        return order if getattr(self, 'kind', None) == 7 else super().scope(order, asker)


class NoWords(NoSlots):
    def scope(self, order, asker):
        return order if getattr(self, 'kind', None) == 1 else Binder.scope(self, order, asker)


class StillRefused(Binder):
    """Refuses a symbolic program, like a program with REL."""

    def bind(self, program, base, libraries, preloads):
        if self.is_symbolic(Placed(b'/program', program, 0)):
            return 'B1 E18 UnsupportedTag', None
        return super().bind(program, base, libraries, preloads)


WRONG = [reading for reading in list(globals().values())
         if isinstance(reading, type) and issubclass(reading, Binder) and reading not in (Binder, AbsentFlags)]

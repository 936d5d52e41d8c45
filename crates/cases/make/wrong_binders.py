"""Readings of the rules of binding, for `binds.py`. Each breaks one rule."""

from binder import HIGHEST_END, WHOLE, Binder, Placed
from rules import find, own_address, unit


class StrongDefinitionFirst(Binder):
    def lookup(self, order, asker, name):
        found = [(o, find(o.data, name)) for o in order]
        found = [(o, i) for o, i in found if i is not None]
        strong = [(o, i) for o, i in found if o.elf.symbol(i)['binding'] == 1]
        return (strong or found or [None])[0]


class DepthFirst(Binder):
    def load_order(self, program, libraries, preloads):
        installed, order = dict(libraries), self.level_0(program, libraries, preloads)
        taken = {o.name for o in order}

        def visit(o):
            for name in o.needed():
                if name in installed and name not in taken:
                    taken.add(name)
                    order.append(Placed(name, installed[name], 0))
                    visit(order[-1])
        for o in list(order):
            visit(o)
        return order


class TwiceInOneLevel(Binder):
    def next_level(self, level, taken, installed):
        following = [Placed(name, installed[name], 0) for o in level for name in o.needed() if name in installed and name not in taken]
        taken.update(o.name for o in following)
        return following


class PreloadTwice(Binder):
    def load_order(self, program, libraries, preloads):
        installed, level = dict(libraries), self.level_0(program, libraries, preloads)
        order, taken = list(level), set()
        while level:
            level = self.next_level(level, taken, installed)
            order += level
        return order


class OtherReplacesProtected(Binder):
    def is_own(self, symbol):
        return symbol['binding'] == 0


class AddendOf(Binder):
    kind = None

    def written(self, order, o, kind, symbol, addend):
        value = super().written(order, o, kind, symbol, addend)
        return (value + addend) % WHOLE if kind == self.kind else value


class GlobDatWithAddend(AddendOf):
    kind = 6


class JumpSlotWithAddend(AddendOf):
    kind = 7


class NoAddend(Binder):
    def written(self, order, o, kind, symbol, addend):
        return super().written(order, o, kind, symbol, 0 if kind == 1 else addend)


class AbsoluteWithBase(Binder):
    def own(self, o, i):
        return (o.base + o.elf.symbol(i)['value']) % WHOLE


class WeakUndefined(Binder):
    def unresolved(self, symbol):
        return None


class EarlierOverlaps(Binder):
    def patches(self, order):
        return reversed(list(super().patches(order)))


class ZerosBehind(Binder):
    def word(self, address, *arguments):
        answer = super().word(address, *arguments)
        return '0x0' if answer == 'none' else answer


class PreloadsBehindNeeds(Binder):
    def load_order(self, program, libraries, preloads):
        installed = dict(libraries)
        order = [Placed(b'/program', program, 0)]
        taken = set(preloads)
        level = self.next_level(order, taken, installed) + [Placed(n, installed[n], 0) for n in preloads]
        while level:
            order += level
            level = self.next_level(level, taken, installed)
        return order


class PreloadByNeed(Binder):
    def load_order(self, program, libraries, preloads):
        needed = {o.name for o in super().load_order(program, libraries, [])}
        return super().load_order(program, libraries, [n for n in preloads if n not in needed])


class LaterMissing(Binder):
    def missing(self, order, installed):
        found = [(o.name, name) for o in order for name in o.needed() if name not in installed]
        return found[-1] if found else None


class MissingInInstallationOrder(Binder):
    def missing(self, order, installed):
        at = {name: i for i, name in enumerate(installed)}
        return super().missing(sorted(order, key=lambda o: at.get(o.name, -1)), installed)


class AskerFirst(Binder):
    def scope(self, order, asker):
        return [asker] + order


class FromTheAsker(Binder):
    def scope(self, order, asker):
        at = next(i for i, o in enumerate(order) if o is asker)
        return order[at:] + order[:at]


class HiddenFound(Binder):
    def exported(self, o, name):
        for i in range(1, o.elf.symbol_count()):
            s = o.elf.symbol(i)
            if s['binding'] in (1, 2) and s['section'] != 0 and s['type'] in (0, 1, 2) and o.elf.string(s['name']) == name:
                return i
        return None


class LocalFound(Binder):
    def exported(self, o, name):
        for i in range(1, o.elf.symbol_count()):
            s = o.elf.symbol(i)
            if s['section'] != 0 and s['type'] in (0, 1, 2) and s['visibility'] in (0, 3) and o.elf.string(s['name']) == name:
                return i
        return None


class UndefinedFound(Binder):
    def exported(self, o, name):
        for i in range(1, o.elf.symbol_count()):
            s = o.elf.symbol(i)
            if (s['binding'] in (1, 2) and s['type'] in (0, 1, 2) and s['visibility'] in (0, 3) and o.elf.string(s['name']) == name
                    and (s['section'] != 0 or s['value'] != 0)):
                return i
        return None


class HashAlone(Binder):
    def exported(self, o, name):
        from rules import elf_hash
        return next((i for i in o.elf.exports() if elf_hash(o.elf.string(o.elf.symbol(i)['name'])) == elf_hash(name)), None)


class HiddenLookedUp(Binder):
    def is_looked_up(self, symbol):
        return True


class ProtectedNotLookedUp(Binder):
    def is_looked_up(self, symbol):
        return symbol['section'] != 0 or symbol['visibility'] == 0


class BaseOfTheFinder(Binder):
    def address_found(self, asker, definer, i):
        return own_address(definer.elf, i, asker.base)


class LastUndefined(Binder):
    def undefined(self, order):
        found = [(o.name, o.elf.string(o.elf.symbol(symbol)['name'])) for o in order for _, kind, symbol, _ in o.elf.relocations()
                 if kind in (1, 6, 7) and self.value(order, o, symbol) is None]
        return found[-1] if found else None


class JumpSlotsFirst(Binder):
    def relocations(self, o):
        found = list(o.elf.relocations())
        size = o.elf.value(2) if o.elf.value(23) is not None else 0
        count = len(found) - size // 24
        return found[count:] + found[:count]


class RoomBeforeMissing(Binder):
    def tests(self):
        return [self.test_room, self.test_missing, self.test_undefined]


class UndefinedBeforeRoom(Binder):
    def tests(self):
        return [self.test_missing, self.test_undefined, self.test_room]


class UnitOfTheOneBefore(Binder):
    def unit(self, order, i):
        return unit(order[max(i - 1, 0)].elf)


class PagesAlone(Binder):
    def unit(self, order, i):
        return 4096


class PageBetween(Binder):
    def place(self, order, base):
        for i, o in enumerate(order):
            step = self.unit(order, i)
            o.base = base if i == 0 else base // step * step + step
            base = o.base + o.reach()


class RoomOfTheFirst(Binder):
    def has_room(self, order):
        return order[0].base + order[0].reach() <= HIGHEST_END


class RoomAtTheLimit(Binder):
    def has_room(self, order):
        return all(o.base + o.reach() < HIGHEST_END for o in order)


class InstallationOrder(Binder):
    def load_order(self, program, libraries, preloads):
        at = {name: i for i, (name, _) in enumerate(libraries)}
        return sorted(super().load_order(program, libraries, preloads), key=lambda o: at.get(o.name, -1) if o.name != b'/program' else -2)


class IndexZeroAsAnother(Binder):
    def value(self, order, o, i):
        return super().value(order, o, i) if i else self.own(o, 0)


class IndexZeroLookedUp(Binder):
    def value(self, order, o, i):
        if i:
            return super().value(order, o, i)
        found = self.lookup(order, o, o.elf.string(o.elf.symbol(0)['name']))
        return self.address_found(o, *found) if found else 0


class ToldByBytes(Binder):
    """Takes objects of the same bytes for one object."""

    def own(self, o, i):
        first = next(p for p in self.objects if p.data == o.data)
        return own_address(o.elf, i, first.base)

    def place(self, order, base):
        super().place(order, base)
        self.objects = order


class OwnNameIsTheProgram(Binder):
    def missing(self, order, installed):
        elf = order[0].elf
        own = elf.string(elf.value(14)) if elf.value(14) is not None else None
        found = [(o.name, name) for o in order for name in o.needed() if name not in installed and name != own]
        return found[0] if found else None


class ProgramHasAName(Binder):
    def missing(self, order, installed):
        found = [(o.name, name) for o in order for name in o.needed() if name not in installed and name != b'/program']
        return found[0] if found else None


class AllInstalled(Binder):
    def load_order(self, program, libraries, preloads):
        order = super().load_order(program, libraries, preloads)
        names = {o.name for o in order}
        return order + [Placed(n, data, 0) for n, data in libraries if n not in names]


class NamesOfNoneAreUndefined(Binder):
    """Reports an undefined symbol if any relocation has its number, even a relocation whose type names no symbol."""

    def undefined(self, order):
        for o in order:
            for _, kind, symbol, _ in o.elf.relocations():
                if symbol < o.elf.symbol_count() and self.value(order, o, symbol) is None:
                    return o.name, o.elf.string(o.elf.symbol(symbol)['name'])
        return None


WRONG = [reading for reading in list(globals().values())
         if isinstance(reading, type) and issubclass(reading, Binder) and reading not in (Binder, AddendOf)]

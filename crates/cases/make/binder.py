"""A second reading of the rules of binding with libraries, simple and slow, for expected answers.

It shares no code with the program. Each rule is a method, so that a class can break one rule (`binds.py` has such
classes, and checks that some case distinguishes each of them from this class).
"""

from rules import HIGHEST_END, NEEDED, Elf, admitted_refusal, find, own_address, printed_name, unit

WHOLE = 1 << 64


class Placed:
    """An object in load order. It gets a base when it is placed."""

    def __init__(self, name, data, number):
        self.name, self.data, self.elf, self.number, self.base = name, data, Elf(data), number, None

    def needed(self):
        return [self.elf.string(value) for tag, value in self.elf.entries() if tag == NEEDED]

    def reach(self):
        return max(h['vaddr'] + h['memsz'] for h in self.elf.loads)


class Binder:
    """The rules. Libraries are pairs (name, bytes) in the order of installation; preloads are names."""

    def level_0(self, program, libraries, preloads):
        installed = dict(libraries)
        return [Placed(b'/program', program, 0)] + [Placed(n, installed[n], 0) for n in preloads]

    def next_level(self, level, taken, installed):
        following = []
        for o in level:
            for name in o.needed():
                if name in installed and name not in taken:
                    taken.add(name)
                    following.append(Placed(name, installed[name], 0))
        return following

    def load_order(self, program, libraries, preloads):
        installed, level = dict(libraries), self.level_0(program, libraries, preloads)
        order, taken = list(level), {o.name for o in level}
        while level:
            level = self.next_level(level, taken, installed)
            order += level
        return order

    def missing(self, order, installed):
        for o in order:
            for name in o.needed():
                if name not in installed:
                    return o.name, name
        return None

    def unit(self, order, i):
        return unit(order[i].elf)

    def place(self, order, base):
        for i, o in enumerate(order):
            step = self.unit(order, i)
            o.base = base if i == 0 else (base + step - 1) // step * step
            base = o.base + o.reach()

    def has_room(self, order):
        return all(o.base + o.reach() <= HIGHEST_END for o in order)

    def is_symbolic(self, o):
        return o.elf.is_symbolic()

    def scope(self, order, asker):
        return [asker] + order if self.is_symbolic(asker) else order

    def exported(self, o, name):
        return find(o.data, name)

    def lookup(self, order, asker, name):
        for o in self.scope(order, asker):
            i = self.exported(o, name)
            if i is not None:
                return o, i
        return None

    def own(self, o, i):
        return own_address(o.elf, i, o.base)

    def address_found(self, asker, definer, i):
        return self.own(definer, i)

    def is_own(self, symbol):
        return symbol['binding'] == 0 or (symbol['section'] != 0 and symbol['visibility'] != 0)

    def is_looked_up(self, symbol):
        return symbol['section'] != 0 or symbol['visibility'] not in (1, 2)

    def unresolved(self, symbol):
        return 0 if symbol['binding'] == 2 else None

    def value(self, order, o, i):
        """Returns the value of a symbol, or None if the symbol is undefined."""
        if i == 0:
            return 0
        symbol = o.elf.symbol(i)
        if self.is_own(symbol):
            return self.own(o, i)
        if self.is_looked_up(symbol):
            found = self.lookup(order, o, o.elf.string(symbol['name']))
            if found is not None:
                return self.address_found(o, *found)
        return self.unresolved(symbol)

    def written(self, order, o, kind, symbol, addend):
        if kind == 8:
            return (o.base + addend) % WHOLE
        if kind == 1:
            return (self.value(order, o, symbol) + addend) % WHOLE
        return self.value(order, o, symbol) if kind in (6, 7) else None

    def relocations(self, o):
        return list(o.elf.relocations())

    def undefined(self, order):
        for o in order:
            for _, kind, symbol, _ in self.relocations(o):
                if kind in (1, 6, 7) and self.value(order, o, symbol) is None:
                    return o.name, o.elf.string(o.elf.symbol(symbol)['name'])
        return None

    def tests(self):
        return [self.test_missing, self.test_room, self.test_undefined]

    def test_missing(self, order, libraries):
        missing = self.missing(order, dict(libraries))
        return missing and 'B3 Missing ' + ' '.join(map(printed_name, missing))

    def test_room(self, order, libraries):
        return None if self.has_room(order) else 'B4 NoRoom'

    def test_undefined(self, order, libraries):
        undefined = self.undefined(order)
        return undefined and 'B5 Undefined ' + ' '.join(map(printed_name, undefined))

    def bind(self, program, base, libraries, preloads):
        """Returns a refusal, or the objects at their bases in load order."""
        refusal = admitted_refusal(program)
        if refusal:
            return 'B1 ' + refusal, None
        if base % unit(Elf(program)) != 0:
            return 'B2 BadBase', None
        order = self.load_order(program, libraries, preloads)
        self.place(order, base)
        for test in self.tests():
            refusal = test(order, libraries)
            if refusal:
                return refusal, None
        return None, order

    def patches(self, order):
        """Returns the words that relocations write, each with its address, in their order."""
        for o in order:
            for place, kind, symbol, addend in self.relocations(o):
                value = self.written(order, o, kind, symbol, addend)
                if value is not None:
                    yield o.base + place, value

    def memory(self, order):
        held = {}
        for o in order:
            for h in o.elf.loads:
                for k in range(h['memsz']):
                    held[o.base + h['vaddr'] + k] = o.data[h['offset'] + k] if k < h['filesz'] else 0
        for place, value in self.patches(order):
            for k, byte in enumerate(value.to_bytes(8, 'little')):
                held[place + k] = byte
        return held

    def printed(self, order):
        return order

    def text(self, program, base, libraries, preloads):
        refusal, order = self.bind(program, base, libraries, preloads)
        if refusal:
            return f'refused {refusal}\n'
        held, lines = self.memory(order), []
        for o in self.printed(order):
            lines.append(f'object 0x{o.base:016x} {printed_name(o.name)}')
            for h in o.elf.loads:
                if h['memsz'] == 0:
                    continue
                start = o.base + h['vaddr']
                letters = ''.join(c if h['flags'] & bit else '-' for c, bit in (('r', 4), ('w', 2), ('x', 1)))
                lines.append(f"segment 0x{start:016x} {h['memsz']} {letters}")
                content = bytes(held[start + k] for k in range(h['memsz']))
                lines += [content[k:k + 16].hex() for k in range(0, len(content), 16)]
        return '\n'.join(lines + ['end']) + '\n'

    def order(self, program, base, libraries, preloads):
        refusal, order = self.bind(program, base, libraries, preloads)
        if refusal:
            return f'refused {refusal}'
        return 'objects' + ''.join(f' 0x{o.base:016x} {printed_name(o.name)}' for o in self.printed(order))

    def word(self, address, program, base, libraries, preloads):
        refusal, order = self.bind(program, base, libraries, preloads)
        if refusal:
            return f'refused {refusal}'
        held = self.memory(order)
        word = [held.get((address + k) % WHOLE) for k in range(8)]
        return 'none' if None in word else f"0x{int.from_bytes(bytes(word), 'little'):x}"

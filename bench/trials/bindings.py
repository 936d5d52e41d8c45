#!/usr/bin/env python3
"""Compares `rlibreg-tool bindings` with the system's loader.

    python3 bench/trials/bindings.py RLIBREG RLIBREG_TOOL FOLDER [--count 200] [--first FIRST]

The script makes COUNT random programs, from number FIRST on, each with up to 8 libraries made by gcc. Their functions
and data have few names, so most names are defined several times. There are weak definitions and references, protected
definitions, symbolic objects, references to names that no object defines, and up to 3 preloads. The load order, the
bindings of all symbols and the undefined symbols have to be those of ld.so (LD_TRACE_LOADED_OBJECTS, LD_DEBUG=bindings,
LD_WARN). A value has to be that of `readelf`. Then up to 3 libraries are removed. The names that each object needs, and
those that are missing, have to be those that a walk by levels finds in the output of `readelf`. The script prints each
difference, and exits with status 1 if there is one.
"""

import argparse
import os
import random
import re
import struct
import subprocess
import sys
from collections import defaultdict
from pathlib import Path

LOADER = '/lib64/ld-linux-x86-64.so.2'
GCC = 'gcc -fPIC -nostdlib -fno-stack-protector -fno-builtin -O1 -Wl,-z,now'.split()
BASE = '0x10000'
PROGRAM = '/program'
DT_FLAGS, DF_SYMBOLIC = 30, 2
FUNCTIONS = [f'f{n}' for n in range(14)]
DATA = [f'd{n}' for n in range(5)]
START = 'void _start(void) { __asm__ volatile("syscall" : : "a"(60), "D"(0)); __builtin_unreachable(); }\n'


def run(*words, **more):
    return subprocess.run([str(w) for w in words], capture_output=True, text=True, **more)


def done(*words, **more):
    ended = run(*words, **more)
    assert ended.returncode == 0, (words, ended)
    return ended.stdout


def source(rng, is_program):
    """Returns definitions and references in C. A reference is undefined if this file has no definition of the name."""
    defined = set(rng.sample(FUNCTIONS, rng.randint(0, 2 if is_program else 6)))
    data = set(rng.sample(DATA, rng.randint(0, 0 if is_program else 3)))
    said, used = [], []
    for name in sorted(defined):
        mark = rng.choice(['', '', '', '__attribute__((weak)) ', '__attribute__((visibility("protected"))) '])
        said.append(f'{mark}int {name}(void) {{ return {rng.randint(1, 99)}; }}')
    for name in sorted(data):
        said.append(f'{rng.choice(["", "__attribute__((weak)) "])}int {name} = {rng.randint(1, 99)};')
    for name in rng.sample(FUNCTIONS, rng.randint(1, 7)):
        if name not in defined:
            said.append(f'{rng.choice(["", "", "__attribute__((weak)) "])}extern int {name}(void);')
        used.append(f'{name}()' if rng.random() < .6 else f'(long)&{name}')
    for name in rng.sample(DATA, rng.randint(0, 3)):
        if name not in data:
            said.append(f'{rng.choice(["", "__attribute__((weak)) "])}extern int {name};')
        used.append(f'(long)&{name}')
    for at, name in enumerate(rng.sample(FUNCTIONS, rng.randint(0, 2))):
        if not re.search(rf'\b{name}\b', '\n'.join(said)):
            said.append(f'extern int {name}(void);')
        said.append(f'int (*volatile held_{rng.randint(0, 10**9)}_{at})(void) = {name};')
    own = f'x{rng.randint(0, 10**9)}'
    return '\n'.join(said) + f'\nlong {own}(void) {{ return {" + ".join(used)}; }}\n' + (START if is_program else '')


def make_symbolic(path):
    """Sets DF_SYMBOLIC in a linked object. The linker's own -Bsymbolic would leave no name to be looked up."""
    file = bytearray(path.read_bytes())
    start, = struct.unpack_from('<Q', file, 32)
    count, = struct.unpack_from('<H', file, 56)
    for at in range(start, start + 56 * count, 56):
        kind, _, offset, _, _, size = struct.unpack_from('<IIQQQQ', file, at)
        for entry in range(offset, offset + size, 16) if kind == 2 else []:
            if struct.unpack_from('<Q', file, entry)[0] == DT_FLAGS:
                struct.pack_into('<Q', file, entry + 8, struct.unpack_from('<Q', file, entry + 8)[0] | DF_SYMBOLIC)
    path.write_bytes(file)


def make(rng, folder):
    """Makes a program and its libraries. Each needs some of those that were made before it."""
    names, count = [], rng.randint(1, 8)
    for n in range(count + 1):
        is_program = n == count
        name = 'program' if is_program else f'lib{n}.so'
        code = folder / f'{name}.c'
        code.write_text(source(rng, is_program))
        needs = rng.sample(names, rng.randint(1 if is_program and names else 0, min(len(names), 4)))
        words = [*GCC, '-shared', f'-Wl,--hash-style={rng.choice(["sysv", "both"])}', '-Wl,--no-as-needed', '-o', name, code.name, *needs]
        words += ['-Wl,-e,_start'] if is_program else [f'-Wl,-soname,{name}']
        done(*words, cwd=folder)
        if rng.random() < .25:
            make_symbolic(folder / name)
        if not is_program:
            names.append(name)
    return names, rng.sample(names, rng.choice([0, 0, 0, 1, 1, 2, 3]) if len(names) > 2 else 0)


def of_loader(folder, preloads):
    """Returns what ld.so reports: the load order, the bindings of each object's symbols, and the undefined symbols."""
    words = {'LD_TRACE_LOADED_OBJECTS': '1', 'LD_WARN': '1', 'LD_BIND_NOW': '1', 'LD_DEBUG': 'bindings', 'LD_LIBRARY_PATH': '.'}
    words |= {'LD_PRELOAD': ' '.join(f'./{name}' for name in preloads)} if preloads else {}
    ended = run(LOADER, './program', cwd=folder, env=words)
    order = [Path(m).name for m in re.findall(r'^\t(\S+) (?:=> \S+ )?\(0x', ended.stdout, re.M)]
    order = [PROGRAM] + [name for name in order if name.startswith('lib') and name[3:4].isdigit()]
    called = lambda path: PROGRAM if Path(path).name == 'program' else Path(path).name
    bound, undefined = defaultdict(dict), defaultdict(set)
    for file, to, symbol in re.findall(r'binding file (\S+) \[0\] to (\S+) \[0\]: \S+ symbol `(\w+)\'', ended.stderr):
        bound[called(file)][symbol] = called(to)
    for symbol, file in re.findall(r'undefined symbol: (\w+)\s+\((\S+)\)', ended.stderr + ended.stdout):
        undefined[called(file)].add(symbol)
    return order, bound, undefined


def of_tool(text):
    order, bases, bound, undefined, unresolved, needs, missing = [], {}, defaultdict(dict), defaultdict(set), defaultdict(set), defaultdict(list), []
    lines = text.splitlines()
    assert lines[-1] == 'end', lines
    for word, *rest in (line.split(' ') for line in lines[:-1]):
        if word == 'object':
            order.append(rest[1])
            bases[rest[1]] = int(rest[0], 16)
        elif word == 'found':
            order.append(rest[0])
        elif word == 'needs':
            needs[order[-1]].append(rest[0])
        elif word == 'binds':
            bound[order[-1]][rest[0]] = (rest[2], int(rest[1], 16))
        elif word == 'unresolved':
            unresolved[order[-1]].add(rest[0])
        elif word == 'undefined':
            assert rest[1] == order[-1], rest
            undefined[order[-1]].add(rest[0])
        else:
            assert word == 'missing' and rest[1] == order[-1], (word, rest)
            missing.append((rest[1], rest[0]))
    return order, bases, bound, undefined, unresolved, needs, missing


def symbols_of(path):
    """Returns the names of an object's relocations, those of them that are weak references, and the definitions of the
    object."""
    referred = set(re.findall(r'R_X86_64_(?:64|GLOB_DAT|JUMP_SLO?T?)\s+[0-9a-f]+ (\w+)', done('readelf', '-rW', path)))
    weak, values = set(), {}
    for line in done('readelf', '--dyn-syms', '-W', path).splitlines():
        m = re.match(r'\s*\d+: ([0-9a-f]+)\s+\d+ \S+\s+(\S+)\s+\S+\s+(\S+) (\w+)', line)
        if m and m[3] == 'UND':
            weak |= {m[4]} if m[2] == 'WEAK' else set()
        elif m:
            values[m[4]] = int(m[1], 16)
    return referred, weak, values


def needs_of(path):
    return re.findall(r'\(NEEDED\).*\[(.*)\]', done('readelf', '-dW', path))


def differences(folder, names, preloads, told, status):
    """Yields each difference between the tool's output and the loader's."""
    order, bases, bound, undefined, unresolved, needs, missing = of_tool(told)
    loader_order, loader_bound, loader_undefined = of_loader(folder, preloads)
    file_of = {PROGRAM: folder / 'program', **{name: folder / name for name in names}}
    if order != loader_order:
        yield f'the order {order} and not {loader_order}'
        return
    if status != (1 if any(undefined.values()) else 0) or missing:
        yield f'status {status}'
    values = {name: symbols_of(file_of[name])[2] for name in order}
    for name in order:
        referred, weak, _ = symbols_of(file_of[name])
        if needs[name] != needs_of(file_of[name]):
            yield f'{name} needs {needs[name]}'
        told_of = {**{s: to for s, (to, _) in bound[name].items()}, **{s: None for s in undefined[name]}, **{s: 0 for s in unresolved[name]}}
        by_loader = {**loader_bound[name], **{s: None for s in loader_undefined[name]}}
        by_loader |= {s: 0 for s in referred & weak if s not in by_loader}
        if told_of != by_loader:
            yield f'{name}: {sorted(told_of.items() ^ by_loader.items(), key=str)}'
        for symbol, (to, value) in bound[name].items():
            if value != bases[to] + values[to][symbol]:
                yield f'{name}: {symbol} at {value:#x}'


def lacking_differences(folder, installed, preloads, told, status):
    """Yields each difference between the tool's output and a walk by levels, if names are missing."""
    order, found, lacks = [PROGRAM, *preloads], {PROGRAM: 'program', **{name: name for name in installed}}, []
    for name in order:
        for needed in needs_of(folder / found[name]):
            if needed not in found:
                lacks.append((name, needed))
            elif needed not in order:
                order.append(needed)
    told_order, _, _, _, _, needs, missing = of_tool(told)
    if not lacks:
        return
    if told_order != order or missing != lacks or status != 1:
        yield f'{told_order} lack {missing}, and not {order} {lacks} ({status})'
    for name in order:
        if needs[name] != needs_of(folder / found[name]):
            yield f'{name} needs {needs[name]}'


def main():
    words = argparse.ArgumentParser()
    words.add_argument('rlibreg', type=Path)
    words.add_argument('tool', type=Path)
    words.add_argument('folder', type=Path)
    words.add_argument('--count', type=int, default=200)
    words.add_argument('--first', type=int, default=0)
    asked = words.parse_args()
    rlibreg, tool = asked.rlibreg.resolve(), asked.tool.resolve()
    differ, counts = 0, defaultdict(int)
    for n in range(asked.first, asked.first + asked.count):
        rng = random.Random(n)
        folder = asked.folder / str(n)
        folder.mkdir(parents=True)
        names, preloads = make(rng, folder)
        disk = folder / 'disk'
        done(rlibreg, 'format', disk, '4096')
        for name in rng.sample(names, len(names)):
            done(rlibreg, 'install', disk, folder / name)
        done(rlibreg, 'preload', disk, *preloads)
        told = run(tool, 'bindings', disk, folder / 'program', BASE)
        faults = list(differences(folder, names, preloads, told.stdout, told.returncode))
        counts['bound'] += told.stdout.count('\nbinds ')
        counts['unresolved'] += told.stdout.count('\nunresolved ')
        counts['undefined'] += told.stdout.count('\nundefined ')
        removed = rng.sample(sorted(set(names) - set(preloads)), min(rng.randint(1, 3), len(names) - len(preloads)))
        for name in removed:
            done(rlibreg, 'remove', disk, name)
        told = run(tool, 'bindings', disk, folder / 'program', BASE)
        counts['missing'] += told.stdout.count('\nmissing ')
        faults += lacking_differences(folder, set(names) - set(removed), preloads, told.stdout, told.returncode)
        for fault in faults:
            print(f'{n}: {fault}')
        differ += bool(faults)
    told = ', '.join(f'{number} {word}' for word, number in counts.items())
    print(f'{asked.count} programs, {differ} differ: {told}')
    sys.exit(1 if differ else 0)


if __name__ == '__main__':
    main()

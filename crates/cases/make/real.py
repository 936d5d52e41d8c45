#!/usr/bin/env python3
"""Makes objects with the machine's compilers and linkers, and writes the list `real.txt` of them.

    python3 crates/cases/make/real.py

It needs gcc, g++, GNU ld, gold, lld, clang, objcopy and readelf. The script determines the names and symbols of an
object only from the output of `readelf --dyn-syms -dW`. The table below has the refusals, which were determined by
hand. The script compares both with `rules.py`.
"""

import re
import subprocess
import tempfile
from pathlib import Path

import rules
from make import DATA, Case, write_list

SOURCES = Path(__file__).resolve().parent / 'real'
COMPILED = '-O1 -fPIC -fno-asynchronous-unwind-tables -fno-stack-protector -fcf-protection=none'
SMALL = '-nostdlib -shared -s -Wl,--build-id=none,-z,noseparate-code,-z,norelro'
SYSV = SMALL + ',--hash-style=sysv'
ONE = 'int f(void) { return 1; }\n'
THREAD = 'extern __thread int t __attribute__((tls_model("initial-exec")));\nint f(void) { return t; }\n'
CHOICE = ('static int one(void) { return 1; }\nstatic int (*choose(void))(void) { return one; }\n'
          'int f(void) __attribute__((ifunc("choose")));\n')

TYPES = {'NOTYPE': 0, 'OBJECT': 1, 'FUNC': 2, 'SECTION': 3, 'FILE': 4, 'COMMON': 5, 'TLS': 6, 'IFUNC': 10}
BINDINGS = {'LOCAL': 0, 'GLOBAL': 1, 'WEAK': 2, 'UNIQUE': 10}
VISIBILITIES = {'DEFAULT': 0, 'INTERNAL': 1, 'HIDDEN': 2, 'PROTECTED': 3}
SECTIONS = {'UND': 0, 'ABS': 0xfff1, 'COM': 0xfff2}
ROW = re.compile(r' *(\d+): ([0-9a-f]{16}) +(\S+) (\S+) +(\S+) +(\S+) +(\S+)(?: (.*))?$')


def linked(linker, style, output):
    """Returns the command by which a linker makes the library of exports.c."""
    small = ',-z,noseparate-code,-z,norelro' if linker == 'bfd' else ''
    return (f'gcc {COMPILED} -nostdlib -shared -s -fuse-ld={linker} -Wl,--build-id=none{small},--hash-style={style},'
            f'-soname,exports.so.1,--defsym=fixed=0x4321 -o {output} exports.c other.so third.so')


# Objects that are admitted: a description, the file, and the command. Earlier objects have their sources in the
# folder.
ADMITTED = [
    ('Two libraries that others need, by GNU ld.', 'real-other.so', f'gcc {COMPILED} {SYSV},-soname,other.so -o real-other.so other.c'),
    ('The same with a GNU hash table in addition.', 'real-third.so',
     f'gcc {COMPILED} {SMALL},--hash-style=both,-soname,third.so -o real-third.so third.c'),
] + [(f'Symbols of every kind, linked by {name}, with {what}.', f'real-{short}-{style}.so', linked(linker, style, f'real-{short}-{style}.so'))
     for linker, short, name in (('bfd', 'ld', 'GNU ld'), ('gold', 'gold', 'gold'), ('lld', 'lld', 'lld'))
     for style, what in (('sysv', 'only a SYSV hash table'), ('both', 'both hash tables'))] + [
    ('The same, as gcc makes it without flags for small files. The symbol table and the debug data stay in the file.', 'real-large.so',
     'gcc -g -shared -fPIC -nostdlib -Wl,--hash-style=sysv,-soname,exports.so.1 -o real-large.so exports.c other.so third.so'),
    ('Compiled by clang, linked by lld.', 'real-clang.so',
     'clang -O1 -fPIC -nostdlib -shared -s -fuse-ld=lld -Wl,--hash-style=both,-soname,exports.so.1 -o real-clang.so exports.c other.so'),
    ('No exports.', 'real-none.so', f'gcc {COMPILED} {SYSV},-soname,none.so -o real-none.so none.c'),
    ('C++: a class with virtual functions, and a template.', 'real-classes.so',
     f'g++ {COMPILED} -fno-gnu-unique -fno-exceptions -fno-rtti {SYSV},-soname,classes.so -o real-classes.so classes.cc'),
    ('With the start files of gcc, but without any call of the C library.', 'real-started.so',
     f'gcc {COMPILED} -shared -s -Wl,--build-id=none,-z,noseparate-code,-z,norelro,--hash-style=sysv,-soname,started.so '
     '-o real-started.so one.c'),
    ('Symbolic: names are looked up in the object itself first.', 'real-symbolic.so',
     f'gcc {COMPILED} {SYSV},-Bsymbolic,-soname,q -o real-symbolic.so one.c'),
    ('A program that needs a library.', 'real-program.so',
     f'gcc {COMPILED} -nostdlib -pie -s -Wl,--build-id=none,-z,noseparate-code,-z,norelro,--hash-style=sysv,-e,_start '
     '-o real-program.so program.c other.so third.so'),
]

# Objects that are refused: the reason, the file, the command, and the refusal as a library.
REFUSED = [
    ('The hash style that is the default of gcc: only a GNU hash table.', 'real-gnu-hash.so',
     f'gcc {COMPILED} {SMALL},-soname,q -o real-gnu-hash.so one.c', 'E19 NoHashTable'),
    ('The same by gold, with an option for it.', 'real-gold-gnu-hash.so',
     f'gcc {COMPILED} -nostdlib -shared -s -fuse-ld=gold -Wl,--hash-style=gnu,-soname,q -o real-gold-gnu-hash.so one.c', 'E19 NoHashTable'),
    ('A version script.', 'real-version.so',
     f'gcc {COMPILED} {SYSV},-soname,q,--version-script=one.map -o real-version.so one.c', 'E17 SymbolVersions'),
    ('A call of the C library.', 'real-libc.so',
     f'gcc {COMPILED} {SYSV},-soname,q -o real-libc.so puts.c -lc', 'E17 SymbolVersions'),
    ('Thread-local data of its own.', 'real-thread.so',
     f'gcc {COMPILED} {SYSV},-soname,q -o real-thread.so own_thread.c', 'E11 TlsSegment'),
    ('Thread-local data of another object.', 'real-other-thread.so',
     f'gcc {COMPILED} {SYSV},-soname,q -o real-other-thread.so thread.c', 'E25 TlsSymbol'),
    ('Common symbols that gold leaves common.', 'real-gold-common.so',
     f'gcc {COMPILED} -fcommon -Wa,--elf-stt-common=yes -nostdlib -shared -s -fuse-ld=gold -Wl,--build-id=none,--hash-style=sysv,-soname,q '
     '-o real-gold-common.so common.c', 'E24 CommonSymbol'),
    ('The same by lld.', 'real-lld-common.so',
     f'gcc {COMPILED} -fcommon -Wa,--elf-stt-common=yes -nostdlib -shared -s -fuse-ld=lld -Wl,--build-id=none,--hash-style=sysv,-soname,q '
     '-o real-lld-common.so common.c', 'E24 CommonSymbol'),
    ('GNU ld makes ordinary data of common symbols.', 'real-ld-common.so',
     f'gcc {COMPILED} -fcommon -Wa,--elf-stt-common=yes {SYSV},-soname,q -o real-ld-common.so common.c', ''),
    ('An indirect function that is exported.', 'real-indirect.so',
     f'gcc {COMPILED} {SYSV},-soname,q -o real-indirect.so indirect.c', 'E26 IfuncSymbol'),
    ("An indirect function that isn't exported.", 'real-hidden-indirect.so',
     f'gcc {COMPILED} {SYSV},-soname,q -o real-hidden-indirect.so hidden_indirect.c', 'E30 RelocationType 37'),
    ('Data of a C++ template, with the binding that g++ chooses by default.', 'real-unique.so',
     f'g++ {COMPILED} {SYSV},-soname,q -o real-unique.so unique.cc', 'E27 BadBinding'),
    ('The size of another object\'s data.', 'real-size.so',
     f'gcc {COMPILED} {SYSV},-soname,q -o real-size.so size.c', 'E30 RelocationType 33'),
    ('A program into which data of a library is copied.', 'real-copy.so',
     'gcc -O1 -fPIE -fno-asynchronous-unwind-tables -fno-stack-protector -fcf-protection=none -nostdlib -pie -s '
     '-Wl,--build-id=none,-z,noseparate-code,-z,norelro,--hash-style=sysv,-e,_start -o real-copy.so program.c other.so third.so',
     'E30 RelocationType 5'),
    ('64 MiB of zeros.', 'real-zeros.so', f'gcc {COMPILED} {SYSV},-soname,q -o real-zeros.so zeros.c', 'E13 TooLarge'),
    ('Relocations without addends.', 'real-rel.so',
     f'gcc {COMPILED} -nostdlib -shared -s -fuse-ld=lld -Wl,--build-id=none,--hash-style=sysv,-z,rel,-soname,q -o real-rel.so pointer.c',
     'E18 UnsupportedTag'),
    ('Packed relocations.', 'real-relr.so',
     f'gcc {COMPILED} -nostdlib -shared -s -fuse-ld=lld -Wl,--build-id=none,--hash-style=sysv,--pack-dyn-relocs=relr,-soname,q '
     '-o real-relr.so pointer.c', 'E18 UnsupportedTag'),
    ("An object file that isn't linked, an object file of 32 bits, and a program at fixed addresses.", 'real-one.o',
     f'gcc {COMPILED} -c -o real-one.o one.c', 'E7 BadType'),
    ('', 'real-32.o', f'gcc -m32 {COMPILED} -c -o real-32.o one.c', 'E3 BadClass'),
    ('', 'real-fixed', f'gcc -O1 -fno-asynchronous-unwind-tables -nostdlib -static -no-pie -s -Wl,--build-id=none,-e,f -o real-fixed one.c',
     'E7 BadType'),
    ('The debug data of a library, in a file of its own.', 'real-one.debug',
     f'objcopy --only-keep-debug large.so real-one.debug', 'E15 BadDynamic'),
    ('No room after the dynamic entries, so GNU ld leaves out the last one.', 'real-no-null.so',
     f'gcc {COMPILED} {SYSV},--spare-dynamic-tags=0,-soname,q -o real-no-null.so pointer.c', 'E15 BadDynamic'),
    ('A library without a SONAME, and a library whose SONAME has a slash.', 'real-nameless.so', f'gcc {COMPILED} {SYSV} -o real-nameless.so one.c', 'E33 BadSoname'),
    ('', 'real-slash.so', f'gcc {COMPILED} {SYSV},-soname,lib/q -o real-slash.so one.c', 'E33 BadSoname'),
]

# Sources of a line or two. The other sources are in the folder real/.
LINES = {
    'one.c': ONE, 'other.c': 'int other(int n) { return n; }\n', 'third.c': 'int amount = 1;\n',
    'none.c': 'static int one(void) { return 1; }\nstatic int (*volatile operation)(void) __attribute__((used)) = one;\n',
    'classes.cc': ('struct Shape { virtual int area() const; virtual ~Shape(); int side = 2; };\n'
                   'int Shape::area() const { return side * side; }\nShape::~Shape() {}\n'
                   'void operator delete(void *, unsigned long) {}\n'
                   'template <class T> struct Count { static T value; };\ntemplate <class T> T Count<T>::value = 1;\n'
                   'int count() { return Count<int>::value++; }\n'),
    'program.c': 'extern int amount;\nint other(int);\nint _start(void) { return other(amount); }\n',
    'one.map': 'Q_1 { global: f; local: *; };\n', 'puts.c': 'int puts(const char *);\nint f(void) { return puts("f"); }\n',
    'own_thread.c': '__thread int t = 1;\nint f(void) { return t; }\n', 'thread.c': THREAD,
    'common.c': 'int data;\nint f(void) { return data; }\n', 'indirect.c': CHOICE,
    'hidden_indirect.c': CHOICE.replace('int f', 'static int f') + 'int (*volatile p)(void) = f;\nint g(void) { return p(); }\n',
    'unique.cc': ('template <class T> struct Count { static T value; };\ntemplate <class T> T Count<T>::value = 1;\n'
                  'int count() { return Count<int>::value; }\n'),
    'size.c': '__asm__(".data\\n.globl n\\n.type n, @object\\n.size n, 8\\nn: .quad other@SIZE\\n");\n',
    'zeros.c': 'char zeros[0x4000000];\nchar *f(void) { return zeros; }\n',
    'pointer.c': 'static int n = 1;\nint *volatile p = &n;\n',
}


def prepare(folder):
    """Makes the sources, and the libraries that commands name."""
    for name, text in LINES.items():
        (folder / name).write_text(text)
    for source in SOURCES.iterdir():
        (folder / source.name).write_text(source.read_text())
    for name in ('other', 'third'):
        run(folder, f'gcc {COMPILED} {SYSV},-soname,{name}.so -o {name}.so {name}.c')
    run(folder, f'gcc -g {COMPILED} -nostdlib -shared -Wl,--hash-style=sysv,-soname,q -o large.so one.c')


def run(folder, command):
    subprocess.run(command.split(), cwd=folder, check=True)


def made(folder, name, command):
    run(folder, command)
    (DATA / name).write_bytes((folder / name).read_bytes())
    return Case(name)


def read_by_readelf(name):
    """Returns the SONAME, the needed names and the symbols of an object, as readelf prints them."""
    text = subprocess.run(['readelf', '--dyn-syms', '-dW', DATA / name], check=True, capture_output=True, text=True).stdout
    soname = re.findall(r'\(SONAME\) +Library soname: \[(.*)\]', text)
    needed = re.findall(r'\(NEEDED\) +Shared library: \[(.*)\]', text)
    rows = [ROW.match(line) for line in text.splitlines()]
    symbols = []
    for row in filter(None, rows):
        number, value, size, kind, binding, visibility, section, named = row.groups()
        assert int(number) == len(symbols)
        symbols.append(dict(
            value=int(value, 16), size=int(size, 0), type=TYPES[kind], binding=BINDINGS[binding],
            visibility=VISIBILITIES[visibility], section=SECTIONS[section] if section in SECTIONS else int(section),
            name=(named or '').encode()))
    return (soname[0].encode() if soname else None), [name.encode() for name in needed], symbols


def found_by_readelf(symbols, name):
    """Returns the number of the symbol that is exported under a name."""
    return next((i for i, s in enumerate(symbols) if s['name'] == name and s['binding'] in (1, 2) and s['section'] != 0
                 and s['type'] in (0, 1, 2) and s['visibility'] in (0, 3)), None)


def view_text(name):
    """Returns the names and symbols of an object that a reader finds."""
    soname, needed, symbols = read_by_readelf(name)
    lines = ['no soname' if soname is None else 'soname ' + rules.printed_name(soname)]
    lines += ['needed ' + rules.printed_name(n) for n in needed]
    for i, s in enumerate(symbols):
        found = found_by_readelf(symbols, s['name']) if s['name'] else None
        lines.append(f"symbol {i} 0x{s['value']:016x} {s['size']} {s['type']} {s['binding']} {s['visibility']} {s['section']} "
                     f"{rules.printed_name(s['name'])} {'none' if found is None else found}")
    return '\n'.join(lines + ['end']) + '\n'


def agrees(name):
    """Returns whether the second reading finds the same symbols as readelf."""
    elf, (soname, needed, symbols) = rules.Elf((DATA / name).read_bytes()), read_by_readelf(name)
    assert elf.symbol_count() == len(symbols), name
    for i, s in enumerate(symbols):
        other = elf.symbol(i)
        assert elf.string(other['name']) == s['name'], (name, i)
        assert all(other[k] == s[k] for k in ('value', 'type', 'binding', 'visibility', 'section')), (name, i)
    assert elf.value(rules.SONAME) is None and soname is None or elf.string(elf.value(rules.SONAME)) == soname
    return symbols


def find(case, symbols, name):
    found = rules.find(case.bytes(), name)
    assert found == found_by_readelf(symbols, name), (case.name, name)
    word = name.decode() if b' ' not in name else 'bytes=' + name.hex()
    return f"find {case} {word} => {'none' if found is None else found} of {rules.compared(case.bytes(), name)}"


def admitted(folder, what, name, command):
    case = made(folder, name, command)
    assert rules.admitted_refusal(case.bytes()) is None, (name, rules.admitted_refusal(case.bytes()))
    symbols = agrees(name)
    view = name.replace('.so', '.view')
    (DATA / view).write_text(view_text(name))
    refusal = rules.library_refusal(case.bytes())
    soname = read_by_readelf(name)[0]
    assert (refusal is None) == (soname is not None)
    lines = [f'admit {case} => admitted', f'view {case} => file {view}',
             f'library {case} => ' + (f'refused {refusal}' if refusal else 'library ' + rules.printed_name(soname))]
    searched = [s['name'] for s in symbols if s['name']] + [b'hidden_call', b'kept', b'call_', b'absent']
    return f'{what}\n{command}', lines + [find(case, symbols, n) for n in dict.fromkeys(searched)]


def refused(folder, what, name, command, wanted):
    case = made(folder, name, command)
    refusal = rules.library_refusal(case.bytes())
    assert (refusal or '') == wanted, (name, refusal)
    line = f'library {case} => ' + (f'refused {refusal}' if refusal else 'library q')
    return f'{what}\n{command}' if what else command, [line]


def versions():
    tools = ['gcc', 'ld', 'ld.gold', 'ld.lld', 'clang', 'readelf']
    first = [subprocess.run([t, '--version'], check=True, capture_output=True, text=True).stdout.splitlines()[0] for t in tools]
    return 'Made by ' + '; '.join(first) + '.'


def main():
    with tempfile.TemporaryDirectory() as name:
        folder = Path(name)
        prepare(folder)
        parts = [admitted(folder, *row) for row in ADMITTED] + [refused(folder, *row) for row in REFUSED]
    parts[0] = (f'{versions()}\n{parts[0][0]}', parts[0][1])
    write_list('real.txt', parts)


if __name__ == '__main__':
    main()

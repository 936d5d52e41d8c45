"""The parts that the scripts about kept images share. They make libraries, each in versions of equal length, programs
that print the values of these libraries, and registries. They compare a start with `-c` with a start without it: both
have to print the same text and end in the same way."""

import collections
import os
import resource
import subprocess
from pathlib import Path

HEADERS = Path(__file__).resolve().parents[2] / 'c/tests/programs'
COMPILE = ['gcc', '-O1', '-fPIC', '-nostdlib', '-fno-stack-protector', '-fno-asynchronous-unwind-tables', '-fno-toplevel-reorder',
           '-Wl,--hash-style=sysv,--build-id=none', f'-I{HEADERS}']
SECTORS = 512
PATIENCE, ENDLESS = 60, 10 # how many seconds a command, and a start, may take

# Versions differ in a letter among the read-only bytes, in the target of a relocated pointer, in a number in code, in a number beside
# that pointer, and in bytes that no start maps.
VERSIONS = (('A', 0, 10, 1, 'x'), ('B', 0, 10, 1, 'x'), ('A', 1, 10, 1, 'x'), ('A', 0, 11, 1, 'x'), ('A', 0, 10, 2, 'x'), ('A', 0, 10, 1, 'y'),
            ('C', 2, 13, 3, 'z'))
BEHIND, LAST = 5, 6 # the version that differs only in bytes which no start maps, and the one that differs in everything
LIBRARIES = {
    'a': 'const char a_text[] = "a:%(letter)s";\nstatic const char words[] = "one\\0two\\0six";\n'
         'const char *a_word = words + 4 * %(place)d;\nint a_data = %(data)d;\nint a_value(void) { return %(number)d; }\n',
    'b': 'extern int a_value(void);\nint b_value(void) { return 3 * a_value() + %(number)d; }\n'
         'const char b_text[] = "b:%(letter)s";\nconst char *b_word = b_text + %(place)d;\n',
    'c': '#include "say.h"\nconst char c_text[] = "c:%(letter)s";\nconst char *c_word = c_text + %(place)d;\n'
         'int c_value(void) { return %(number)d; }\n'
         '__attribute__((constructor)) static void begins(void) { say("[c:%(letter)s] "); }\n',
    'huge': 'const char filler[3 << 20] = "filler";\n'
            'const char a_text[] __attribute__((section(".rodata.z"))) = "huge a:%(letter)s";\n'
            'const char *a_word = filler;\nint a_data = 1;\nint a_value(void) { return 9; }\n',
    'p': 'const char p_text[] = "p:%(letter)s";\nint a_value(void) { return 20 + %(number)d + 5 * %(place)d; }\n',
    'long': 'const char a_text[] = "long a:%(letter)s";\nconst char filler[20000] = "%(letter)s";\n'
            'const char *a_word = filler + %(place)d;\nint a_data = %(data)d;\nint a_value(void) { return %(number)d; }\n',
}
NEEDS = {'b': ['liba.so'], 'numbers': ['libb.so', 'liba.so'], 'words': ['libc.so', 'liba.so'], 'ends': ['liba.so'],
         'both': ['liba.so'], 'large': ['liba.so']}
TOLD = 'extern const char a_text[], *a_word;\nextern int a_value(void);\nextern int a_data;\nstatic const char own[] = "own:%(letter)s ";\n'
PROGRAMS = {
    'numbers': TOLD + 'extern int b_value(void);\nvoid begin(uint64_t *stack, uint64_t at_end) {\n    (void)stack, (void)at_end;\n'
    '    say(own), say(a_text), say(" "), say(a_word), say(" "), say_number((uint64_t)(100 * a_data + a_value())), say(" ");\n'
    '    say_number((uint64_t)b_value()), say("\\n"), leave(b_value() %% 100);\n}\n',
    'words': TOLD + 'extern const char c_text[], *c_word;\nextern int c_value(void);\n'
    'void begin(uint64_t *stack, uint64_t at_end) {\n    (void)stack, (void)at_end;\n'
    '    say(own), say(c_text), say(" "), say(c_word), say(" "), say_number((uint64_t)(c_value() + a_value())), say("\\n");\n'
    '    leave(0);\n}\n',
    'ends': TOLD + 'void begin(uint64_t *stack, uint64_t at_end) {\n    (void)stack, (void)at_end;\n    say(own), say(a_word), say("\\n");\n'
    '    if (a_value() %% 2) __builtin_trap();\n    leave(a_value());\n}\n',
    'both': TOLD + '__asm__(".section .both, \\"awx\\", @progbits\\n.byte 0\\n.previous\\n");\n'
    'void begin(uint64_t *stack, uint64_t at_end) {\n    (void)stack, (void)at_end;\n    say(own), say(a_text), say("\\n");\n    leave(1);\n}\n',
    'large': TOLD + 'static char more[(2 << 20) + 1] = "more";\nvoid begin(uint64_t *stack, uint64_t at_end) {\n    (void)stack, (void)at_end;\n'
    '    say(own), say(a_text), say(more), say("\\n");\n    leave(a_value());\n}\n',
}
OPTIONS = {'both': ['-x']}
# A program that prints how the kernel has mapped it.
MAPS = '''#include "start.h"
extern int a_value(void);
void begin(uint64_t *stack, uint64_t at_end) {
    static char bytes[4096];
    (void)stack, (void)at_end;
    long fd = kernel(2, (long)"/proc/self/maps", 0, 0), got; /* open */
    while ((got = kernel(0, fd, (long)bytes, sizeof bytes)) > 0) kernel(1, 1, (long)bytes, got);
    leave(a_value());
}
'''

Start = collections.namedtuple('Start', 'status output errors')


def made(folder, name, source, words):
    (folder / 'source.c').write_text(source)
    subprocess.run([*COMPILE, '-o', name, 'source.c', *words], cwd=folder, check=True, capture_output=True)
    return (folder / name).read_bytes()


def make_all(folder):
    """Makes all libraries and programs in a folder. Returns the bytes of each library's versions, and of each program's."""
    libraries, programs = {}, {}
    for name, text in LIBRARIES.items():
        soname = 'liba.so' if name in ('long', 'huge') else f'lib{name}.so'
        words = [*NEEDS.get(name, []), '-shared', f'-Wl,-soname,{soname}']
        libraries[name] = []
        for letter, place, number, data, behind in VERSIONS:
            source = text % {'letter': letter, 'place': place, 'number': number, 'data': data}
            libraries[name].append(made(folder, f'lib{name}.so', source, words) + behind.encode())
    for name, text in PROGRAMS.items():
        source = '#include "start.h"\n' + text
        words = [*NEEDS[name], '-pie', '-Wl,-e,_start']
        programs[name] = [made(folder, name, source % {'letter': letter}, words) for letter in 'ABC']
    for name, versions in (*libraries.items(), *programs.items()):
        assert len({len(it) for it in versions}) == 1, f'the lengths of {name}'
    return libraries, programs


class Registries:
    """Makes disks of the libraries by the program's commands."""

    def __init__(self, program, folder):
        self.program, self.folder = str(program), folder
        self.libraries, self.programs = make_all(folder)
        self.kept = {}

    def run(self, *words):
        """Runs a command, and returns how it ended."""
        return subprocess.run([self.program, *map(str, words)], cwd=self.folder, capture_output=True, timeout=PATIENCE)

    def done(self, *words):
        ended = self.run(*words)
        assert ended.returncode == 0 and ended.stdout == b'ok\n', (words, ended)

    def file(self, name, version):
        path = self.folder / f'lib{name}-{version}.so'
        if not path.exists():
            path.write_bytes(self.libraries[name][version])
        return path

    def renamed(self, name, version, soname):
        """Returns a file with a library under another name of the same length."""
        path, own = self.folder / soname, f'lib{name}.so'
        assert len(own) == len(soname)
        path.write_bytes(self.libraries[name][version].replace(own.encode(), soname.encode()))
        return path

    def make(self, disk, versions, preloads=(), sectors=SECTORS):
        """Makes a registry on a device or in a file. `versions` are pairs of a library's name and the number of its version."""
        self.done('format', disk, sectors)
        for name, version in versions:
            self.done('install', disk, self.file(name, version))
        if preloads:
            self.done('preload', disk, *(f'lib{name}.so' for name in preloads))

    def image(self, versions, preloads=(), sectors=SECTORS):
        """Returns the bytes of a registry that `make` makes with these versions and preloads."""
        key = tuple(versions), tuple(preloads), sectors
        if key not in self.kept:
            path = self.folder / 'image'
            path.unlink(missing_ok=True)
            self.make(path, versions, preloads, sectors)
            self.kept[key] = path.read_bytes()
        return self.kept[key]


class Starts:
    """Starts programs by a loader, and counts how many images it took."""

    def __init__(self, loader, folder, checks):
        self.loader, self.folder, self.checks = str(loader), folder, checks
        self.taken, self.said = collections.Counter(), ''
        resource.setrlimit(resource.RLIMIT_CORE, (0, 0))

    def start(self, disk, program, *options, wrapped=()):
        words = [*wrapped, self.loader, *map(str, options), str(disk), str(program)]
        try:
            ended = subprocess.run(words, cwd=self.folder, stdin=subprocess.DEVNULL, capture_output=True, timeout=ENDLESS)
        except subprocess.TimeoutExpired:
            return Start(None, b'', b'it goes on')
        return Start(ended.returncode, ended.stdout, ended.stderr)

    def told(self, kept, disk, program, *options):
        """Starts a program with `-v`. Returns how it ended, without the lines of `-v`, and whether it took an image."""
        ended = self.start(disk, program, '-v', '-c', kept, *options)
        lines, tells = ended.errors.splitlines(keepends=True), f'rlibreg-run: {kept}: '.encode()
        errors = b''.join(it for it in lines if not it.startswith(tells))
        self.said = b' '.join(it.strip() for it in lines if it.startswith(tells)).decode()
        return ended._replace(errors=errors), tells + b'its image is taken\n' in lines

    def compared(self, kind, kept, disk, program, *options, more=''):
        """Starts a program without images, and three times with images. Returns whether the last start took an image."""
        wanted = self.start(disk, program, *options)
        first, was_taken = self.told(kept, disk, program, *options)
        second = self.start(disk, program, '-c', kept, *options)
        third, is_taken = self.told(kept, disk, program, *options)
        for found, which in (first, f'first, image taken: {was_taken}'), (second, 'second'), (third, f'third, image taken: {is_taken}'):
            self.checks.want(kind, found == wanted, f'{which}: {found}', 'and not', str(wanted), more)
        self.taken[kind] += was_taken + is_taken
        return is_taken

    def same_as(self, kind, wanted, kept, disk, program, *options):
        """Starts a program with images once: it has to end as `wanted`. Returns whether it took an image."""
        found, is_taken = self.told(kept, disk, program, *options)
        self.checks.want(kind, found == wanted, found, f'image taken: {is_taken}', 'and not', wanted)
        self.taken[kind] += is_taken
        return is_taken


def emptied_kept(path):
    """Makes a folder for images, or empties it."""
    path.mkdir(mode=0o700, exist_ok=True)
    path.chmod(0o700)
    for it in path.iterdir():
        it.unlink()
    return path


def images_in(path):
    return sorted(Path(path) / it for it in os.listdir(path)) if Path(path).is_dir() else []

"""Builds real programs from Debian's sources, each as a program with libraries for a registry, and as a static program.
rlibreg-gcc links them. docs/LINKING.md describes how Lua gets a module in C."""

import os
import re
import shutil
import subprocess
from pathlib import Path

import debian_sources
from debian_sources import NotHad

PAGE = Path(__file__).resolve().parents[2] / 'docs' / 'LINKING.md'
LUA = ['-DLUA_USE_POSIX', '-DluaL_openlibs=open_modules']


def program_of_the_page(start):
    """Returns the program in C of the page that begins with `start`."""
    found = re.findall(r'^```c\n(.*?)^```$', PAGE.read_text(), re.M | re.S)
    return next(it for it in found if it.startswith(start))


class NotBuilt(Exception):
    """The reason why a build failed."""


def run(*words, cwd=None):
    ended = subprocess.run([*map(str, words)], cwd=cwd, capture_output=True, text=True)
    if ended.returncode:
        raise NotBuilt(f'{" ".join(map(str, words))[:120]}: {ended.stderr.strip()[-600:]}')


def need(tool, package):
    if not shutil.which(tool):
        raise NotHad(f"there is no {tool}, which is in Debian's {package}")


class Build:
    """A folder in which packages are built. `linked` and `static` have the programs, and `libraries` has the libraries
    in the order in which they are linked and installed."""

    def __init__(self, folder):
        need('musl-gcc', 'musl-tools')
        self.folder, self.objects = folder, folder / 'objects'
        self.linked, self.static = folder / 'linked', folder / 'static'
        for path in (self.objects, self.linked, self.static):
            path.mkdir(parents=True)
        self.libraries, self.parts, self.versions = [], [], []

    def source(self, archives, package):
        place = self.folder / package
        source, version = debian_sources.unpacked(archives, package, place)
        self.versions.append(f'{package} {version}')
        return source

    def compiled(self, files, *words):
        """Returns the objects of C files."""
        made = []
        for file in files:
            made.append(self.objects / f'{len(list(self.objects.iterdir()))}-{file.stem}.o')
            run('rlibreg-gcc', '-O2', *words, '-c', '-o', made[-1], file)
        return made

    def library(self, soname, objects):
        """Links a library that may need those before it."""
        path = self.linked / soname
        run('rlibreg-gcc', '-shared', '-o', path, *objects, *self.libraries)
        self.libraries.append(path)
        self.parts += objects

    def program(self, name, objects):
        """Links a program that needs all libraries so far, and a static program of these objects."""
        run('rlibreg-gcc', '-o', self.linked / name, *objects, *self.libraries[::-1])
        run('musl-gcc', '-static', '-o', self.static / name, *objects, *self.parts)


def lua(folder, archives):
    """Builds Lua with its core as one library, and LPeg, a module in C, as another."""
    build = Build(folder)
    source = build.source(archives, 'lua5.4') / 'src'
    lpeg = build.source(archives, 'lua-lpeg')
    core = [it for it in sorted(source.glob('*.c')) if it.name not in ('lua.c', 'luac.c')]
    build.library('liblua.so', build.compiled(core, LUA[0]))
    build.library('liblpeg.so', build.compiled(sorted(lpeg.glob('*.c')), f'-I{source}'))
    modules = folder / 'modules.c'
    modules.write_text(program_of_the_page('/* Opens '))
    build.program('lua', build.compiled([source / 'lua.c', modules], f'-I{source}', *LUA))
    shutil.copy(lpeg / 'test.lua', folder / 'lpeg.lua')
    shutil.copy(lpeg / 're.lua', folder)
    return build


def sqlite(folder, archives):
    """Builds SQLite's shell over its library."""
    build = Build(folder)
    need('tclsh', 'tcl')
    source = build.source(archives, 'sqlite3')
    run('./configure', '--disable-tcl', '--disable-readline', cwd=source)
    run('make', f'-j{min(2, os.cpu_count())}', 'sqlite3.c', 'shell.c', cwd=source)
    extensions = '-DSQLITE_OMIT_LOAD_EXTENSION' # otherwise SQLite needs dlopen
    build.library('libsqlite3.so', build.compiled([source / 'sqlite3.c'], extensions))
    build.program('sqlite3', build.compiled([source / 'shell.c'], extensions))
    return build

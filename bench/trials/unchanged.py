"""Projects of Debian's sources without changes, each built by its own commands: with CC=rlibreg-gcc, and again as static
programs by musl-gcc. docs/LINKING.md has a table of them."""

import collections
import shutil
import subprocess
from pathlib import Path

from debian_sources import NotHad
from real_builds import Build, need, run

# A project: its package; its commands, in which {cc} and {cxx} are the compilers, {words} are those of `linked` or of
# `static`, and the name of a project in `before` is its folder; the places of its libraries, each after those that it
# needs; its programs, each with its place and the place of the static one; the tools that it needs, `plugin` among them
# if it has thread-local data; the projects that it needs; the compilers of C and C++ of the programs with which those of
# the driver are compared, if these aren't musl-gcc's; and whether it needs C++'s standard library.
Project = collections.namedtuple(
    'Project', 'package commands linked static libraries programs tools before reference is_plus',
    defaults=((), (), None, False))
# The packages of tools that have another name.
PACKAGES = {'libtoolize': 'libtool', 'tclsh': 'tcl', 'ninja': 'ninja-build'}
CMAKE = 'cmake -DCMAKE_C_COMPILER={cc} -DCMAKE_CXX_COMPILER={cxx} {words} . && make'
STATIC = '-DBUILD_SHARED_LIBS=OFF -DCMAKE_EXE_LINKER_FLAGS=-static'
CONFIGURE = 'CC="{cc}" ./configure {words} && make'
# cJSON's tests.
UNITS = ('misc_tests', 'minify_tests', 'compare_tests', 'cjson_add', 'parse_array', 'parse_number',
         'parse_object', 'parse_string', 'parse_value', 'print_number', 'print_string', 'print_value')
# jansson's tests.
SUITES = ('array', 'chaos', 'copy', 'dump', 'dump_callback', 'equal', 'fixed_size', 'load',
          'load_callback', 'loadb', 'memory_funcs', 'number', 'object', 'pack', 'simple', 'sprintf',
          'unpack')
# libyaml's programs.
YAML = ('run-parser', 'run-scanner', 'run-loader', 'run-emitter', 'run-dumper', 'test-reader')
# xz's tests.
XZ = ('bcj_exact_size', 'block_header', 'check', 'filter_flags', 'hardware', 'index', 'index_hash',
      'lzip_decoder', 'memlimit', 'stream_flags', 'vli')
# The tests of libsodium that take little time, each named after its subject.
SODIUM = ('aead_aes256gcm', 'aead_xchacha20poly1305', 'auth', 'box', 'chacha20', 'core_ristretto255',
          'ed25519_convert', 'generichash', 'hash', 'kdf', 'kx', 'misuse', 'onetimeauth', 'randombytes',
          'scalarmult', 'secretbox', 'secretstream', 'shorthash', 'sign', 'sodium_core', 'sodium_utils',
          'sodium_utils2', 'sodium_utils3', 'sodium_version', 'stream')
# Some tests of mbedTLS that pass on any date; in those of ssl and x509parse, certificates have expired.
TLS = ('aes.ecb', 'base64', 'bignum.misc', 'ccm', 'error', 'gcm.aes128_en', 'md', 'pem', 'rsa', 'version',
       'x509write')
# tcc without dlopen, which compiles for musl.
MUSL = '/usr/lib/x86_64-linux-musl'
TCC = (f'./configure --cc="{{cc}}" {{words}} --extra-cflags="-O2 -DCONFIG_TCC_STATIC" --config-musl '
       f'--crtprefix={MUSL} --libpaths={MUSL} '
       '--sysincludepaths=/usr/include/x86_64-linux-musl:{{B}}/include && make')

PROJECTS = {
    'zlib': Project(
        'zlib', CONFIGURE, '', '--static', ['libz.so'],
        {'minigzip': ('minigzipsh', 'minigzip'), 'example': ('examplesh', 'example')}),
    'bzip2': Project(
        'bzip2', 'make {words} CC="{cc}"', '-f Makefile-libbz2_so', 'bzip2', ['libbz2.so.1.0'],
        {'bzip2': ('bzip2-shared', 'bzip2')}),
    'Lua, alone': Project(
        'lua5.4', 'make linux CC="{cc}"', '', '', [], {'lua': ('src/lua', 'src/lua')}),
    'cJSON': Project(
        'cjson', CMAKE, '', STATIC, ['libcjson.so'],
        {'cJSON_test': ('cJSON_test',) * 2, **{it: (f'tests/{it}',) * 2 for it in UNITS}}, ['cmake']),
    'jansson': Project(
        'jansson', CMAKE, '-DJANSSON_BUILD_SHARED_LIBS=ON -DJANSSON_BUILD_DOCS=OFF',
        f'-DJANSSON_BUILD_DOCS=OFF {STATIC}', ['lib/libjansson.so'],
        {it: (f'bin/{it}',) * 2 for it in ('json_process', *(f'test_{it}' for it in SUITES))},
        ['cmake']),
    'libyaml': Project(
        'libyaml', CMAKE, '-DBUILD_SHARED_LIBS=ON', STATIC, ['libyaml.so'],
        {it: (it, it) for it in (*YAML, 'example-reformatter')}, ['cmake']),
    'expat': Project(
        'expat', f'cd expat && {CMAKE}', '-DEXPAT_BUILD_DOCS=OFF',
        f'-DEXPAT_BUILD_DOCS=OFF -DEXPAT_SHARED_LIBS=OFF {STATIC}', ['expat/libexpat.so'],
        {'xmlwf': ('expat/xmlwf/xmlwf',) * 2, 'runtests': ('expat/tests/runtests',) * 2,
         'runtestspp': ('expat/tests/runtestspp',) * 2}, ['cmake']),
    'libpng': Project(
        'libpng1.6', 'export CPPFLAGS=-I{zlib} LDFLAGS=-L{zlib} && ' + CONFIGURE, '--disable-static',
        '--disable-shared', ['.libs/libpng16.so'],
        {'pngtest': ('.libs/pngtest', 'pngtest')}, (), ['zlib']),
    'PCRE2': Project(
        'pcre2', CONFIGURE, '--disable-static', '--disable-shared',
        ['.libs/libpcre2-8.so', '.libs/libpcre2-posix.so'],
        {'pcre2test': ('.libs/pcre2test', 'pcre2test')}),
    'SQLite, alone': Project(
        'sqlite3', CONFIGURE + ' libsqlite3.la shell.c && ./libtool --mode=link {cc} '
        '-o shell shell.c libsqlite3.la',
        '--disable-tcl --disable-static', '--disable-tcl --disable-shared', ['.libs/libsqlite3.so'],
        {'sqlite3': ('.libs/shell', 'shell')}, ['tclsh']),
    'xz': Project(
        'xz-utils', CONFIGURE + ' && make check TESTS=', '--disable-static', '--disable-shared',
        ['src/liblzma/.libs/liblzma.so'],
        {'xz': ('src/xz/.libs/xz', 'src/xz/xz'),
         **{f'test_{it}': (f'tests/.libs/test_{it}', f'tests/test_{it}') for it in XZ}}),
    'libsodium': Project(
        'libsodium', 'autoreconf -fi && ac_cv_tls=none ' + CONFIGURE + ' && make -C test/default '
        + ' '.join(SODIUM), '--disable-static', '--disable-shared',
        ['src/libsodium/.libs/libsodium.so'],
        {it: (f'test/default/.libs/{it}', f'test/default/{it}') for it in SODIUM},
        ['automake', 'libtoolize']),
    'mbedTLS': Project(
        'mbedtls', CMAKE + ' lib ' + ' '.join(f'test_suite_{it}' for it in TLS),
        '-DENABLE_PROGRAMS=OFF -DUSE_SHARED_MBEDTLS_LIBRARY=ON',
        f'-DENABLE_PROGRAMS=OFF {STATIC}',
        ['library/libmbedcrypto.so', 'library/libmbedx509.so', 'library/libmbedtls.so'],
        {f'test_suite_{it}': (f'tests/test_suite_{it}',) * 2 for it in TLS},
        ['cmake']),
    'tcc': Project(
        'tcc', TCC, '--disable-static', '', ['libtcc.so'],
        {'tcc': ('tcc', 'tcc')}),
}


def build_one(project, source, kind, words, compiler, before):
    """Runs a project's commands in its source, a copy of which is kept. Both kinds are built under one name, because
    some programs print it."""
    place, kept = source.with_name(kind), source.with_name('source')
    if not kept.exists():
        source.rename(kept)
    shutil.copytree(kept, source, symlinks=True)
    cc, cxx = compiler
    others = {other: it.place[kind] for other, it in before.items()}
    words = words.format(**others)
    run('sh', '-c', project.commands.format(cc=cc, cxx=cxx, words=words, **others), cwd=source)
    return source.rename(place)


def need_plugin():
    """Finds the plugin for thread-local data beside the driver."""
    here = Path(shutil.which('rlibreg-gcc')).resolve().parent
    if not [*here.glob('rlibreg_tls-*.so'), *here.glob('../lib/rlibreg/rlibreg_tls-*.so')]:
        raise NotHad('rlibreg-gcc has no plugin for thread-local data, which c/plugin.sh makes')


def library_of_plus():
    """Returns C++'s standard library for a registry, beside the driver."""
    version = subprocess.run(['g++', '-dumpfullversion'], capture_output=True, text=True).stdout.strip()
    parts = Path(shutil.which('rlibreg-g++')).parent
    found = parts / f'rlibreg_cxx-{version}' / 'libstdc++-rlibreg.so.6'
    if not found.exists():
        raise NotHad(f"there is no C++'s standard library for g++ {version}, which c/cxx.sh makes")
    return found


def build(name, project, folder, archives, built):
    """Builds a project with its programs, by the driver and as static programs. `built` has the projects that came
    before."""
    it = Build(folder)
    for tool in project.tools:
        if tool == 'plugin':
            need_plugin()
        else:
            need(tool, PACKAGES.get(tool, tool))
    it.before = before = {other: built[other] for other in project.before if other in built}
    if len(before) < len(project.before):
        raise NotHad(f'{name} needs {", ".join(project.before)}')
    source = it.source(archives, project.package)
    usual = ('musl-gcc' if 'cmake' in project.tools else 'musl-gcc -static',) * 2
    if project.is_plus:
        it.libraries.append(library_of_plus())
    it.place = {
        'linked': build_one(project, source, 'linked', project.linked, ('rlibreg-gcc', 'rlibreg-g++'),
                            before),
        'static': build_one(project, source, 'static', project.static, project.reference or usual,
                            before)}
    for other in before.values():
        it.libraries += [path for path in other.libraries if path not in it.libraries]
    it.libraries += [(it.place['linked'] / path).resolve() for path in project.libraries]
    for program, paths in project.programs.items():
        for kind, path, to in zip(('linked', 'static'), paths, (it.linked, it.static)):
            shutil.copy(it.place[kind] / path, to / program)
    return it

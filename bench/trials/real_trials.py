"""The trials of real programs: their files, their starts, and the results that they have to have."""

import bz2
import collections
import gzip
import lzma
import random
import re
import sqlite3
import subprocess
from pathlib import Path

from unchanged import SODIUM, SUITES, TLS, UNITS, XZ, YAML

HERE = Path(__file__).resolve().parent

# A program that tcc compiles into its own memory, and runs.
RUN = b"""#include <unistd.h>
#include <stdio.h>
int main(int number, char **words) {
    char text[80];
    write(1, text, sprintf(text, "%d words\\n", number));
    return 42;
}
"""
# A start of a program: its arguments, its input, and the expected status.
Step = collections.namedtuple('Step', 'words given status', defaults=(b'', 0))
# The trial of a program: the files that it finds, its starts, and a test of its results. The test gets the status and
# output of each start, the files that are left, and their folder. `times` is a pattern of the times that the program
# prints, which differ in each start.
Trial = collections.namedtuple('Trial', 'program files steps is_right times', defaults=(None,))


def is_packed_right(ended, left, _):
    """Checks that Python reads what minigzip packed, and that the file was unpacked again."""
    data = left.get('data')
    unpacked = gzip.decompress(ended[0].output)
    return unpacked == data == left.get('again') and 'again.gz' not in left


def zlib_trials(_):
    choose = random.Random(1)
    words = [bytes(choose.choices(b'abcdefgh \n', k=9)) for _ in range(300)]
    data = b''.join(choose.choices(words, k=60_000)) + choose.randbytes(200_000)
    packed = gzip.compress(data, mtime=0)
    damaged = packed[:70_000] + bytes([packed[70_000] ^ 1]) + packed[70_001:]
    steps = [Step([word], data) for word in ('-6', '-1', '-9', '-h', '-f')]
    steps += [Step(['-d'], packed), Step(['again']), Step(['-d', 'again.gz'])]
    steps += [Step(['-d'], damaged, 1), Step(['-d', 'nowhere'], b'', 1)]
    yield Trial('minigzip', {'data': data, 'again': data}, steps, is_packed_right)
    yield Trial('example', {}, [Step([])], lambda ended, *_: b'inflate' in ended[0].output)


def is_script_right(ended, *_):
    """Checks that the script and LPeg's own test reached their ends."""
    return ended[0].output.endswith(b'\nend\n') and ended[1].output.endswith(b'OK\n')


def lua_trials(build):
    files = {'script.lua': (HERE / 'real.lua').read_bytes()}
    files.update({name: (build.folder / name).read_bytes() for name in ('lpeg.lua', 're.lua')})
    steps = [Step(['script.lua', 'one', 'two'], b'a line\n' * 1000, 7), Step(['lpeg.lua'])]
    steps += [Step(['-i'], b'return 6 * 7\nnowhere()\n'), Step(['-'], b'return 1 +\n', 1)]
    steps += [Step(['-v', '-e', 'error("left")'], b'', 1), Step(['nowhere.lua'], b'', 1)]
    yield Trial('lua', files, steps, is_script_right)


def is_database_right(_, left, place):
    """Checks that Python's SQLite finds the data that the shell has left."""
    with sqlite3.connect(f'file:{place}/database?mode=ro&immutable=1', uri=True) as it:
        counts = it.execute('SELECT count(*), sum(id) FROM people').fetchone()
        sound = it.execute('PRAGMA integrity_check').fetchall()
    return (counts, sound) == ((5000, 12_502_500), [('ok',)]) and 'database' in left


def sqlite_trials(_):
    script = (HERE / 'real.sql').read_bytes()
    steps = [Step(['database'], script, 1), Step([':memory:', 'SELECT nowhere;'], b'', 1)]
    steps.append(Step(['database', 'PRAGMA integrity_check; SELECT max(name) FROM people;']))
    steps.append(Step(['-json', 'database', 'SELECT * FROM towns LIMIT 3;']))
    yield Trial('sqlite3', {}, steps, is_database_right)


def right(*_):
    """Accepts all results: they only have to equal those of the static program."""
    return True


def bzip2_trials(_):
    data = b'a line of words\n' * 9000 + random.Random(2).randbytes(9000)
    packed = bz2.compress(data)
    steps = [Step(['-c'], data), Step(['-1c'], data), Step(['-dc'], packed), Step(['-tv'], packed)]
    steps += [Step(['-dc'], packed[:-9], 2), Step(['-k', 'data']), Step(['-d', 'data.bz2'], b'', 1)]
    yield Trial('bzip2', {'data': data}, steps, lambda ended, left, _:
                bz2.decompress(ended[0].output) == data == bz2.decompress(left['data.bz2']))


def lua_alone_trials(_):
    steps = [Step(['-e', 'print(("x"):rep(3), 7 // 2, math.sin(1), #arg)']), Step(['-v'])]
    steps += [Step(['-'], b'local t = {} for i = 1, 9 do t[i] = i * i end print(#t, t[9])\n')]
    steps += [Step(['-e', 'print(pcall(require, "nowhere"), (package.loadlib("./none", "f")))'])]
    yield Trial('lua', {}, steps, lambda ended, *_: ended[0].output.startswith(b'xxx\t3\t0.84147'))


def cjson_trials(_):
    yield Trial('cJSON_test', {}, [Step([])], lambda ended, *_: b'"name"' in ended[0].output)
    for name in UNITS:
        yield Trial(name, {}, [Step([])], lambda ended, *_: b' 0 Failures' in ended[0].output)


def jansson_trials(_):
    text = b'{"b": [1, 2.5e3, "\\u20ac \\ud83d\\ude00", null, true], "a": {"deep": [[[]]]}}'
    steps = [Step(['--env'], text), Step(['--env'], text[:-1], 1), Step(['--env'], b'[0x1]', 1)]
    yield Trial('json_process', {}, steps, lambda ended, *_: b'"deep"' in ended[0].output)
    for name in SUITES:
        yield Trial(f'test_{name}', {}, [Step([])], right)


def yaml_trials(_):
    text = b'- &a {b: "c\\n", d: [1, 2]}\n- *a\n- |\n  a\n  text\n- !!set {? x}\n...\n---\nlast\n'
    files = {'good': text, 'bad': b'- [1, 2\n- }\n'}
    for name in YAML[:5]:
        steps = [Step(['good'])] + [Step(['bad'])] * (name not in YAML[3:])
        yield Trial(name, files, steps, lambda ended, *_: b'SUCCESS' in ended[0].output
                    or b'PASSED' in ended[0].output)
    yield Trial('test-reader', {}, [Step([])], lambda ended, *_:
                set(re.findall(rb'(\d+) fail', ended[0].output)) == {b'0'})
    yield Trial('example-reformatter', {}, [Step([], text)], lambda ended, *_:
                b'last' in ended[0].output)


def expat_trials(_):
    files = {'good.xml': b'<?xml version="1.0"?><!DOCTYPE a [<!ENTITY b "c">]><a d="e">&b;</a>',
             'bad.xml': b'<a><b></a>'}
    steps = [Step(['good.xml']), Step(['bad.xml'], b'', 2), Step(['-v'])]
    yield Trial('xmlwf', files, steps, lambda ended, *_: b'mismatched tag' in ended[1].output)
    for name in ('runtests', 'runtestspp'):
        yield Trial(name, {}, [Step([])], lambda ended, *_: b'100%' in ended[0].output)


def png_trials(it):
    picture = (it.place['static'] / 'pngtest.png').read_bytes()
    yield Trial('pngtest', {'pngtest.png': picture}, [Step(['pngtest.png'])],
                lambda ended, *_: b'libpng passes test' in ended[0].output)


def pcre_trials(it):
    data = it.place['static'] / 'testdata'
    inputs = [f'testinput{n}' for n in (1, 4, 5, 6, 9)]
    files = {name: (data / name).read_bytes() for name in inputs}
    wanted = [(data / name.replace('input', 'output')).read_bytes() for name in inputs]
    steps = [Step(['-q', name]) for name in inputs]
    yield Trial('pcre2test', files, steps, lambda ended, *_:
                [it.output for it in ended] == wanted)


def below(folder, pattern):
    """Returns the files below the folder, by their names relative to it."""
    return {str(it.relative_to(folder)): it.read_bytes()
            for it in sorted(folder.glob(pattern)) if it.is_file()}


def xz_trials(it):
    files = below(it.place['static'] / 'tests', 'files/*')
    good, bad, other = ([name for name in files if name.startswith(f'files/{kind}-')]
                        for kind in ('good', 'bad', 'unsupported'))
    data = b'a line of words\n' * 9000 + random.Random(3).randbytes(9000)
    packed = lzma.compress(data)
    steps = [Step(['-dc', *good]), Step(['-tv', *bad], b'', 1), Step(['-t', *other], b'', 1)]
    steps += [Step(['-9e'], data), Step(['-T2', '--block-size=20KiB'], data), Step(['-dc'], packed)]
    steps += [Step(['--no-warn', '--x86', '--lzma2=dict=64KiB', 'data']), Step(['-dk', 'data.xz']),
              Step(['-l', 'data.xz']), Step(['-dc'], packed[:-9], 1)]
    yield Trial('xz', {'data': data, **files}, steps, lambda ended, left, _:
                {data} == {*map(lzma.decompress, (ended[3].output, ended[4].output, left['data.xz'])),
                           left['data'], ended[5].output})
    for name in XZ:
        yield Trial(f'test_{name}', files, [Step([])], right)


def sodium_trials(it):
    tests = it.place['static'] / 'test' / 'default'
    for name in SODIUM:
        wanted = (tests / f'{name}.exp').read_bytes()
        yield Trial(name, {f'{name}.exp': wanted}, [Step([])], lambda ended, left, _, name=name:
                    left[f'{name}.res'] == left[f'{name}.exp'])


def tls_trials(it):
    tests = it.place['static'] / 'tests'
    files = below(tests, 'data_files/**/*')
    for name in TLS:
        suite = f'test_suite_{name}'
        yield Trial(suite, {**files, **below(tests, f'{suite}.datax')}, [Step([])],
                    lambda ended, *_: b'PASSED (' in ended[0].output)


def is_compiler_right(ended, place, preprocessed, compiled):
    """Checks the messages and the output of tcc, and the output of the programs that it compiled."""
    found = [(it.errors + it.output).split() for it in ended]
    for n, name in enumerate(compiled, len(preprocessed)):
        found[n] += subprocess.run([place / f'{name}.out'], capture_output=True).stdout.split()
    wanted = [*preprocessed.values(), *compiled.values()]
    return found[:len(wanted)] == wanted and ended[-2].output == b'3 words\n'


def tcc_trials(it):
    place = it.place['static']
    # Test 02 is left out: a statically linked tcc doesn't pass it either.
    preprocessed, compiled = (
        {path.stem: path.with_suffix('.expect').read_bytes().split()
         for path in sorted((place / 'tests').glob(pattern)) if path.stem != '02'}
        for pattern in ('pp/[0-9]*.c', 'tests2/[0-2]?_*.c'))
    files = below(place / 'tests/pp', '*.c') | below(place / 'tests/tests2', '*.[ch]')
    words = [f'-B{place}']
    steps = [Step([*words, '-E', '-P', f'{name}.c']) for name in preprocessed]
    steps += [Step([*words, '-static', '-o', f'{name}.out', f'{name}.c']) for name in compiled]
    steps += [Step([*words, '-c', f'{name}.c']) for name in compiled]
    steps += [Step([*words, '-static', '-run', '-', 'a', 'b'], RUN, 42), Step(['-c', 'none.c'], b'', 1)]
    yield Trial('tcc', files, steps, lambda ended, _, where:
                is_compiler_right(ended, where, preprocessed, compiled))


TRIALS = {
    'zlib': zlib_trials, 'Lua': lua_trials, 'SQLite': sqlite_trials,
    'bzip2': bzip2_trials, 'Lua, alone': lua_alone_trials, 'cJSON': cjson_trials,
    'jansson': jansson_trials, 'libyaml': yaml_trials, 'expat': expat_trials, 'libpng': png_trials,
    'PCRE2': pcre_trials, 'SQLite, alone': sqlite_trials, 'xz': xz_trials,
    'libsodium': sodium_trials, 'mbedTLS': tls_trials, 'tcc': tcc_trials}

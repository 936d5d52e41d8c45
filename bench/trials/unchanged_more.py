"""Projects of C of Debian's sources without changes that open modules, are built by meson, or use a terminal.
docs/LINKING.md has a table of them."""

from pathlib import Path

from real_trials import Step, Trial, below, right
from unchanged import CONFIGURE, Project

# pixman's tests that take little time.
PIXMAN = ('oob-test', 'infinite-loop', 'trap-crasher', 'fence-image-self-test', 'region-translate-test',
          'fetch-test', 'a1-trap-test', 'prng-test', 'region-test', 'scaling-crash-test')
TARGETS = ' '.join(f'test/{it}' for it in PIXMAN)
CURSES = ('--without-ada --without-cxx --without-cxx-binding --without-manpages --without-tests '
          '--without-debug --with-terminfo-dirs=/etc/terminfo:/lib/terminfo:/usr/share/terminfo')
SYSTEM = ('gcc', 'g++')

PROJECTS = {
    'pixman': Project(
        'pixman', 'CC="{cc}" meson setup {words} -Dgtk=disabled -Dlibpng=disabled -Dopenmp=disabled built && '
        f'ninja -C built {TARGETS}', '', '-Ddefault_library=static', ['built/pixman/libpixman-1.so'],
        {it: (f'built/test/{it}',) * 2 for it in PIXMAN}, ['meson', 'ninja', 'plugin']),
    'ncurses': Project(
        'ncurses', CONFIGURE, f'{CURSES} --with-shared --without-normal', CURSES, ['lib/libncurses.so'],
        {it: (f'progs/{it}',) * 2 for it in ('tic', 'infocmp', 'tput', 'toe', 'tabs')}),
    'LPeg': Project(
        'lua-lpeg', 'make linux CC="{cc}" LUADIR="{Lua, alone}/src"', '', '', ['lpeg.so'], {}, (),
        ['Lua, alone'], SYSTEM),
    'Lua, modules': Project(
        'lua5.4', 'make linux CC="{cc} {words}"', '--module {LPeg}/lpeg.so', '', [],
        {'lua': ('src/lua',) * 2}, (), ['LPeg'], SYSTEM),
}


def pixman_trials(_):
    for name in PIXMAN:
        yield Trial(name, {}, [Step([])], right)


def curses_trials(it):
    source = (it.place['static'] / 'misc/terminfo.src').read_bytes()
    steps = [Step(['-x', '-o', 'made', '-e', 'vt100,linux,xterm,xterm-256color', 'terminfo.src'])]
    yield Trial('tic', {'terminfo.src': source}, steps, lambda _, left, __: 'made/v/vt100' in left)
    made = below(Path('/lib/terminfo'), '[lvx]/*')
    yield Trial('infocmp', made, [Step(['-A', '.', 'vt100']), Step(['-A', '.', '-C', 'xterm']), Step(
        ['-A', '.', '-B', '.', 'vt100', 'xterm']), Step(['nowhere'], b'', 1)],
        lambda ended, *_: b'vt100' in ended[0].output and b'xterm' in ended[1].output)
    yield Trial('tput', {}, [Step(['-T', 'xterm', 'cup', '3', '4']), Step(['-T', 'vt100', 'longname']), Step(
        ['-T', 'xterm', '-S'], b'bold\nsetaf 1\nsgr0\n'), Step(['-T', 'none', 'cols'], b'', 3)],
        lambda ended, *_: ended[0].output == b'\x1b[4;5H')
    yield Trial('toe', made, [Step(['-s', '.'])], lambda ended, *_: b'xterm-256color' in ended[0].output)
    yield Trial('tabs', {}, [Step(['-T', 'xterm', '-8'])], right)


def no_trials(_):
    """LPeg is tried by the Lua that opens it."""
    return []


def module_trials(it):
    lpeg = it.before['LPeg'].place['static']
    files = {name: (lpeg / name).read_bytes() for name in ('lpeg.so', 'test.lua', 're.lua')}
    steps = [Step(['test.lua']), Step(['-e', 'local re = require("re") print(re.find("a word", "%w^4"))']),
             Step(['-e', 'print(package.loadlib("./lpeg.so", "*"), package.loadlib("./lpeg.so", "none") == nil)']),
             Step(['-e', 'print((require("lpeg").P("a") ^ 1):match("aaab"), #package.searchers)'])]
    yield Trial('lua', files, steps, lambda ended, *_: ended[0].output.endswith(b'OK\n'))


TRIALS = {'pixman': pixman_trials, 'ncurses': curses_trials, 'LPeg': no_trials, 'Lua, modules': module_trials}

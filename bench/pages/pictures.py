#!/usr/bin/env python3
"""Makes the pictures of the documents, docs/pictures/*.svg.

    python3 bench/pages/pictures.py            writes them again
    python3 bench/pages/pictures.py --check    writes nothing, and fails if a picture would change

`crates.svg` is made from crates.txt, and the plots from the tables of docs/PERFORMANCE.md (crate_picture.py, plots.py).
"""

import sys
from pathlib import Path

import crate_picture
import plots
from drawing import Picture

FOLDER = Path(__file__).resolve().parents[2] / 'docs' / 'pictures'


def bind():
    """Draws how a program and the libraries of a disk become an image, or a refusal."""
    it = Picture(860, 300, 'rlibreg binds a program with the libraries of a disk: the answer is an image or a refusal')
    it.box(24, 40, 190, 74, 'program file\n`needs libtwo.so`', 'blue')
    it.box(24, 150, 190, 116, '', 'green')
    it.lines(119, 168, 'disk of the registry', 'middle')
    it.box(40, 186, 158, 30, '`libone.so`')
    it.box(40, 224, 158, 30, '`libtwo.so`')
    it.box(310, 70, 210, 160, 'bind at a base address\n\n1. find the load order\n2. place the objects\n3. look up the symbols\n4. apply the relocations', 'yellow')
    it.path([(214, 77), (262, 77), (262, 120), (310, 120)])
    it.path([(214, 208), (262, 208), (262, 180), (310, 180)])
    it.lines(730, 24, 'memory image, byte by byte', 'middle')
    for number, (address, name) in enumerate([('0x10000', '/program'), ('0x13000', 'libtwo.so'), ('0x18000', 'libone.so')]):
        it.box(640, 40 + 40 * number, 180, 40, f'`{name}`', 'blue' if number == 0 else 'green', 0)
        it.lines(630, 50 + 40 * number, f'`{address}`', 'end', 'soft', 12)
    it.lines(730, 200, 'or one numbered refusal', 'middle')
    it.box(600, 218, 244, 48, '`refused B3 Missing`\n`libtwo.so libone.so`', 'red')
    it.path([(520, 120), (556, 120), (556, 100), (572, 100)])
    it.path([(520, 190), (556, 190), (556, 242), (600, 242)])
    return it


def disk():
    """Draws the sectors of a disk: the current root lists catalogues, these list entries, and these list runs of
    bytes."""
    it = Picture(860, 330, 'The sectors of a disk: the current root lists catalogues, a catalogue entries, an entry the runs of its file')
    cells = [('0', 'older root,\ngeneration 5', 'plain'), ('1', 'current root,\ngeneration 6', 'blue'), ('2', 'bytes', 'green'), ('3', 'bytes', 'green'),
             ('4', 'entry\nliba.so', 'yellow'), ('5', 'unused', 'plain'), ('6', 'entry\nlibb.so', 'yellow'), ('7', 'catalogue', 'blue'),
             ('8', 'bytes', 'green'), ('9', 'unused', 'plain'), ('10', 'bytes', 'green')]
    left = {}
    for place, (number, text, kind) in enumerate(cells):
        left[number] = 12 + 76 * place
        it.box(left[number], 130, 74, 64, text, kind, 2, 10)
        it.lines(left[number] + 37, 208, f'sector {number}', 'middle', 'soft', 11)

    def arrow(start, end, height):
        """Draws an arrow from one sector to another, above the row or, for a negative height, below it."""
        y, turn = (130, 130 - height) if height > 0 else (216, 216 - height)
        it.path([(left[start] + 40, y), (left[start] + 40, turn), (left[end] + 30, turn), (left[end] + 30, y)])

    arrow('1', '7', 80)
    arrow('7', '4', 52)
    arrow('7', '6', 28)
    arrow('4', '2', -22)
    arrow('6', '8', -22)
    arrow('6', '10', -48)
    it.lines(24, 28, 'The root of the later generation is current. It lists the catalogues, which list the entries of the libraries.')
    it.lines(24, 286, 'An entry has the name, the length and the runs of a file: liba.so lies in sectors 2 and 3, libb.so in 8 and 10.')
    it.lines(24, 308, 'A change writes only unused sectors, then the root of the next generation in the place of the older root.', kind='soft')
    return it


def bands(it, y, parts):
    """Draws bands for the states that a stop leaves, each with a kind and a text, from one place to another."""
    for start, end, text, kind in parts:
        it.box(start, y, end - start, 34, text, kind, 2)


def steps(it, y, names):
    """Draws the steps of a change on a time line. A name that begins with `sync` is a sync."""
    it.path([(24, y), (836, y)])
    for x, name in names:
        it.path([(x, y - 6), (x, y + 6)], has_head=False)
        it.lines(x, y - 26, name, 'middle', size=12)


def change():
    """Draws a change and an update as time lines, with the state that a stop at each moment leaves."""
    it = Picture(860, 380, 'A change and an update on a time line, and the state that a stop at each moment leaves')
    it.lines(24, 24, 'A change, such as a replacement', size=14)
    steps(it, 88, [(110, 'bytes, entry,\ncatalogues'), (260, 'sync'), (420, 'root of the next\ngeneration'), (580, 'sync'), (690, '`ok`')])
    bands(it, 106, [(24, 420, 'a stop leaves the state before the change', 'plain'), (420, 580, 'before or after it', 'yellow'),
                    (580, 836, 'the state after the change', 'green')])
    it.lines(24, 196, 'An update of several changes', size=14)
    steps(it, 260, [(75, 'line 1'), (145, 'line 2'), (215, 'bind'), (300, 'commit:\ncatalogues'), (380, 'sync'), (460, 'root of the next\ngeneration'),
                    (580, 'sync'), (690, '`ok`')])
    bands(it, 278, [(24, 460, 'a stop leaves the state before the update: none of its lines', 'plain'), (460, 580, 'none or all', 'yellow'),
                    (580, 836, 'the state after all lines', 'green')])
    it.lines(24, 346, 'Until the root is written, only unused sectors change. In between, each sector that was written since the last', kind='soft')
    it.lines(24, 364, 'sync is found old or new, in any mixture. The answer ok is printed only after the second sync has succeeded.', kind='soft')
    return it


def medium():
    """Draws the system's memory and the medium after a failed sync, and how an opening handles the difference."""
    it = Picture(860, 320, 'After a failed sync the system shows a root that the medium does not have; an opening compares them')
    it.lines(134, 34, "system's memory", 'middle', size=14)
    it.box(24, 52, 220, 40, 'root, generation 5')
    it.box(24, 92, 220, 40, 'root, generation 6', 'red')
    it.lines(134, 186, 'medium', 'middle', size=14)
    it.box(24, 204, 220, 40, 'root, generation 5')
    it.box(24, 244, 220, 40, 'root, generation 4')
    it.path([(134, 132), (134, 168)], is_dashed=True)
    it.lines(146, 152, 'the sync failed', kind='soft', size=12)
    it.box(330, 92, 200, 130, 'the next opening\n\n1. syncs DISK\n2. reads both roots\n    past this memory\n3. compares them', 'blue')
    it.path([(244, 112), (330, 112)])
    it.path([(244, 224), (290, 224), (290, 200), (330, 200)])
    it.box(610, 40, 226, 62, 'equal: it goes on', 'green')
    it.box(610, 122, 226, 62, 'different: the system\nforgets its copy', 'yellow')
    it.box(610, 204, 226, 80, 'its copy stays: a change writes\nits roots; list and bind are\nrefused with S1 (Device)', 'red')
    for y in (71, 153, 244):
        it.path([(530, 157), (570, 157), (570, y), (610, y)])
    return it


def start():
    """Draws a start of rlibreg-run with and without a kept image."""
    it = Picture(860, 330, 'A start of rlibreg-run: from a kept image if one fits, otherwise by a bind')
    it.box(24, 120, 150, 70, '`rlibreg-run -c`\nDISK PROGRAM', 'blue')
    it.box(230, 100, 190, 110, 'does a kept image fit?\n\nkey, PROGRAM, and for a\ndevice all that it was\nbound from', 'yellow')
    it.path([(174, 155), (230, 155)])
    it.lines(440, 84, 'yes', 'end', 'soft')
    it.lines(325, 228, 'no, or a start without -c', 'middle', 'soft')
    it.box(480, 70, 190, 56, 'map the kept image\nno lock, no sync', 'green')
    it.path([(420, 130), (446, 130), (446, 98), (480, 98)])
    it.box(480, 160, 190, 76, 'lock and sync DISK,\nbind PROGRAM,\nunlock DISK', 'blue')
    it.path([(420, 180), (446, 180), (446, 198), (480, 198)])
    it.box(480, 264, 190, 44, 'keep the image, if -c', 'plain')
    it.path([(575, 236), (575, 264)])
    it.box(720, 110, 116, 90, 'call the\ninitializers,\nenter\nPROGRAM', 'green')
    it.path([(670, 98), (694, 98), (694, 140), (720, 140)])
    it.path([(670, 286), (694, 286), (694, 172), (720, 172)])
    it.lines(24, 28, 'Both ways run the same bytes: an image that does not fit is not used.', size=14)
    return it


def switch():
    """Draws the steps of rlibreg-switch, and the state that a cut at each of them leaves."""
    it = Picture(860, 330, 'rlibreg-switch changes the partition that is not live, and then turns the link to it')
    rows = [('before', 'A, live', 'B, old', 'a'), ('copy A to B', 'A, live', 'B, written', 'a'),
            ('change and check B', 'A, live', 'B, changed', 'a'), ('turn the link', 'A, unchanged', 'B, live', 'b')]
    for number, (step, first, second, live) in enumerate(rows):
        x = 24 + 208 * number
        it.lines(x + 92, 56, f'{number}. {step}' if number else step, 'middle', size=14)
        it.box(x, 80, 184, 34, 'the link', 'blue')
        it.box(x, 170, 86, 60, first.replace(', ', '\n'), 'green' if live == 'a' else 'plain')
        it.box(x + 98, 170, 86, 60, second.replace(', ', '\n'), 'green' if live == 'b' else 'yellow' if number in (1, 2) else 'plain')
        end = x + (43 if live == 'a' else 141)
        it.path([(x + 92, 114), (end, 170)])
    it.box(24, 256, 600, 36, 'a cut leaves the link at A, which nothing has written', 'green', 2)
    it.box(648, 256, 188, 36, 'the link leads to B', 'green', 2)
    it.lines(24, 26, 'The live partition is never written. The same command can be run again after a cut.', kind='soft')
    it.lines(24, 310, 'While the link is turned, a cut leaves it at A or at B; both hold a whole registry.', kind='soft')
    return it


def all_of_them():
    """Returns each picture's name with its SVG."""
    drawn = {'bind': bind, 'disk': disk, 'change': change, 'medium': medium, 'start': start, 'switch': switch, 'crates': crate_picture.crates,
             'ratios': plots.ratios, 'growth': plots.growth, 'starts': plots.starts}
    return {FOLDER / f'{name}.svg': make().svg() for name, make in drawn.items()}


def wrong():
    """Yields a line for each picture that isn't as this script makes it, or that nothing makes."""
    made = all_of_them()
    for path, text in made.items():
        if not path.exists() or path.read_text() != text:
            yield f'docs/pictures/{path.name} would change: python3 bench/pages/pictures.py'
    for path in sorted(set(FOLDER.iterdir()) - set(made)):
        yield f'docs/pictures/{path.name} is made by no script'


def main():
    if '--check' in sys.argv:
        found = list(wrong())
        print(*found, sep='\n', end='\n' if found else '')
        sys.exit(bool(found))
    FOLDER.mkdir(exist_ok=True)
    for path, text in all_of_them().items():
        path.write_text(text)


if __name__ == '__main__':
    main()

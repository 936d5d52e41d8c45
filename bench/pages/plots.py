"""The plots of docs/PERFORMANCE.md, made from the tables of that page. The scripts of this folder print the figures of
these tables."""

import math
import re
from pathlib import Path

from drawing import Picture

PAGE = Path(__file__).resolve().parents[2] / 'docs' / 'PERFORMANCE.md'


def table(head):
    """Returns the rows of the page's table whose first line begins with these cells."""
    lines = PAGE.read_text().splitlines()
    first = next(number for number, line in enumerate(lines) if line.startswith(head))
    rows = []
    for line in lines[first + 2:]:
        if not line.startswith('|'):
            break
        rows.append([cell.strip() for cell in line.strip('|').split('|')])
    return rows


def plain(text):
    """Returns a cell's text without backquotes."""
    return text.replace('`', '')


def ratios():
    """Plots rlibreg's time as a multiple of the tuned program's, for each workload."""
    rows = [(plain(name), [float(part) for part in ratio.split(';')], kind)
            for head, kind in (('| Usual workload', 'blue'), ('| Hostile workload', 'yellow')) for name, _, ratio, *_ in table(head)]
    it = Picture(860, 70 + 20 * len(rows), 'The time of rlibreg divided by that of the tuned program, for each workload')
    place = lambda ratio: 420 + 300 * math.log(ratio / 0.25) / math.log(6)
    for ratio in (0.25, 0.5, 0.75, 1, 1.5):
        it.path([(place(ratio), 36), (place(ratio), 46 + 20 * len(rows))], has_head=False, is_dashed=ratio != 1)
        it.lines(place(ratio), 24, f'{ratio:g}', 'middle', 'soft', 12)
    for number, (name, found, kind) in enumerate(rows):
        y = 54 + 20 * number
        it.lines(404, y, name if len(name) < 62 else name[:60] + '..', 'end', size=11)
        it.lines(846, y, '; '.join(f'{one:.2f}' for one in found), 'end', 'soft', 11)
        for ratio in found:
            left, right = sorted((place(1), max(place(ratio), 410)))
            it.box(round(left, 1), y - 6, round(right - left, 1) or 1, 12, '', kind, 1)
    return it


def growth():
    """Plots the time against the size of the input, both on logarithmic scales."""
    head, *_ = [line for line in PAGE.read_text().splitlines() if line.startswith('| Size')]
    names = [plain(cell.strip()) for cell in head.strip('|').split('|')][1:]
    rows = [[float(cell.replace(',', '')) for cell in row] for row in table('| Size')]
    it = Picture(860, 420, 'The time of some workloads against the size of their input')
    low, high = min(min(row[1:]) for row in rows), max(max(row[1:]) for row in rows)
    across = lambda size: 70 + 480 * math.log(size / rows[0][0]) / math.log(rows[-1][0] / rows[0][0])
    up = lambda time: 370 - 330 * math.log(time / low) / math.log(high / low)
    for row in rows:
        it.lines(across(row[0]), 396, f'{row[0]:,.0f}', 'middle', 'soft', 11)
    for power in range(math.ceil(math.log10(low)), math.floor(math.log10(high)) + 1):
        it.path([(70, up(10 ** power)), (550, up(10 ** power))], has_head=False, is_dashed=True)
        it.lines(62, up(10 ** power), f'{10 ** power:g} ms', 'end', 'soft', 11)
    ends = []
    for column, name in enumerate(names, 1):
        it.path([(across(row[0]), up(row[column])) for row in rows], has_head=False)
        for row in rows:
            it.box(round(across(row[0]) - 3, 1), round(up(row[column]) - 3, 1), 6, 6, '', 'blue', 3)
        ends.append((up(rows[-1][column]), name))
    label = 0
    for y, name in sorted(ends):
        label = max(y, label + 18)
        it.lines(566, label, name, size=12)
    return it


def starts():
    """Plots the starts of a program, as bars of milliseconds."""
    rows = [(plain(name), float(re.match(r'[\d.]+', time)[0])) for name, time, *_ in table('| Start')]
    it = Picture(860, 50 + 34 * len(rows), 'How long a program takes to start, in milliseconds')
    scale = 380 / max(time for _, time in rows)
    for number, (name, time) in enumerate(rows):
        y = 30 + 34 * number
        it.lines(360, y + 11, name, 'end', size=12)
        it.box(372, y, round(scale * time, 1), 22, '', 'green' if 'kept' in name else 'blue', 2)
        it.lines(380 + scale * time, y + 11, f'{time:g} ms', kind='soft', size=12)
    return it

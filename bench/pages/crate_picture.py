"""The picture of the crates, made from crates.txt: programs at the top, and below each crate the crates that it uses."""

from pathlib import Path

from drawing import Picture

CRATES = Path(__file__).resolve().parents[2] / 'crates.txt'
TESTS = ('# Tests', '# Power cut')
KINDS = {'# Files and binding': 'blue', '# Disks': 'green', '# The registry': 'yellow', '# The second program': 'yellow'}
WIDTH, BOX, ROW = 1000, (112, 26), 68


def crates_and_kinds():
    """Returns the crates that each crate uses, and the colour of each crate. Leaves out crates that only test."""
    uses, kinds, head = {}, {}, ''
    for line in CRATES.read_text().splitlines():
        if line.startswith('#'):
            head = line
        elif line and not head.startswith(TESTS):
            name, used = line.split(':')
            uses[name.split()[0]] = used.split()
            kinds[name.split()[0]] = next(kind for start, kind in KINDS.items() if head.startswith(start))
    return {name: [it for it in used if it in uses] for name, used in uses.items()}, kinds


def direct(uses):
    """Returns the uses that don't follow from other uses."""
    below = {}
    for name in uses:
        collect(name, uses, below)
    return {name: [it for it in used if not any(it in below[other] for other in used)] for name, used in uses.items()}


def collect(name, uses, below):
    """Adds to `below` all crates that a crate uses, directly or through others."""
    if name not in below:
        below[name] = set(uses[name]).union(*(collect(it, uses, below) for it in uses[name]))
    return below[name]


def heights(uses):
    """Returns the row of each crate, from 0 at the bottom: one below the lowest crate that uses it."""
    depth = {}

    def lowest(name):
        """Returns one more than the greatest depth of the crates that a crate uses."""
        if name not in depth:
            depth[name] = 1 + max((lowest(it) for it in uses[name]), default=-1)
        return depth[name]

    for name in uses:
        lowest(name)
    for name in sorted(uses, key=lambda it: -depth[it]):
        users = [depth[it] for it in uses if name in uses[it]]
        depth[name] = min(users) - 1 if users else depth[name]
    return depth


def routed(uses, row):
    """Returns the rows with their nodes, and each line as a chain of nodes. A chain has a node in each row that it passes."""
    rows = {}
    for name, at in row.items():
        rows.setdefault(at, []).append(name)
    chains = []
    for name, used in uses.items():
        for other in used:
            passed = [(name, other, at) for at in range(row[name] - 1, row[other], -1)]
            chains.append([name, *passed, other])
            for node in passed:
                rows[node[2]].append(node)
    return rows, chains


def spread(nodes, wanted):
    """Returns places for the nodes of a row, in the order of the wanted places and far enough apart."""
    gap = lambda node: BOX[0] + 14 if isinstance(node, str) else 22
    nodes = sorted(nodes, key=lambda it: wanted[it])
    places, end = [], 0
    for node in nodes:
        at = max(wanted[node], end + gap(node) / 2)
        places.append(at)
        end = at + gap(node) / 2
    end = WIDTH
    for number in range(len(nodes) - 1, -1, -1):
        places[number] = min(places[number], end - gap(nodes[number]) / 2)
        end = places[number] - gap(nodes[number]) / 2
    return dict(zip(nodes, places))


def placed(rows, chains, kinds):
    """Returns the place of each node from left to right: near its neighbours in the rows above and below."""
    start = {'blue': 0.2, 'green': 0.85, 'yellow': 0.5}
    places = {node: WIDTH * start[kinds[node if isinstance(node, str) else node[1]]] for nodes in rows.values() for node in nodes}
    near = {node: [] for node in places}
    for chain in chains:
        for upper, lower in zip(chain, chain[1:]):
            near[upper].append(lower)
            near[lower].append(upper)
    for turn in range(60):
        for at in sorted(rows, reverse=turn % 2 == 0):
            wanted = {node: (places[node] + 2 * sum(places[it] for it in near[node])) / (1 + 2 * len(near[node])) for node in rows[at]}
            places.update(spread(rows[at], wanted))
    return places


def crates():
    """Draws the crates."""
    uses, kinds = crates_and_kinds()
    uses = direct(uses)
    row = heights(uses)
    rows, chains = routed(uses, row)
    places = placed(rows, chains, kinds)
    top = max(row.values())
    it = Picture(WIDTH, 48 + ROW * top + BOX[1], 'The crates: a line leads from a crate down to one that it uses')
    above = lambda at: 24 + ROW * (top - at)
    for first, *passed, last in chains:
        turns = [(places[node], above(node[2]) + down) for node in passed for down in (0, BOX[1])]
        it.path([(places[first], above(row[first]) + BOX[1]), *turns, (places[last], above(row[last]))])
    for name in uses:
        it.box(places[name] - BOX[0] / 2, above(row[name]), *BOX, f'`{name}`', kinds[name])
    return it

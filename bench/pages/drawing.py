"""Shapes for the pictures of the documents: boxes, texts, arrows and bars, as SVG that is legible on light and dark."""

from xml.sax.saxutils import escape

# Class: (colours on light, colours on dark). A shape has a fill and a stroke; a text has only a fill.
SHAPES = {
    'card': (('#ffffff', '#d0d7de'), ('#0d1117', '#30363d')),
    'plain': (('#f6f8fa', '#57606a'), ('#161b22', '#8b949e')),
    'blue': (('#ddf4ff', '#0969da'), ('#0c2d6b', '#58a6ff')),
    'green': (('#dafbe1', '#1a7f37'), ('#0f3d22', '#3fb950')),
    'red': (('#ffebe9', '#cf222e'), ('#5a1e1c', '#f85149')),
    'yellow': (('#fff8c5', '#9a6700'), ('#4b3a05', '#d29922')),
    'line': (('none', '#57606a'), ('none', '#8b949e'))}
TEXTS = {'text': ('#1f2328', '#e6edf3'), 'soft': ('#57606a', '#9da7b3')}
FONT = 'font-family="DejaVu Sans, Verdana, sans-serif"'


def style():
    """Returns the style sheet: the colours on light, and those on dark for a reader who prefers dark."""
    def rules(place):
        shapes = [f'.{name}{{fill:{it[place][0]};stroke:{it[place][1]}}}' for name, it in SHAPES.items()]
        texts = [f'.{name}{{fill:{it[place]}}}' for name, it in TEXTS.items()]
        return ''.join(shapes + texts + [f'.head{{fill:{SHAPES["line"][place][1]}}}'])
    return f'<style>{rules(0)}@media (prefers-color-scheme: dark){{{rules(1)}}}</style>'


class Picture:
    """A picture of a width and a height in pixels, with a title for readers who can't see the picture."""

    def __init__(self, width, height, title):
        self.width, self.height, self.title, self.parts = width, height, title, []

    def box(self, x, y, width, height, text='', kind='plain', radius=4, size=13):
        """Draws a box with the lines of a text in its middle."""
        self.parts.append(f'<rect class="{kind}" x="{x:g}" y="{y:g}" width="{width:g}" height="{height:g}" rx="{radius}"/>')
        self.lines(x + width / 2, y + height / 2, text, 'middle', size=size)

    def lines(self, x, y, text, anchor='start', kind='text', size=13):
        """Writes the lines of a text, centred on the height y. A line between backquotes is code."""
        lines = text.split('\n') if text else []
        first = y - (len(lines) - 1) * (size + 4) / 2 + size * 0.36
        for number, line in enumerate(lines):
            is_code = line.startswith('`')
            font = 'font-family="DejaVu Sans Mono, monospace"' if is_code else FONT
            self.parts.append(f'<text class="{kind}" x="{x:g}" y="{first + number * (size + 4):g}" font-size="{size - is_code}" '
                              f'{font} text-anchor="{anchor}">{escape(line.strip("`"))}</text>')

    def path(self, points, has_head=True, is_dashed=False):
        """Draws a line through points. With a head, the line is an arrow to the last point."""
        steps = ' '.join(f'{"L" if number else "M"}{x:g} {y:g}' for number, (x, y) in enumerate(points))
        dashes = ' stroke-dasharray="4 4"' if is_dashed else ''
        head = ' marker-end="url(#head)"' if has_head else ''
        self.parts.append(f'<path class="line" d="{steps}" stroke-width="1.4"{dashes}{head}/>')

    def svg(self):
        """Returns the picture as the text of an SVG file."""
        head = ('<marker id="head" viewBox="0 0 10 10" refX="9" refY="5" markerWidth="7" markerHeight="7" orient="auto">'
                '<path class="head" d="M0 0 L10 5 L0 10 z"/></marker>')
        card = f'<rect class="card" x="0.5" y="0.5" width="{self.width - 1}" height="{self.height - 1}" rx="8"/>'
        return '\n'.join([
            f'<svg xmlns="http://www.w3.org/2000/svg" width="{self.width}" height="{self.height}" '
            f'viewBox="0 0 {self.width} {self.height}" role="img" aria-label="{escape(self.title)}">',
            f'<title>{escape(self.title)}</title>', style(), f'<defs>{head}</defs>', card, *self.parts, '</svg>', ''])

"""Draws in SVG what terminals show. What they show is read by the oracle of the tests."""
import html
import itertools
import pathlib
import re
import sys

ROOT = pathlib.Path(__file__).resolve().parent.parent
sys.path.append(str(ROOT / 'tests'))
from oracle.terminal import Terminal

WIDTH, HEIGHT, EDGE = 9, 19, 12  # of a cell, and around the screen
COLOURS = ['#1c1f26', '#c0392b', '#2e9e5b', '#f2c94c', '#20488f', '#9b59b6', '#3fb5c4', '#e6e6e6']
FOREGROUND, BACKGROUND = '#d7dae0', '#1c1f26'  # the terminal's own
BOLD, REVERSE, DRAWN = 0x01, 0x10, 0x11


def show(sent, lines, columns):
    """A terminal that has read some bytes."""
    terminal = Terminal(lines, columns)
    offset = terminal.read(sent)
    if offset is not None:
        raise SystemExit(f'drawing: not in the profile of terminals, at {offset} of {sent}')
    return terminal


def colours(rendition):
    """The colours of a cell: its ink and its ground."""
    if rendition.attributes & ~DRAWN:
        raise SystemExit(f'no drawing has the attributes {rendition.attributes:02x}')
    ink = FOREGROUND if rendition.foreground is None else COLOURS[rendition.foreground]
    ground = BACKGROUND if rendition.background is None else COLOURS[rendition.background]
    return (ground, ink) if rendition.attributes & REVERSE else (ink, ground)


def runs(terminal, style):
    """Each run of cells of one style in a line: its place in the drawing, its text and style."""
    for y, line in enumerate(terminal.picture):
        x = 0
        for its, cells in itertools.groupby(line, key=lambda cell: style(cell.rendition)):
            text = ''.join(chr(cell.character) for cell in cells)
            yield EDGE + x * WIDTH, EDGE + y * HEIGHT, text, its
            x += len(text)


def size_of(terminal):
    return terminal.columns * WIDTH + 2 * EDGE, terminal.lines * HEIGHT + 2 * EDGE


def picture(terminal):
    """What draws the picture of a terminal. No text has a blank at an end, or two in a row: viewers leave such out, each
    in its own way. Grounds have sharp edges: with others lines come between them where the drawing is scaled."""
    width, height = size_of(terminal)
    parts = [f'<rect width="{width}" height="{height}" rx="8" fill="{BACKGROUND}"/>']
    parts.append('<g shape-rendering="crispEdges">')
    for x, y, text, ground in runs(terminal, lambda it: colours(it)[1]):
        if ground != BACKGROUND:
            size = f'width="{len(text) * WIDTH}" height="{HEIGHT}"'
            parts.append(f'<rect x="{x}" y="{y}" {size} fill="{ground}"/>')
    parts.append('</g>')
    for x, y, text, (ink, is_bold) in runs(terminal, lambda it: (colours(it)[0], it.attributes & BOLD)):
        style = f'fill="{ink}"' + (' font-weight="bold"' if is_bold else '')
        for word in re.finditer(r'[^ ]+(?: [^ ]+)*', text):
            place = f'x="{x + word.start() * WIDTH}" y="{y + 14}" textLength="{len(word[0]) * WIDTH}"'
            parts.append(f'<text {place} {style}>{html.escape(word[0], quote=False)}</text>')
    return '\n'.join(parts)


def drawing(width, height, title, *parts):
    """A whole drawing."""
    size = f'width="{width}" height="{height}" viewBox="0 0 {width} {height}"'
    return '\n'.join([
        f'<svg xmlns="http://www.w3.org/2000/svg" {size} role="img"',
        ' font-family="ui-monospace, SFMono-Regular, Menlo, Consolas, monospace" font-size="15">',
        f'<title>{title}</title>', *parts, '</svg>', ''])

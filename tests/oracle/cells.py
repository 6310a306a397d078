"""Limits, cells and colours: what a window holds at a place, and what a terminal shows of it."""
from typing import NamedTuple, Optional

LARGEST_PAD = 1000
MOST_WINDOWS = 1000
MOST_PANELS = 1000
FIRST_CHARACTER = 32
LAST_CHARACTER = 126
LAST_COLOUR = 7
LAST_PAIR = 63

SPACE = 32


class Cell(NamedTuple):
    """What a window holds at a place. Attributes are a sum of the six bits, and pair is a number."""
    character: int = SPACE
    attributes: int = 0
    pair: int = 0


class Rendition(NamedTuple):
    """How a terminal prints: attributes and two colours, each a number or None for the default."""
    attributes: int = 0
    foreground: Optional[int] = None
    background: Optional[int] = None

    def has_colour(self):
        return self.foreground is not None or self.background is not None


class Shown(NamedTuple):
    """What a terminal has at a place. Two pairs of the same colours show the same."""
    character: int = SPACE
    rendition: Rendition = Rendition()


BLANK = Cell()
BLANK_SHOWN = Shown()
PLAIN = Rendition()


def is_printable(character):
    return FIRST_CHARACTER <= character <= LAST_CHARACTER


def first_pairs():
    """The table of colour pairs of a new screen: all default."""
    return [(None, None)] * (LAST_PAIR + 1)


def shown(pairs, cell):
    """A cell in the colours that its pair has in the table."""
    return Shown(cell.character, Rendition(cell.attributes, *pairs[cell.pair]))


def blank_picture(lines, columns):
    """A picture: a list of lines, each a list of shown cells."""
    return [[BLANK_SHOWN] * columns for _ in range(lines)]


def changed_cells(before, after):
    """The cells of the second picture where the two differ."""
    return [new for old_line, new_line in zip(before, after)
            for old, new in zip(old_line, new_line) if old != new]

"""Which bytes of an update's text aren't needed: what docs/DECISIONS.md says of moves, selections, gaps and erasures."""
from .cells import BLANK_SHOWN
from .terminal import ATTRIBUTES_ON, ITEM, Terminal


def position(place):
    return b'\x1b[%d;%dH' % (place[0] + 1, place[1] + 1)


def selection_length(old, new):
    """How many bytes select a rendition where another one may be in force."""
    colours = [colour for colour in (new.foreground, new.background) if colour is not None]
    return 0 if new == old else 4 + 2 * sum(1 for bit in ATTRIBUTES_ON.values() if new.attributes & bit) + 3 * len(colours)


class Reading:
    """Reads the text of an update, after its opening, item by item."""

    def __init__(self, lines, columns, update):
        self.update = update
        self.terminal = Terminal(lines, columns)
        self.terminal.picture = [line[:] for line in update.before]
        self.terminal.cursor = update.cursor_before
        self.before = None      # the final byte of the item before
        self.gap = None         # how many unchanged cells were printed after a changed one; None where no gap may begin
        self.is_first = True    # nothing but unchanged cells was printed yet, from where the cursor was
        self.left_out = None    # a gap that a move left out: its cells, the rendition before it, and the bytes of the move and of what followed

    def is_changed(self, place):
        y, x = place
        return self.update.before[y][x] != self.update.after[y][x]

    def waste_of(self, item):
        """Why an item isn't needed, or None. Takes it."""
        final = item.group(2) or b''
        cursor, rendition, picture = self.terminal.cursor, self.terminal.rendition, [line[:] for line in self.terminal.picture]
        self.terminal.apply(item)
        waste = None
        left_out, self.left_out = self.left_out, None
        if final and final == self.before:
            waste = 'two in a row'
        elif final == b'':
            waste = self.waste_of_print(cursor)
        elif final == b'H':
            waste = 'a move to where the cursor is' if self.terminal.cursor == cursor else self.waste_of_end()
            self.left_out = self.gap_before(cursor, len(item.group()))
            self.gap, self.is_first = None, False
        elif final == b'm':
            waste = 'a selection of what is selected' if self.terminal.rendition == rendition else None
            self.left_out = left_out and (*left_out[:2], left_out[2] + len(item.group()))
        else:
            waste = self.waste_of_erasure(cursor, picture)
        self.before = final
        return waste or (left_out and final not in (b'H', b'm') and self.waste_of_move(*left_out)) or None

    def gap_before(self, start, length):
        """The gap that a move of so many bytes left out, if it went on from a changed cell in its line, over unchanged ones."""
        end = self.terminal.cursor
        if self.gap != 0 or start is None or start[0] != end[0] or start[1] >= end[1]:
            return None
        gap = range(start[1], end[1])
        if any(self.is_changed((start[0], x)) for x in gap):
            return None
        return [self.update.after[start[0]][x].rendition for x in gap], self.terminal.rendition, length

    def waste_of_move(self, gap, rendition, length):
        """A gap is printed again where that takes no more bytes than a move and its first cells have the rendition in force, the others the
        wanted one; or where it takes fewer and all have none."""
        wanted = self.terminal.rendition
        again = len(gap) + sum(selection_length(old, new) for old, new in zip([rendition, *gap], [*gap, wanted]))
        first = next((at for at, other in enumerate(gap) if other != rendition), len(gap))
        is_split = all(other == wanted for other in gap[first:])
        is_plain = all(other == BLANK_SHOWN.rendition for other in gap)
        return 'a move over a gap that is as short' if (is_split and again <= length) or (is_plain and again < length) else None

    def waste_of_print(self, cursor):
        if not self.is_changed(cursor):
            if self.gap is None and not self.is_first:
                return 'an unchanged cell that is in no gap'
            self.gap = (self.gap or 0) + 1
            return None
        is_long = (self.gap or 0) > len(position(cursor))
        self.gap, self.is_first = 0, False
        return 'a gap that is longer than a move' if is_long else None

    def waste_of_end(self):
        """A gap leads to a changed cell."""
        return 'a gap after which no changed cell stands' if self.gap else None

    def begins_blank_end(self, place):
        y, x = place
        return x == 0 or self.update.after[y][x - 1] != BLANK_SHOWN

    def waste_of_erasure(self, cursor, picture):
        if self.gap and not (self.is_changed(cursor) or self.begins_blank_end(cursor)):
            return 'a gap before an erasure that leads into the blank end'
        if self.gap and self.gap > len(position(cursor)):
            return 'a gap before an erasure that is longer than a move'
        self.gap, self.is_first = None, False
        erased = [(y, x) for y, line in enumerate(picture) for x, cell in enumerate(line) if self.terminal.picture[y][x] != cell]
        if not erased:
            return 'an erasure that changes nothing'
        if any(self.update.after[y][x] != BLANK_SHOWN for y, x in erased):
            return 'an erasure of what is wanted'
        return None


def waste_of(update, text, lines, columns):
    """Why a text, after its opening, has an item that isn't needed, or None."""
    reading = Reading(lines, columns, update)
    for item in ITEM.finditer(text):
        waste = reading.waste_of(item)
        if waste:
            return f'{waste}: {item.group()!r} at {item.start()}'
    return reading.waste_of_end()

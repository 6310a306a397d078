"""What the virtual screen takes, and what a terminal is sent of it."""
from typing import NamedTuple

from . import cells
from .cells import LAST_COLOUR, LAST_PAIR, changed_cells
from .copying import has_rectangle, rectangle_cells
from .making import there
from .refusals import E3, E5, E8, E9, E19, E20, refuse
from .world import STANDARD_SCREEN


def lay_over(world, drawing):
    """Lays cells over the virtual screen, in the colours that their pairs have now."""
    for (line, column), cell in drawing.items():
        world.virtual[line][column] = cells.shown(world.pairs, cell)
        world.affected.add(line)


def pass_clear_flag(world, window):
    world.clear = world.clear or window.clear
    window.clear = False


def noutrefresh(world, w):
    """Takes a window's touched columns, at its place on the screen, and its cursor."""
    window = there(world, w)
    refuse(window.is_pad(), E8)
    top, left = window.place
    lay_over(world, {(top + y, left + x): world.cell_at(w, y, x) for y, x in window.touched_places()})
    window.untouch()
    world.wanted_cursor = world.screen_cursor(w)
    pass_clear_flag(world, window)


def pnoutrefresh(world, w, pad_y, pad_x, top, left, bottom, right):
    """Takes a rectangle of a pad, touched or not. The cursor stays."""
    pad = there(world, w)
    refuse(not pad.is_pad(), E9)
    refuse(top > bottom or left > right, E19)
    lines, columns = bottom - top + 1, right - left + 1
    refuse(not has_rectangle(pad, pad_y, pad_x, lines, columns), E5)
    refuse(not has_rectangle(world.windows[STANDARD_SCREEN], top, left, lines, columns), E3)
    lay_over(world, rectangle_cells(world, w, pad_y, pad_x, top, left, bottom, right))
    for y in range(pad_y, pad_y + lines):
        pad.touched[y] = None
    pass_clear_flag(world, pad)


def update_panels(world):
    """Takes the picture. The fewest cells that this may read are the places that it changes, the most are all columns of the lines that
    calls affected since the last one."""
    picture = world.picture()
    world.counts.append((len(changed_cells(world.virtual, picture)), world.columns * len(world.affected)))
    world.virtual = picture
    world.wanted_cursor = world.screen_cursor(world.topmost())
    for w in [STANDARD_SCREEN] + [world.panels[p] for p in world.visible]:
        world.windows[w].untouch()
        pass_clear_flag(world, world.windows[w])
    world.affected = set()


class Update(NamedTuple):
    """A doupdate: whether it clears, what the terminal shows at its start and at its end, and how many bytes it may send."""
    clears: bool
    before: list
    cursor_before: tuple
    after: list
    cursor: tuple
    most_bytes: int

    def is_unchanged(self):
        return not changed_cells(self.before, self.after)


OPENING = b'\x1b[0m\x1b[2J\x1b[1;1H'


def doupdate(world):
    """Where the terminal isn't known, or a clear screen is wanted, it is cleared first."""
    clears = world.shown is None or world.clear
    before, cursor = (cells.blank_picture(world.lines, world.columns), (0, 0)) if clears else world.shown
    changed = changed_cells(before, world.virtual)
    coloured = [cell for cell in changed if cell.rendition.has_colour()]
    after = [line[:] for line in world.virtual]
    most = 27 * len(changed) + 6 * len(coloured) + 14 + (len(OPENING) if clears else 0)
    world.updates.append(Update(clears, before, cursor, after, world.wanted_cursor, most))
    world.shown = (after, world.wanted_cursor)
    world.clear = False


def init_pair(world, pair, foreground, background):
    """No cell changes, nor what the virtual screen has already."""
    refuse(not (1 <= pair <= LAST_PAIR and foreground <= LAST_COLOUR and background <= LAST_COLOUR), E20)
    world.pairs[pair] = (foreground, background)
    world.affected.update(range(world.lines))

"""Making, placing and deleting windows and pads, and what they answer of themselves."""
from .cells import LARGEST_PAD, MOST_WINDOWS
from .refusals import E1, E3, E4, E5, E6, E7, E8, E9, E10, E11, E14, E17, refuse
from .world import STANDARD_SCREEN, Window


def there(world, w):
    """The window of a number; the call is refused where there is none."""
    refuse(w not in world.windows, E1)
    return world.windows[w]


def lies_in(y, x, lines, columns, all_lines, all_columns):
    """Whether a rectangle has a cell and lies wholly in another."""
    return lines > 0 and columns > 0 and 0 <= y and 0 <= x and y + lines <= all_lines and x + columns <= all_columns


def extent(size, position, end):
    """A size of 0 reaches to the edge."""
    return size if size != 0 else end - position


def least_free(taken):
    number = 1
    while number in taken:
        number += 1
    return number


def with_number(world, window):
    """Gives a new window the least free number."""
    number = least_free(world.windows)
    world.windows[number] = window
    return number


def is_full(world):
    return len(world.windows) - 1 >= MOST_WINDOWS


def newwin(world, nlines, ncols, y, x):
    lines, columns = extent(nlines, y, world.lines), extent(ncols, x, world.columns)
    refuse(not lies_in(y, x, lines, columns, world.lines, world.columns), E3)
    refuse(is_full(world), E17)
    return with_number(world, Window(lines, columns, (y, x)))


def derive(world, w, nlines, ncols, offset):
    """A window that shows a part of another, from an offset on."""
    parent = world.windows[w]
    lines, columns = extent(nlines, offset[0], parent.lines), extent(ncols, offset[1], parent.columns)
    refuse(not lies_in(*offset, lines, columns, parent.lines, parent.columns), E4)
    refuse(is_full(world), E17)
    place = None if parent.is_pad() else (parent.place[0] + offset[0], parent.place[1] + offset[1])
    return with_number(world, Window(lines, columns, place, w, offset))


def subwin(world, w, nlines, ncols, y, x):
    parent = there(world, w)
    refuse(parent.is_pad(), E8)
    return derive(world, w, nlines, ncols, (y - parent.place[0], x - parent.place[1]))


def derwin(world, w, nlines, ncols, y, x):
    refuse(there(world, w).is_pad(), E8)
    return derive(world, w, nlines, ncols, (y, x))


def newpad(world, nlines, ncols):
    refuse(not (1 <= nlines <= LARGEST_PAD and 1 <= ncols <= LARGEST_PAD), E11)
    refuse(is_full(world), E17)
    return with_number(world, Window(nlines, ncols, None))


def subpad(world, w, nlines, ncols, y, x):
    refuse(not there(world, w).is_pad(), E9)
    return derive(world, w, nlines, ncols, (y, x))


def delwin(world, w):
    there(world, w)
    refuse(w == STANDARD_SCREEN, E14)
    refuse(world.is_in_panel(w), E7)
    refuse(any(window.parent == w for window in world.windows.values()), E6)
    del world.windows[w]


def is_off_screen(world, window, y, x):
    return not lies_in(y, x, window.lines, window.columns, world.lines, world.columns)


def mvwin(world, w, y, x):
    """No other window moves, and no offset changes."""
    window = there(world, w)
    refuse(w == STANDARD_SCREEN, E14)
    refuse(window.is_pad(), E8)
    refuse(world.is_in_panel(w), E7)
    refuse(is_off_screen(world, window, y, x), E3)
    window.place = (y, x)


def mvderwin(world, w, y, x):
    """Changes the offset alone. The windows derived from this one follow through their chain."""
    window = there(world, w)
    refuse(window.parent is None, E10)
    parent = world.windows[window.parent]
    refuse(not lies_in(y, x, window.lines, window.columns, parent.lines, parent.columns), E4)
    window.offset = (y, x)
    for u in {world.panels[p] for p in world.visible}:
        if u == w or w in world.ancestors(u):
            world.affected.update(world.windows[u].screen_lines())


def getyx(world, w):
    return there(world, w).cursor


def getbegyx(world, w):
    refuse(there(world, w).is_pad(), E8)
    return world.windows[w].place


def getmaxyx(world, w):
    window = there(world, w)
    return window.lines, window.columns


def getparyx(world, w):
    refuse(there(world, w).parent is None, E10)
    return world.windows[w].offset


def inch(world, w):
    return world.cell_at(w, *there(world, w).cursor)


def is_linetouched(world, w, y):
    window = there(world, w)
    refuse(y >= window.lines, E5)
    return window.touched[y] is not None


def is_wintouched(world, w):
    return any(run is not None for run in there(world, w).touched)

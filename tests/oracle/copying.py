"""Copies from window to window, and marks of what was touched."""
from .cells import SPACE
from .making import there
from .refusals import E5, E8, E19, refuse


def without_spaces(drawing):
    """What an overlay leaves of a drawing."""
    return {place: cell for place, cell in drawing.items() if cell.character != SPACE}


def common_cells(world, src, dst):
    """The cells that the source shows at the places of the screen that both cover, by the destination's places."""
    for w in (src, dst):
        there(world, w)
    source, window = there(world, src), there(world, dst)
    refuse(source.is_pad() or window.is_pad(), E8)
    top, left = window.place
    return {(y, x): world.cell_on_screen(src, top + y, left + x) for y in range(window.lines) for x in range(window.columns)
            if source.holds(top + y, left + x)}


def overlay(world, src, dst):
    world.put(dst, without_spaces(common_cells(world, src, dst)))


def overwrite(world, src, dst):
    world.put(dst, common_cells(world, src, dst))


def rectangle_cells(world, src, sy, sx, dy, dx, last_y, last_x):
    """The cells of a rectangle of the source, by the places of the destination from (dy, dx) to (last_y, last_x)."""
    return {(y, x): world.cell_at(src, sy + y - dy, sx + x - dx) for y in range(dy, last_y + 1) for x in range(dx, last_x + 1)}


def has_rectangle(window, y, x, lines, columns):
    return window.has_place(y, x) and window.has_place(y + lines - 1, x + columns - 1)


def copywin(world, src, dst, sy, sx, dy, dx, last_y, last_x, is_overlay):
    """The drawing is made before the first write, so it has no cell that the copy itself wrote."""
    source, window = there(world, src), there(world, dst)
    refuse(dy > last_y or dx > last_x, E19)
    lines, columns = last_y - dy + 1, last_x - dx + 1
    refuse(not (has_rectangle(window, dy, dx, lines, columns) and has_rectangle(source, sy, sx, lines, columns)), E5)
    drawing = rectangle_cells(world, src, sy, sx, dy, dx, last_y, last_x)
    world.put(dst, without_spaces(drawing) if is_overlay else drawing)


def touchln(world, w, y, count, flag):
    """The first line must be there also for a count of 0."""
    window = there(world, w)
    refuse(y >= window.lines or count > window.lines - y, E5)
    for line in range(y, y + count):
        if flag:
            window.touch_line(line)
        else:
            window.touched[line] = None


def touchline(world, w, y, count):
    touchln(world, w, y, count, True)


def touchwin(world, w):
    touchln(world, w, 0, there(world, w).lines, True)


def untouchwin(world, w):
    there(world, w).untouch()


def leads_of(world, w, places):
    return {world.own(w, y, x) for y, x in places}


def touch_where(world, w, leads):
    """Touches the places of a window that lead to one of these."""
    if not leads:
        return
    window = world.windows[w]
    _, top, left = world.own(w, 0, 0)
    for owner, line, column in leads:
        if world.own(w, 0, 0)[0] == owner and window.has_place(line - top, column - left):
            window.touch(line - top, column - left)


def syncup(world, w):
    """Touches each ancestor where it shows what is touched of the window itself: an ancestor's own marks go no further up."""
    leads = leads_of(world, w, there(world, w).touched_places())
    for u in world.ancestors(w):
        touch_where(world, u, leads)


def syncdown(world, w):
    """Touches the window where it shows what is touched of an ancestor."""
    there(world, w)
    for leads in [leads_of(world, u, world.windows[u].touched_places()) for u in world.ancestors(w)]:
        touch_where(world, w, leads)

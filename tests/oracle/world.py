"""The world: windows, panels, colour pairs and the virtual screen, and which cells windows share."""
from . import cells
from .cells import BLANK, Cell

STANDARD_SCREEN = 0


class Window:
    """A rectangle of cells with a cursor and settings. It has a grid of its own, or shows a part of its parent."""

    def __init__(self, lines, columns, place, parent=None, offset=(0, 0)):
        self.lines = lines
        self.columns = columns
        self.place = place          # on the screen; None of a pad
        self.parent = parent        # a window's number, or None
        self.offset = offset        # in the parent
        self.grid = {}              # cells that aren't blank, by place, where there is no parent
        self.cursor = (0, 0)
        self.region = (0, lines - 1)
        self.attributes = 0
        self.background = BLANK
        self.pair = 0
        self.is_scrolling = False
        self.clear = False
        self.touched = [None] * lines   # of each line the first and the last touched column, or None

    def is_pad(self):
        return self.place is None

    def has_place(self, y, x):
        return 0 <= y < self.lines and 0 <= x < self.columns

    def holds(self, line, column):
        """Whether a place of the screen lies in the window's rectangle."""
        return self.has_place(line - self.place[0], column - self.place[1])

    def screen_lines(self):
        return range(self.place[0], self.place[0] + self.lines)

    def touch(self, y, x):
        first, last = self.touched[y] or (x, x)
        self.touched[y] = (min(first, x), max(last, x))

    def touch_line(self, y):
        self.touched[y] = (0, self.columns - 1)

    def untouch(self):
        self.touched = [None] * self.lines

    def touched_places(self):
        """The places from the first to the last touched column of each line."""
        return [(y, x) for y, run in enumerate(self.touched) if run for x in range(run[0], run[1] + 1)]


class World:
    """All that the calls change."""

    def __init__(self, lines, columns):
        self.lines = lines
        self.columns = columns
        self.windows = {STANDARD_SCREEN: Window(lines, columns, (0, 0))}
        self.visible = []           # panels, from bottom to top
        self.panels = {}            # of each panel, visible or hidden, its window
        self.pairs = cells.first_pairs()
        self.virtual = cells.blank_picture(lines, columns)
        self.wanted_cursor = (0, 0)
        self.clear = False
        self.shown = None           # picture and cursor that the terminal shows, where they are known
        self.affected = set()       # lines of the screen that calls affected since the last update_panels
        self.frame = None           # what the call that is being made wrote: a window, and first and last lines and columns
        self.counts = []            # of each update_panels the fewest and the most cells that it may read
        self.updates = []           # each doupdate

    def own(self, w, y, x):
        """Where a place of a window leads: a window with a grid, and a place in that."""
        window = self.windows[w]
        if window.parent is None:
            return w, y, x
        return self.own(window.parent, y + window.offset[0], x + window.offset[1])

    def cell_at(self, w, y, x):
        owner, line, column = self.own(w, y, x)
        return self.windows[owner].grid.get((line, column), BLANK)

    def cell_on_screen(self, w, line, column):
        """The cell that a window shows at a place of the screen."""
        top, left = self.windows[w].place
        return self.cell_at(w, line - top, column - left)

    def ancestors(self, w):
        parent = self.windows[w].parent
        return [] if parent is None else [parent] + self.ancestors(parent)

    def put(self, w, drawing):
        """The one way to write: each place of the drawing gets its cell in the grid to which it leads, and is touched in this window
        and in no other."""
        window = self.windows[w]
        for (y, x), cell in drawing.items():
            owner, line, column = self.own(w, y, x)
            self.windows[owner].grid[line, column] = Cell(*cell)
            window.touch(y, x)
        self.widen_frame(w, drawing)

    def widen_frame(self, w, places):
        """Joins the smallest rectangle of some places to what the call wrote before."""
        if not places:
            return
        ys, xs = [y for y, _ in places], [x for _, x in places]
        if self.frame:
            ys += self.frame[1:3]
            xs += self.frame[3:5]
        self.frame = (w, min(ys), max(ys), min(xs), max(xs))

    def lines_that_show_frame(self):
        """The lines of the screen on which the standard screen or a visible panel's window, covered or not, shows a cell of the frame."""
        w, top, bottom, left, right = self.frame
        owner, line, column = self.own(w, 0, 0)
        for u in [STANDARD_SCREEN] + [self.panels[p] for p in self.visible]:
            window = self.windows[u]
            other, first, start = self.own(u, 0, 0)
            for y in range(window.lines):
                same_line = top <= first + y - line <= bottom
                if other == owner and same_line and start <= column + right and column + left < start + window.columns:
                    yield window.place[0] + y

    def owner_of(self, line, column):
        """The window that is seen at a place: that of the first visible panel from the top which holds it, or the standard screen."""
        for p in reversed(self.visible):
            if self.windows[self.panels[p]].holds(line, column):
                return self.panels[p]
        return STANDARD_SCREEN

    def picture(self):
        """At each place what the search from the top finds, in the colours of its pair."""
        return [[cells.shown(self.pairs, self.cell_on_screen(self.owner_of(y, x), y, x)) for x in range(self.columns)]
                for y in range(self.lines)]

    def screen_cursor(self, w):
        window = self.windows[w]
        return window.place[0] + window.cursor[0], window.place[1] + window.cursor[1]

    def topmost(self):
        return self.panels[self.visible[-1]] if self.visible else STANDARD_SCREEN

    def is_in_panel(self, w):
        return w in self.panels.values()

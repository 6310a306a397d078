"""What follows each word of a script: arguments that the world accepts, mostly, and some that it doesn't."""
from oracle.table import TABLE
from oracle.world import STANDARD_SCREEN

WILD_NUMBERS = (0, 1, 2, 63, 64, 255, 256, 998, 999, 1000, 1001, 32767, 32768, 65535)
LETTERS = b'abcdefgXYZ0123456789.,:;+-|#"\'~!'


def size_of(window):
    return window.lines, window.columns


class Arguments:
    """Chooses arguments by chance, looking at a world."""

    def __init__(self, chance, world, wildness):
        self.chance = chance
        self.world = world
        self.wildness = wildness    # how often a number is any number
        self.last = STANDARD_SCREEN # the window that was chosen last, which is often chosen again
        self.spaces = chance.choice((0.1, 0.3, 0.7))
        self.longest_text = chance.choice((3, 8, 30, 200))

    def of(self, word):
        """The arguments of a word, numbers and bytes."""
        maker = getattr(self, 'for_' + word, None)
        return [self.maybe_wild(it) for it in (maker() if maker else self.by_types(word))]

    def by_types(self, word):
        """Arguments by their names and types; places are of a window that comes first."""
        said = []
        for name, kind in TABLE[word].arguments:
            window = self.window_of(said[0] if said else None)
            by_name = {'pair': self.a_pair, 'x': lambda: self.near(window.columns)}
            said.append(by_name[name]() if name in by_name else self.by_type(kind, window))
        return said

    def by_type(self, kind, window):
        """An argument of a type. A number is that of a line of the window."""
        makers = {'window': self.a_window, 'panel': self.a_panel, 'panel_or_none': self.a_panel_or_none, 'flag': self.a_flag, 'attributes': self.attributes,
                  'character': self.character, 'colour': lambda: self.chance.randrange(8), 'number': lambda: self.near(window.lines),
                  'signed': lambda: self.chance.randint(-window.lines, window.lines)}
        return makers[kind]()

    def maybe_wild(self, said):
        if isinstance(said, int) and not isinstance(said, bool) and self.chance.random() < self.wildness:
            return self.chance.choice(WILD_NUMBERS + (max(said - 1, 0), said + 1))
        return said

    # Numbers.

    def near(self, count):
        """A number below a count, often the first or the last."""
        kind = self.chance.random()
        if kind < 0.2 or count <= 1:
            return 0
        return count - 1 if kind < 0.45 else self.chance.randrange(count)

    def run(self, count):
        """A first and a last number below a count."""
        first, last = sorted((self.near(count), self.near(count)))
        return first, last

    def length(self, count):
        """A number from 0 to a count."""
        return self.near(count + 1)

    def a_window(self, is_wanted=lambda w, window: True):
        """The number of a window that is wanted, if there is one, and sometimes of another one."""
        windows = [w for w, window in self.world.windows.items() if is_wanted(w, window)]
        if self.chance.random() < self.wildness:
            return self.chance.choice([*self.world.windows, len(self.world.windows)])
        windows = windows or list(self.world.windows)
        if self.last not in windows or self.chance.random() < 0.6:
            self.last = self.chance.choice(windows + windows[-2:])
        return self.last

    def window_of(self, w):
        return self.world.windows.get(w, self.world.windows[STANDARD_SCREEN])

    def on_screen(self, w):
        """A place of the screen at which a window of this size lies on it."""
        window = self.window_of(w)
        return self.near(self.world.lines - window.lines + 1), self.near(self.world.columns - window.columns + 1)

    def a_panel(self):
        if not self.world.panels or self.chance.random() < self.wildness:
            return self.chance.randrange(len(self.world.panels) + 2)
        return self.chance.choice(list(self.world.panels))

    def a_panel_or_none(self):
        return b'none' if self.chance.random() < 0.3 else self.a_panel()

    # Making and placing.

    def stretch(self, count):
        """A first line or column of so many, and a number of them from there on."""
        first = 0 if self.chance.random() < 0.4 else self.near(count)
        rest = max(count - first, 1)
        return first, rest if self.chance.random() < 0.3 else self.chance.randint(1, rest)

    def part(self, lines, columns):
        """A rectangle within so many lines and columns: size and place. A size of 0 reaches to the edge."""
        (y, nlines), (x, ncols) = self.stretch(lines), self.stretch(columns)
        if self.chance.random() < 0.2:
            nlines = 0
        if self.chance.random() < 0.2:
            ncols = 0
        return nlines, ncols, y, x

    def most_of(self, w):
        """A rectangle within a window which lacks few of its lines and columns: size and place."""
        size = size_of(self.window_of(w))
        place = [min(self.chance.choice((0, 1, 1, 2)), count - 1) for count in size]
        return [*(max(count - first - self.chance.choice((0, 0, 1)), 1) for count, first in zip(size, place)), *place]

    def for_newwin(self):
        return self.part(self.world.lines, self.world.columns)

    def for_derwin(self):
        w = self.a_window(lambda w, window: not window.is_pad())
        return [w, *(self.most_of(w) if self.chance.random() < 0.3 else self.part(*size_of(self.window_of(w))))]

    def for_subwin(self):
        w, nlines, ncols, y, x = self.for_derwin()
        top, left = self.window_of(w).place or (0, 0)
        return [w, nlines, ncols, top + y, left + x]

    def for_subpad(self):
        w = self.a_window(lambda w, window: window.is_pad())
        return [w, *self.part(*size_of(self.window_of(w)))]

    def for_newpad(self):
        kind = self.chance.random()
        if kind < 0.05:
            return [self.chance.choice((999, 1000, 1001)), self.chance.randint(1, 4)]
        if kind < 0.1:
            return [self.chance.randint(1, 4), self.chance.choice((999, 1000, 1001))]
        return [self.chance.randint(1, 2 * min(self.world.lines, 12)), self.chance.randint(1, 2 * min(self.world.columns, 20))]

    def for_delwin(self):
        if self.chance.random() < 0.3:
            return [self.a_window()]
        hidden = [w for p, w in self.world.panels.items() if p not in self.world.visible]
        if hidden and self.chance.random() < 0.3:
            return [self.chance.choice(hidden)]
        parents = {window.parent for window in self.world.windows.values()}
        return [self.a_window(lambda w, window: w and w not in parents and not self.world.is_in_panel(w))]

    def for_mvwin(self):
        w = self.a_window(lambda w, window: w and not window.is_pad() and not self.world.is_in_panel(w))
        return [w, *self.on_screen(w)]

    def for_mvderwin(self):
        w = self.a_window(lambda w, window: window.parent is not None)
        window = self.window_of(w)
        parent = self.window_of(window.parent)
        return [w, self.near(parent.lines - window.lines + 1), self.near(parent.columns - window.columns + 1)]

    def for_getparyx(self):
        return [self.a_window(lambda w, window: window.parent is not None)]

    # Writing.

    def character(self, others=b'\n\r\b'):
        kind = self.chance.random()
        if kind < self.spaces:
            return b' '
        if kind > 0.99:
            return self.chance.choice((b'\x07', b'\x7f', b'\xff', b'\x1b', b'\x00'))
        if kind > 0.9 and others:
            return self.chance.choice((others[0:1], others[0:1], others[1:2], others[2:3]))
        return bytes([self.chance.choice(LETTERS + b'\\' if kind < 0.85 else range(32, 127))])

    def for_addstr(self):
        longest = self.chance.choice((1, 4, self.longest_text))
        return [self.a_window(), b''.join(self.character() for _ in range(self.chance.randint(0, longest)))]

    def several_lines(self):
        """A text of some short lines."""
        return b'\n'.join(b''.join(self.character(b'') for _ in range(self.chance.randint(0, 5))) for _ in range(self.chance.randint(2, 4)))

    def for_insch(self):
        return [self.a_window(), self.character(self.chance.choice((b'', b'\n\r\b')))]

    def for_scrl(self):
        w = self.a_window(lambda w, window: window.is_scrolling)
        lines = self.window_of(w).lines
        return [w, self.chance.choice((1, -1, self.chance.randint(-lines - 1, lines + 1), 32767, -32767, 0))]

    def for_setscrreg(self):
        w = self.a_window()
        first, last = self.run(self.window_of(w).lines)
        return [w, last, first] if self.chance.random() < 0.1 else [w, first, last]

    def a_flag(self):
        return self.chance.random() < 0.75

    def attributes(self):
        return f'{self.chance.choice((0, 1, 2, 4, 8, 16, 32, 63, self.chance.randrange(64))):02x}'.encode()

    def a_pair(self):
        return self.chance.choice((0, 1, 2, 3, 63, self.chance.randrange(66)))

    # Copies and marks.

    def two_windows(self, is_wanted=lambda w, window: True):
        """Often a window and itself, or another that shares its cells."""
        src = self.a_window(is_wanted)
        kind = self.chance.random()
        if kind < 0.35:
            return src, src
        family = [w for w in self.world.windows if w != src and self.are_of_one_grid(src, w)]
        return src, self.chance.choice(family) if family and kind < 0.75 else self.a_window(is_wanted)

    def are_of_one_grid(self, src, dst):
        """Whether two windows are there, and lead to one grid."""
        world = self.world
        return src in world.windows and dst in world.windows and world.own(src, 0, 0)[0] == world.own(dst, 0, 0)[0]

    def for_overlay(self):
        """Often two windows that lie over each other, and share no cell."""
        src, dst = self.two_windows(lambda w, window: not window.is_pad())
        others = [w for w, window in self.world.windows.items() if not window.is_pad() and self.meets(src, w)]
        return src, self.chance.choice(others) if others and self.chance.random() < 0.6 else dst

    def meets(self, src, dst):
        """Whether two windows have a place of the screen in common, and lead to different grids."""
        if src not in self.world.windows or self.world.own(src, 0, 0)[0] == self.world.own(dst, 0, 0)[0]:
            return False
        source, window = self.world.windows[src], self.world.windows[dst]
        return not source.is_pad() and any(source.holds(y, x) for y in window.screen_lines()
                                           for x in (window.place[1], window.place[1] + window.columns - 1, source.place[1])
                                           if window.holds(y, x))

    for_overwrite = for_overlay

    def copied(self, source, target, apart):
        """How many lines or columns are copied, from where and to where. Often it is not far, counted from where the windows begin in the
        grid that they share."""
        shift = apart + self.chance.choice((-1, -1, 0, 1, 1))
        first, end = max(0, -shift), min(source, target - shift)
        if first < end and self.chance.random() < 0.7:
            count = self.some_of(end - first)
            start = first + self.near(end - first - count + 1)
            return count, start, start + shift
        if source == target > 2 and self.chance.random() < 0.5:
            return (source - 1, *self.chance.choice(((0, 1), (1, 0))))
        count = self.some_of(min(source, target))
        return count, self.near(source - count + 1), self.near(target - count + 1)

    def some_of(self, count):
        """How many of so many, mostly more than one and not all."""
        if count > 1 and self.chance.random() < 0.6:
            return self.chance.randint(2, max(count - 1, 2))
        return 1 + self.near(count)

    def apart(self, src, dst):
        """How many lines and columns a window begins after another in a grid that both share."""
        if not self.are_of_one_grid(src, dst):
            return 0, 0
        (_, line, column), (_, to_line, to_column) = self.world.own(src, 0, 0), self.world.own(dst, 0, 0)
        return line - to_line, column - to_column

    def for_copywin(self):
        src, dst = self.two_windows()
        source, window = self.window_of(src), self.window_of(dst)
        down, right = self.apart(src, dst)
        lines, sy, dy = self.copied(source.lines, window.lines, down)
        columns, sx, dx = self.copied(source.columns, window.columns, right)
        return [src, dst, sy, sx, dy, dx, dy + lines - 1, dx + columns - 1, self.a_flag()]

    def for_touchline(self):
        w = self.a_window()
        lines = self.window_of(w).lines
        y = self.near(lines + 1) if self.chance.random() < self.wildness else self.near(lines)
        return [w, y, self.length(max(lines - y, 0))]

    def for_touchln(self):
        return [*self.for_touchline(), self.a_flag()]

    def for_syncup(self):
        return [self.a_window(lambda w, window: window.parent is not None)]

    for_syncdown = for_syncup

    # Panels.

    def free_windows(self):
        """The windows that a panel may have."""
        return [w for w, window in self.world.windows.items() if w and not window.is_pad() and not self.world.is_in_panel(w)]

    def free_window(self):
        free = self.free_windows()
        return self.a_window(lambda w, window: w in free)

    def for_new_panel(self):
        return [self.free_window()]

    def for_move_panel(self):
        p = self.a_panel()
        return [p, *self.on_screen(self.world.panels.get(p))]

    def for_replace_panel(self):
        return [self.a_panel(), self.free_window()]

    # Refresh.

    def for_noutrefresh(self):
        return [self.a_window(lambda w, window: not window.is_pad())]

    def for_pnoutrefresh(self):
        w = self.a_window(lambda w, window: window.is_pad())
        pad = self.window_of(w)
        lines = 1 + self.near(min(pad.lines, self.world.lines))
        columns = 1 + self.near(min(pad.columns, self.world.columns))
        top, left = self.near(self.world.lines - lines + 1), self.near(self.world.columns - columns + 1)
        return [w, self.near(pad.lines - lines + 1), self.near(pad.columns - columns + 1), top, left, top + lines - 1, left + columns - 1]

    def for_init_pair(self):
        used = [window.pair or window.background.pair for window in self.world.windows.values()]
        return [self.chance.choice((1, 2, 3, 63, self.chance.randrange(66), max(used), self.chance.choice(used))), self.chance.choice((0, 1, 2, 7, 8)), self.chance.randrange(8)]

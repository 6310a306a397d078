"""Writes scripts: a walk through the calls, which the oracle makes as they are written, so that arguments fit the world."""
from oracle.calls import CALLS
from oracle.running import Run
from oracle.script import LONGEST_LINE
from oracle.table import TABLE

from .arguments import LETTERS, Arguments
from .spoiling import quiet_line, spoiled

COPIES = ['overlay', 'overwrite', 'copywin']


def theme_of(call):
    """The theme of a call: its group, of which those that set something, and those on panels that ask, are themes of their own."""
    if any(name in ('attrs', 'pair', 'flag') for name, _ in call.arguments) and call.group in ('Writing', 'Refresh'):
        return 'settings'
    return 'neighbours' if call.asks and call.group == 'Stacking' else call.group


def themes():
    """The words of each theme, and of two more those that scripts are to have most."""
    words = {'texts': 'move addch addstr addstr addstr'.split(), 'copies': COPIES * 2 + ['copywin']}
    for word, call in TABLE.items():
        words.setdefault(theme_of(call), []).append(word)
    return words


GROUPS = themes()
PLACED = [word for word, call in TABLE.items() if call.draws and word not in ('erase', 'clear', 'scrl')] + ['inch']     # at the cursor
WITH_EFFECTS = COPIES + GROUPS['settings']   # of which a window then shows what they did
UP = (b'update_panels', b'doupdate')
ESCAPED = {10: b'\\n', 13: b'\\r', 8: b'\\b', 92: b'\\\\'}


def size(chance, beginning):
    """Lines and columns of a screen: small ones, in which much meets much, and some at the limits."""
    if beginning == Walk.fill_screen:
        return chance.choice(((24, 500), (100, 120)))
    if beginning == Walk.family:
        return chance.randint(3, 9), chance.randint(3, 20)
    if beginning == Walk.spread:
        return chance.choice(((1, 40), (12, 40), (2, 120), (101, 104)))
    kind = chance.random()
    if beginning == Walk.crowd and kind < 0.5:
        return chance.randint(1, 3), chance.choice((257, 300, 513))
    if kind < 0.6:
        return chance.randint(1, 6), chance.randint(1, 12)
    if kind < 0.9:
        return chance.randint(1, 12), chance.randint(1, 40)
    return chance.choice(((1, 999), (999, 1), (2, 300), (120, 2), (1, 1), (1, 100), (11, 101)))


def spelled(chance, text):
    """A text as a script has it, each byte by an escape where it must be, and sometimes where it needn't."""
    return b''.join(ESCAPED[byte] if byte in ESCAPED and chance.random() < 0.9
                    else b'\\x%02x' % byte if not 32 <= byte <= 126 or byte == 92 or chance.random() < 0.02 else bytes([byte])
                    for byte in text)


def word_of(chance, said, form):
    """An argument as a script has it."""
    if form in ('text', 'character'):
        return spelled(chance, said)
    if isinstance(said, bool):
        return b'on' if said else b'off'
    return said if isinstance(said, bytes) else str(said).encode()


class Walk:
    """A script that is being written, and its run."""

    def __init__(self, chance):
        self.chance = chance
        self.beginning = beginning_of(chance)
        self.lines, self.columns = size(chance, self.beginning)
        self.run = Run(self.lines, self.columns)
        self.arguments = Arguments(chance, self.run.world, chance.choice((0.0, 0.02, 0.02, 0.15)))
        self.written = []
        self.words = self.weighted_words()
        self.updating = chance.choice((0.05, 0.15, 0.3))
        self.filling = chance.choice((0, 0.5, 0.9))

    def weighted_words(self):
        """Each script has a liking of its own for some groups of calls, and for some calls."""
        words = []
        theme = self.chance.choice(list(GROUPS))
        for name, group in GROUPS.items():
            liking = self.chance.choice((0, 1, 1, 2, 3)) + (name == 'texts') + 5 * (name == theme)
            for word in group:
                words += [word] * (liking * self.chance.choice((0, 1, 1, 3)))
        return words or ['addstr']

    def line_of(self, word):
        said = self.arguments.of(word)
        forms = CALLS[word][0]
        return b' '.join([word.encode(), *(word_of(self.chance, *pair) for pair in zip(said, forms))])

    def next_word(self):
        world = self.run.world
        if len(world.windows) < 4 and self.chance.random() < 0.4:
            return self.chance.choice(('newwin', 'newwin', 'derwin', 'subwin', 'newpad'))
        if len(world.panels) < 3 and self.arguments.free_windows() and self.chance.random() < 0.3:
            return 'new_panel'
        return self.chance.choice(self.words)

    def write(self, line):
        if len(line) <= LONGEST_LINE and self.run.take(line):
            self.written.append(line)

    def step(self):
        kind = self.chance.random()
        if kind < 0.02:
            self.write(quiet_line(self.chance))
            return
        if kind < 0.03:
            self.chance.choice((self.draw_anew, self.colour_anew))()
            return
        word = self.next_word()
        for _ in range(self.chance.choice((1,) * 9 + (4,))):
            self.call(word)

    def call(self, word):
        """Writes a call, and perhaps what shows its effect."""
        before = list(self.run.world.windows)
        if word in PLACED and self.chance.random() < 0.3:
            self.write(self.line_of('move'))
        self.write(self.line_of(word))
        for w in self.run.world.windows:
            if w not in before and self.chance.random() < self.filling:
                self.fill(w)
        if word in WITH_EFFECTS and self.chance.random() < 0.6 and self.arguments.last in self.run.world.windows:
            self.show_effect(word)
        if word in ('clear', 'clearok') and self.chance.random() < 0.5:
            self.write(b'noutrefresh %d' % self.arguments.last)
            self.write(self.line_of('noutrefresh'))
            self.write(b'doupdate')
        if word.endswith('noutrefresh') and self.chance.random() < 0.5:
            self.write(b'doupdate')
        if word in ('syncup', 'syncdown', 'mvderwin'):
            self.ask_marks(list(self.run.world.windows))
        if self.chance.random() < self.updating * (3 if word.endswith('_panel') else 1):
            self.update()

    def fill(self, w):
        """Writes in all of a new window, and perhaps lets it scroll."""
        window = self.run.world.windows[w]
        letters = self.letters(min(window.lines * window.columns, 400))
        self.write(b'addstr %d %b' % (w, spelled(self.chance, letters)))
        if self.chance.random() < 0.4:
            first, last = self.arguments.run(window.lines)
            self.write(b'scrollok %d on' % w)
            self.write(b'setscrreg %d %d %d' % (w, first, last))
            self.write(b'move %d %d %d' % (w, last, self.arguments.near(window.columns)))
            self.write(b'addstr %d %b' % (w, spelled(self.chance, self.arguments.several_lines())))
        else:
            self.write(self.line_of('move'))
            self.write(self.line_of(self.chance.choice(PLACED)))

    def show_effect(self, word):
        """Asks of the window what it holds, or lets a setting have an effect first."""
        if word not in COPIES:
            self.write(b'%b %d' % (self.chance.choice((b'erase', b'clrtoeol', b'clrtobot', b'addstr', b'delch')), self.arguments.last)
                       + (b' a  b' if self.chance.random() < 0.3 else b''))
        self.ask(self.arguments.last)

    def ask_marks(self, windows):
        """Asks of lines of some windows whether they are touched."""
        for w in self.chance.choices(windows, k=6):
            self.write(b'is_linetouched %d %d' % (w, self.arguments.near(self.run.world.windows[w].lines)))

    def update(self):
        """Updates the terminal, sometimes after more than one refresh, between which something was written."""
        for _ in range(self.chance.choice((0, 0, 0, 0, 0, 1, 2))):
            w, y, x = self.arguments.by_types('move')
            if w in self.run.world.windows:
                self.write(b'update_panels')
                self.write(b'move %d %d %d' % (w, y, x))
                self.write(b'addstr %d %b' % (w, self.letters(self.chance.randint(1, 3))))
        for line in UP:
            self.write(line)

    def draw_anew(self):
        """Writes over a screen that is shown: a line, whole, and all below it is cleared."""
        self.update()
        self.write(b'move 0 %d 0' % self.arguments.near(self.lines))
        self.write(b'addstr 0 ' + self.letters(min(self.columns, 500)))
        self.write(b'clrtobot 0')
        self.update()

    def colour_anew(self):
        """Gives a pair other colours, in which a text is shown."""
        w, pair = self.arguments.by_types('color_set')
        self.write(b'color_set %d %d' % (w, pair))
        self.write(b'addstr %d abc' % w)
        self.update()
        self.write(b'init_pair %d %d %d' % (pair, self.chance.randrange(8), self.chance.randrange(8)))
        self.update()

    def ask_all(self):
        """Asks of windows, seen or not, what they hold at some places, what is touched, and where their cursor is."""
        windows = list(self.run.world.windows)
        for w in self.chance.sample(windows, min(len(windows), 6)):
            self.ask(w)

    def ask(self, w):
        window = self.run.world.windows[w]
        self.write(b'getyx %d' % w)
        self.write(b'is_linetouched %d %d' % (w, self.arguments.near(window.lines)))
        for _ in range(min(window.lines * window.columns, 8)):
            self.write(b'move %d %d %d' % (w, self.arguments.near(window.lines), self.arguments.near(window.columns)))
            self.write(b'inch %d' % w)

    def letters(self, count):
        return bytes(self.chance.choice(LETTERS) for _ in range(count))

    # How a script may begin.

    def write_at_length(self):
        """Many lines of one kind, so that numbers and tables get long, and full."""
        kind = self.chance.randrange(4)
        for _ in range(self.chance.choice((130, 1002, 1002)) if kind else 300):
            if kind == 0:
                self.write(b'')
            elif kind == 1:
                self.write(b'newwin 1 1 0 %d' % self.chance.randrange(self.columns))
            elif kind == 2:
                self.write(b'derwin %d 0 0 0 0' % self.chance.choice((0, min(self.run.number, 200))))
            else:
                self.write(b'newpad 1 1' if self.chance.random() < 0.5 else b'new_panel %d' % self.run.number)

    def crowd(self):
        """More panels than a search goes through one by one, and numbers past 64."""
        for w in range(1, self.chance.choice((18, 26, 70)) + 1):
            self.write(self.line_of('newwin'))
            if w in self.run.world.windows:
                self.write(b'addstr %d %b' % (w, spelled(self.chance, self.letters(20))))
                self.write(b'new_panel %d' % w)
                if 16 < w < 24 and self.chance.random() < 0.3:
                    self.update()

    def family(self):
        """Windows of which each derives from one before, mostly the last, and some are in panels: what one of them writes, others show. One
        has a smaller number than its parent. They move in their parents, and cells are copied among them."""
        self.write(b'newwin 1 1 0 0')
        family = [self.made(b'newwin 0 0 0 0')]
        generations = self.chance.randint(2, 4)
        freeing = self.chance.randint(1, generations - 1)
        for generation in range(generations):
            if generation == freeing:
                self.write(b'delwin 1')
            parent = self.chance.choice([family[-1], family[-1], *family])
            family.append(self.made(b'derwin %d %d %d %d %d' % (parent, *self.arguments.most_of(parent))))
        for w in self.chance.sample(family, 2):
            self.write(b'new_panel %d' % w)
        for _ in range(10):
            self.write(b'addstr %d %b' % (self.chance.choice(family), self.letters(self.chance.randint(1, 9))))
            word = self.chance.choice((b'syncup', b'syncdown', b'syncdown', b'untouchwin', b'touchwin'))
            self.write(b'%b %d' % (word, self.chance.choice(family)))
            self.ask_marks(family)
            self.call(self.chance.choice(('mvderwin', 'mvderwin', 'copywin', 'copywin', 'overlay')))
            if self.chance.random() < 0.4:
                self.update()

    def made(self, line):
        """Writes a call that makes a window, and answers its number."""
        self.write(line)
        return list(self.run.world.windows)[-1]

    def spread(self):
        """Lines that are shown, and some of their cells, not far from one another, are written over: so numbers in moves have one to three
        digits, and gaps are as long as a move and longer."""
        for _ in range(4):
            y, x = self.arguments.near(self.lines), self.chance.randrange(self.columns)
            self.write(b'move 0 %d %d' % (y, x))
            self.write(b'addstr 0 ' + self.letters(self.columns - x))
            self.update()
            while x < self.columns and self.chance.random() < 0.9:
                if self.chance.random() < 0.2:
                    self.write(b'attrset 0 ' + self.arguments.attributes())
                self.write(b'move 0 %d %d' % (y, x))
                self.write(b'addstr 0 ' + self.letters(self.chance.choice((1, 1, 2))))
                x += self.chance.randint(2, 12)
            self.update()

    def fill_screen(self):
        """A text in each cell, so that one update goes out in three pieces."""
        for y in range(self.lines):
            self.write(b'move 0 %d 0' % y)
            self.write(b'addstr 0 ' + self.letters(self.columns))


def beginning_of(chance):
    """How a script begins, mostly with nothing of its own."""
    kind = chance.random()
    if kind < 0.012:
        return Walk.write_at_length
    if kind < 0.022:
        return Walk.fill_screen
    if kind < 0.07:
        return Walk.crowd
    if kind < 0.15:
        return Walk.family
    return Walk.spread if kind < 0.17 else None


def script_of(chance):
    """A size and a script. Most have no fault and end with an update of the terminal."""
    walk = Walk(chance)
    if walk.beginning:
        walk.beginning(walk)
    elif chance.random() < walk.filling:
        walk.fill(0)
    for _ in range(chance.choice((3, 10, 25, 50, 80))):
        walk.step()
        if chance.random() < 0.02:
            walk.ask_all()
    if chance.random() < 0.7:
        walk.ask_all()
    lines = walk.written
    if chance.random() < 0.8:
        lines += UP
    if chance.random() < 0.25:
        for _ in range(chance.choice((1, 1, 2, 5))):
            at = len(lines) - chance.choice((0, 0, 1, chance.randint(0, len(lines))))
            lines.insert(max(at, 0), spoiled(chance, chance.choice(lines or [b''])))
    ending = b'' if chance.random() < 0.1 else b'\n'
    return walk.lines, walk.columns, b'\n'.join(lines) + ending

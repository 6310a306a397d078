"""Workloads as scripts of Curspan's calls: what programs on a terminal do, frame by frame, the same on every run.

Each is a function of a `Script`, which has the size of the screen and takes calls, and of a number of frames."""
import collections
import itertools

WORDS = ('window panel screen cursor line column cell text region border shadow mark copy order depth picture terminal rendition colour '
         'pair blank erase scroll insert delete parent derived origin place size table number list name byte stream token sink source '
         'frame count first last above below top bottom hidden visible').split()
NAMES = 'Ada Grace Edsger Barbara Donald Tony Leslie Robin Frances Niklaus John Jean Kathleen Alan Margaret Dennis'.split()
BOLD, UNDERLINE, REVERSE = 0x01, 0x04, 0x10


class Chance:
    """Numbers that look random, the same on every run and machine."""

    def __init__(self, seed):
        self.state = seed

    def below(self, limit):
        self.state = (self.state * 6364136223846793005 + 1442695040888963407) % 2 ** 64
        return (self.state >> 33) % limit

    def one_of(self, choices):
        return choices[self.below(len(choices))]


class Script:
    def __init__(self, lines, columns, seed=1):
        self.lines, self.columns, self.calls, self.chance = lines, columns, [], Chance(seed)
        self.windows = self.panels = 0

    def call(self, *words):
        self.calls.append(' '.join(str(word) for word in words))

    def text(self, window, y, x, text):
        self.call('move', window, y, x)
        self.call('addstr', window, text)

    def attributes(self, window, bits):
        self.call('attrset', window, f'{bits:02x}')

    def window(self, lines, columns, y, x):
        self.call('newwin', lines, columns, y, x)
        self.windows += 1
        return self.windows

    def pad(self, lines, columns):
        self.call('newpad', lines, columns)
        self.windows += 1
        return self.windows

    def panel(self, window):
        self.call('new_panel', window)
        self.panels += 1
        return self.panels

    def frame(self):
        self.call('update_panels')
        self.call('doupdate')

    def bar(self, window, y, width, text):
        """A line of text in reverse, as wide as the window."""
        self.attributes(window, REVERSE)
        self.text(window, y, 0, text[:width].ljust(width))
        self.attributes(window, 0)

    def sentence(self, width):
        """Words that fill no more than a width."""
        text = self.chance.one_of(WORDS)
        for _ in range(2 + self.chance.below(width // 8)):
            text += ' ' + self.chance.one_of(WORDS)
        return text[:width].rstrip()

    def code(self, width):
        """A line as of a program: indented, with a few marks."""
        depth = self.chance.below(4)
        if self.chance.below(6) == 0:
            return ''
        words = [self.chance.one_of(WORDS) for _ in range(2 + self.chance.below(6))]
        text = self.chance.one_of(('let {} = {}', 'if {} < {} {{', 'self.{}({})', 'fn {}({})', '// {} {}')).format(words[0], ', '.join(words[1:]))
        return (' ' * 4 * depth + text)[:width].rstrip()

    def border(self, window, lines, columns, title):
        """A border of characters with a title, around blank cells."""
        top = f'+-- {title} '
        self.text(window, 0, 0, top + '-' * (columns - 1 - len(top)) + '+')
        for y in range(1, lines - 1):
            self.text(window, y, 0, '|' + ' ' * (columns - 2) + '|')
        self.text(window, lines - 1, 0, '+' + '-' * (columns - 2) + '+')


def edit(script, frames):
    """An editor at work: typing, splitting and deleting lines, turning pages, a completion window now and then."""
    lines, columns, chance = script.lines - 1, script.columns, script.chance
    page = script.pad(1000, columns)
    for y in range(1000):
        script.text(page, y, 0, script.code(columns - 1))
    view = script.window(lines, columns, 0, 0)
    status = script.window(1, columns, lines, 0)
    script.panel(status)
    script.panel(view)
    hint = script.window(6, 24, 2, 10)
    script.border(hint, 6, 24, 'fits')
    hint_panel = script.panel(hint)
    script.call('hide_panel', hint_panel)
    script.call('copywin', page, view, 0, 0, 0, 0, lines - 1, columns - 1, 'off')
    top, y, x, is_hinting = 0, lines // 2, 4, False
    for number in range(frames):
        act = chance.below(20)
        if is_hinting:
            script.call('hide_panel', hint_panel)
            is_hinting = False
        if act < 11:
            script.text(view, y, x, chance.one_of(WORDS)[:1 + chance.below(3)])
            x = min(x + 3, columns - 10)
        elif act < 13:
            script.call('move', view, y, x)
            script.call('insertln', view)
            script.text(view, y, 4, chance.one_of(WORDS))
            x = 12
        elif act < 14:
            script.call('move', view, y, 0)
            script.call('deleteln', view)
        elif act < 16:
            y, x = chance.below(lines), chance.below(columns // 2)
        elif act < 17:
            top = (top + lines - 2) % (1000 - lines)
            script.call('copywin', page, view, top, 0, 0, 0, lines - 1, columns - 1, 'off')
        elif act < 18:
            script.call('move', view, y, x)
            script.call('clrtoeol', view)
        elif act < 19:
            script.call('move', view, y, x)
            script.call('insch', view, chance.one_of('abcdefgh'))
            script.call('delch', view)
        else:
            script.call('move_panel', hint_panel, min(y + 1, lines - 6), min(x, columns - 24))
            script.text(hint, 1 + chance.below(4), 2, chance.one_of(WORDS).ljust(20))
            script.call('show_panel', hint_panel)
            is_hinting = True
        script.bar(status, 0, columns, f' bench.rt   modified   line {top + y + 1}, column {x + 1}')
        script.call('move', view, y, x)
        if not is_hinting:
            script.call('top_panel', 2)
        script.frame()


def mail_line(script, number, width):
    chance = script.chance
    return f'{number:6}  {chance.one_of(NAMES):10}{script.sentence(max(width - 34, 12)):{max(width - 34, 12)}}{chance.below(24):2}:{chance.below(60):02}'


def mail(script, frames):
    """A list of messages that scrolls by a line, with the chosen one in reverse, and a message that is opened over it now and then."""
    lines, columns, chance = script.lines - 2, script.columns, script.chance
    titles = script.window(script.lines, columns, 0, 0)
    script.bar(titles, 0, columns, ' Mail')
    script.bar(titles, script.lines - 1, columns, ' q quit   n next   r reply')
    script.panel(titles)
    view = script.window(lines, columns, 1, 0)
    script.call('scrollok', view, 'on')
    script.panel(view)
    letter = script.window(lines - 6, columns - 16, 4, 12)
    letter_panel = script.panel(letter)
    script.call('hide_panel', letter_panel)
    rows = [mail_line(script, n, columns) for n in range(lines)]
    for y, row in enumerate(rows):
        script.text(view, y, 0, row)
    chosen, is_open = 0, False
    for number in range(frames):
        if is_open:
            script.call('hide_panel', letter_panel)
            is_open = False
        elif chance.below(10) == 0:
            script.border(letter, lines - 6, columns - 16, 'message')
            for y in range(2, lines - 8):
                script.text(letter, y, 3, script.sentence(columns - 24))
            script.call('show_panel', letter_panel)
            is_open = True
        elif chosen < lines - 1 and chance.below(3) > 0:
            script.text(view, chosen, 0, rows[chosen].ljust(columns - 1))
            chosen += 1
            script.bar(view, chosen, columns - 1, rows[chosen])
        else:
            script.text(view, chosen, 0, rows[chosen].ljust(columns - 1))
            script.call('scrl', view, 1)
            rows = rows[1:] + [mail_line(script, lines + number, columns)]
            script.text(view, lines - 1, 0, rows[-1])
            script.bar(view, chosen, columns - 1, rows[chosen])
        script.call('move', view, chosen, 0)
        script.frame()


def monitor(script, frames):
    """A monitor: a table of numbers under bold titles, of which some change in each frame."""
    columns, chance = script.columns, script.chance
    across = columns // 20
    script.bar(0, 0, columns, ' Monitor')
    for i in range(across):
        script.attributes(0, BOLD)
        script.text(0, 1, i * 20, 'name')
        script.text(0, 1, i * 20 + 12, 'load')
        script.attributes(0, 0)
        for y in range(2, script.lines):
            script.text(0, y, i * 20, chance.one_of(WORDS)[:9])
            script.text(0, y, i * 20 + 10, f'{chance.below(10000) / 100:6.2f}')
    for number in range(frames):
        for _ in range(3 + across * script.lines // 12):
            value = chance.below(10000) / 100
            script.text(0, 2 + chance.below(script.lines - 2), chance.below(across) * 20 + 10, f'{value:6.2f}')
        script.text(0, 0, columns - 10, f'{number // 3600:02}:{number // 60 % 60:02}:{number % 60:02}')
        script.call('move', 0, 0, 0)
        script.frame()


def windows(script, frames):
    """Windows with borders that move over a text and over each other, and come to the top."""
    lines, columns, chance = script.lines, script.columns, script.chance
    for y in range(lines):
        script.text(0, y, 0, script.sentence(columns - 1))
    high, wide = max(lines // 3, 5), max(columns // 4, 14)
    panels = []
    for i in range(6):
        place = [chance.below(lines - high), chance.below(columns - wide)]
        window = script.window(high, wide, *place)
        script.border(window, high, wide, WORDS[i])
        for y in range(1, high - 1):
            script.text(window, y, 2, script.sentence(wide - 4))
        script.call('move', window, 1, 2)
        panels.append((script.panel(window), place))
    for _ in range(frames):
        panel, place = chance.one_of(panels)
        for axis, limit in ((0, lines - high), (1, columns - wide)):
            place[axis] = max(0, min(limit, place[axis] + chance.below(5) - 2))
        script.call('move_panel', panel, *place)
        if chance.below(4) == 0:
            script.call('top_panel', chance.one_of(panels)[0])
        if chance.below(12) == 0:
            script.call('bottom_panel', chance.one_of(panels)[0])
        script.frame()


def repaint(script, frames):
    """Whole screens: pages that take each other's place, and the same page painted anew."""
    lines, columns, chance = script.lines, script.columns, script.chance
    panels = []
    for page in range(5):
        window = script.window(lines, columns, 0, 0)
        for y in range(lines):
            script.attributes(window, chance.one_of((0, 0, 0, BOLD, REVERSE)))
            script.text(window, y, 0, script.sentence(columns - 1))
        script.call('move', window, 0, 0)
        panels.append((script.panel(window), window))
    for number in range(frames):
        panel, window = panels[number % 5]
        script.call('top_panel', panel)
        if number % 4 == 3:
            script.call('clearok', window, 'on')
        script.frame()


def sparse(script, frames):
    """Few cells that change anywhere on a full screen."""
    chance = script.chance
    for y in range(script.lines):
        script.text(0, y, 0, (script.sentence(script.columns - 1) + ' ' + script.sentence(script.columns - 1))[:script.columns - 1])
    for _ in range(frames):
        for _ in range(1 + chance.below(12)):
            script.text(0, chance.below(script.lines), chance.below(script.columns - 1), chance.one_of('abcdefghijklmnopqrstuvwxyz.#'))
        script.call('move', 0, chance.below(script.lines), chance.below(script.columns))
        script.frame()


def colours(script, frames):
    """A program in colours, a line of which is chosen, words of which change; and a gauge in colours at the right."""
    lines, columns, chance = script.lines, script.columns, script.chance
    for pair in range(1, 8):
        script.call('init_pair', pair, pair % 8, 0 if pair < 5 else 4)
    width = columns - 14

    def coloured(y, chosen):
        x = 0
        script.call('bkgdset', 0, f'{REVERSE if chosen else 0:02x}', '\\x20')
        script.call('move', 0, y, 0)
        for word in rows[y]:
            if x + len(word) < width:
                script.call('color_set', 0, 0 if len(word) < 4 else 1 + len(word) % 7)
                script.text(0, y, x, word)
                x += len(word) + 1
        script.call('color_set', 0, 0)
        script.call('bkgdset', 0, '00', '\\x20')

    rows = [script.code(width).split() for _ in range(lines)]
    for y in range(lines):
        coloured(y, False)
    chosen = 0
    for number in range(frames):
        coloured(chosen, False)
        chosen = (chosen + 1 + chance.below(3)) % lines
        if number % 5 == 0 and rows[chosen]:
            rows[chosen][chance.below(len(rows[chosen]))] = chance.one_of(WORDS)
            script.text(0, chosen, 0, ' ' * width)
        coloured(chosen, True)
        for y in range(0, lines, 3):
            value = chance.below(11)
            script.call('color_set', 0, 2 if value < 7 else 3 if value < 9 else 1)
            script.text(0, y, width + 2, ('=' * value).ljust(10, '.'))
        script.call('color_set', 0, 0)
        if number % 25 == 24:
            script.call('init_pair', 1 + chance.below(7), chance.below(8), 0)
        script.call('move', 0, chosen, 0)
        script.frame()


def log(script, frames):
    """A log: the whole screen scrolls, by one to five lines."""
    script.call('scrollok', 0, 'on')
    bottom = script.lines - 1
    for _ in range(frames):
        for _ in range(1 + script.chance.below(5)):
            script.call('scrl', 0, 1)
            script.text(0, bottom, 0, f'{script.chance.below(24):02}:{script.chance.below(60):02} ' + script.sentence(script.columns - 8))
        script.frame()


def pager(script, frames):
    """A page of a manual: titles in bold, names underlined, and a bar in reverse; it turns by a page or half of one, and finds words."""
    lines, columns, chance = script.lines - 1, script.columns, script.chance
    page = script.pad(1000, columns)
    for y in range(1000):
        if y % 12 == 0:
            script.attributes(page, BOLD)
            script.text(page, y, 0, chance.one_of(WORDS).upper())
            script.attributes(page, 0)
            continue
        x = 7
        for word in script.sentence(columns - 8).split():
            script.attributes(page, chance.one_of((0, 0, 0, 0, 0, 0, BOLD, UNDERLINE)))
            if x + len(word) < columns:
                script.text(page, y, x, word)
            x += len(word) + 1
        script.attributes(page, 0)
    view = script.window(lines, columns, 0, 0)
    status = script.window(1, columns, lines, 0)
    script.panel(view)
    script.panel(status)
    top = 0
    for _ in range(frames):
        top = (top + chance.one_of((1, lines // 2, lines - 1, lines - 1))) % (1000 - lines)
        script.call('copywin', page, view, top, 0, 0, 0, lines - 1, columns - 1, 'off')
        if chance.below(6) == 0:
            script.attributes(view, REVERSE)
            script.text(view, chance.below(lines), 7 + chance.below(columns // 2), chance.one_of(WORDS)[:columns // 2 - 8])
            script.attributes(view, 0)
        script.bar(status, 0, columns, f' curses(3)  line {top + 1} of 1000')
        script.frame()


def levels(script, frames):
    """A log whose lines have a level in colour, and which scrolls by some lines; now and then the newest are marked."""
    lines, columns, chance = script.lines, script.columns, script.chance
    kinds = [('DEBUG', 1), ('INFO ', 2), ('INFO ', 2), ('WARN ', 3), ('ERROR', 4)]
    for pair, colour in ((1, 6), (2, 2), (3, 3), (4, 1), (5, 4)):
        script.call('init_pair', pair, colour, 0)
    view = script.window(lines - 1, columns, 1, 0)
    script.call('scrollok', view, 'on')
    script.bar(0, 0, columns, ' log of a server')
    script.panel(view)
    for number in range(frames):
        for _ in range(1 + chance.below(4)):
            level, pair = chance.one_of(kinds)
            script.call('scrl', view, 1)
            script.call('color_set', view, 5)
            script.text(view, lines - 2, 0, f'{number // 60 % 24:02}:{number % 60:02}:{chance.below(60):02} ')
            script.call('color_set', view, pair)
            script.attributes(view, BOLD if pair > 2 else 0)
            script.call('addstr', view, level)
            script.attributes(view, 0)
            script.call('color_set', view, 0)
            script.call('addstr', view, ' ' + script.sentence(columns - 16))
        script.frame()


def processes(script, frames):
    """A table of processes, sorted by load: its rows change places, the chosen one is in reverse, and gauges are in colours."""
    lines, columns, chance = script.lines, script.columns, script.chance
    for pair, colour in ((1, 2), (2, 3), (3, 1), (4, 6)):
        script.call('init_pair', pair, colour, 0)
    rows = [[100 + i * 7, chance.one_of(NAMES).lower(), chance.below(1000), script.sentence(columns - 40)] for i in range(lines * 2)]
    script.call('color_set', 0, 4)
    script.attributes(0, BOLD)
    script.text(0, 3, 0, f'{"PID":>6} {"USER":10} {"LOAD":>6}  COMMAND')
    script.attributes(0, 0)
    script.call('color_set', 0, 0)
    chosen = 0
    for number in range(frames):
        for gauge in range(3):
            value = chance.below(columns // 2 - 4)
            script.text(0, gauge, 0, f'{gauge} [')
            for part, pair in ((value // 2, 1), (value - value // 2, 2)):
                script.call('color_set', 0, pair)
                script.call('addstr', 0, '|' * part)
            script.call('color_set', 0, 0)
            script.call('addstr', 0, ' ' * (columns // 2 - 4 - value) + ']')
        for row in rows:
            row[2] = max(0, row[2] + chance.below(41) - 20)
        rows.sort(key=lambda row: -row[2])
        chosen = (chosen + chance.below(2)) % (lines - 4)
        for y, (number_of, user, load, command) in enumerate(rows[:lines - 4]):
            script.attributes(0, REVERSE if y == chosen else 0)
            script.text(0, 4 + y, 0, f'{number_of:6} {user:10} '.ljust(18))
            script.call('color_set', 0, 3 if load > 900 and y != chosen else 0)
            script.call('addstr', 0, f'{load / 10:6.1f}')
            script.call('color_set', 0, 0)
            script.call('addstr', 0, f'  {command}'[:columns - 26].ljust(columns - 26))
        script.attributes(0, 0)
        script.call('move', 0, 4 + chosen, 0)
        script.frame()


def keywords(script, frames):
    """A program whose words are in colours by their kind: its pages turn, it scrolls by a line, and a word is typed."""
    lines, columns, chance = script.lines - 1, script.columns, script.chance
    for pair, colour in ((1, 5), (2, 2), (3, 6), (4, 3)):
        script.call('init_pair', pair, colour, 0)
    kinds = {'let': (1, BOLD), 'if': (1, BOLD), 'fn': (1, BOLD), '//': (3, 0)}
    page = script.pad(1000, columns)
    for y in range(1000):
        line = script.code(columns - 1)
        x = len(line) - len(line.lstrip())
        for word in line.split():
            pair, bits = kinds.get(word, (2 if word.startswith('self') else 4 if word.endswith(',') else 0, 0))
            script.call('color_set', page, pair)
            script.attributes(page, bits)
            script.text(page, y, x, word)
            x += len(word) + 1
    view = script.window(lines, columns, 0, 0)
    status = script.window(1, columns, lines, 0)
    script.panel(view)
    script.panel(status)
    top = 0
    for _ in range(frames):
        act = chance.below(8)
        if act < 5:
            top = (top + (1 if act < 3 else lines - 2)) % (1000 - lines)
            script.call('copywin', page, view, top, 0, 0, 0, lines - 1, columns - 1, 'off')
        else:
            script.call('color_set', view, act - 4)
            script.text(view, chance.below(lines), 4 + chance.below(columns // 2), chance.one_of(WORDS)[:columns // 2 - 5])
        script.bar(status, 0, columns, f' paint.rt   line {top + 1}')
        script.frame()


def life(script, frames):
    """A game of life that is sown on 40 percent of the cells, and played again and again: living cells have the colour of their number of
    neighbours."""
    lines, columns = script.lines, script.columns
    for pair in range(1, 7):
        script.call('init_pair', pair, pair, 0)
    boards, alive = [], {(y, x) for y in range(lines) for x in range(columns) if script.chance.below(10) < 4}
    for _ in range(12):
        around = itertools.product((-1, 0, 1), repeat=2)
        beside = collections.Counter(((y + down) % lines, (x + right) % columns) for down, right in around if down or right for y, x in alive)
        boards.append(script.pad(lines, columns))
        by_pair = sorted((1 + beside[place] % 6, *place) for place in alive)
        for pair, cells in itertools.groupby(by_pair, lambda cell: cell[0]):
            script.call('color_set', boards[-1], pair)
            for _, y, x in cells:
                script.text(boards[-1], y, x, 'o')
        alive = {place for place, count in beside.items() if count == 3 or count == 2 and place in alive}
    for number in range(frames):
        script.call('copywin', boards[number % 12], 0, 0, 0, 0, 0, lines - 1, columns - 1, 'off')
        script.frame()


def pan(script, frames):
    """A map in colours on a pad, larger than the screen, over which the screen is panned by some lines and columns."""
    lines, columns, chance = script.lines, script.columns, script.chance
    for pair in range(1, 7):
        script.call('init_pair', pair, pair, 0)
    high, wide = lines * 3 // 2, columns * 3 // 2
    ground = script.pad(high, wide)
    above = [0] * wide
    for y in range(high):
        row = [chance.below(7)]
        for kind in above[1:]:
            row.append(chance.one_of((kind, row[-1], chance.below(7))))
        script.call('move', ground, y, 0)
        for kind, cells in itertools.groupby(row):
            script.call('color_set', ground, kind)
            script.call('addstr', ground, '.~"^%#*'[kind] * len(list(cells)))
        above = row
    top = left = 0
    for _ in range(frames):
        top = max(0, min(high - lines, top + chance.below(5) - 2))
        left = max(0, min(wide - columns, left + chance.below(9) - 4))
        script.call('pnoutrefresh', ground, top, left, 0, 0, lines - 1, columns - 1)
        script.call('doupdate')


def scroller(script, frames):
    """A list below a title that scrolls up and down by some lines, at whose edge lines come."""
    lines, columns, chance = script.lines - 2, script.columns, script.chance
    view = script.window(lines, columns, 2, 0)
    script.call('scrollok', view, 'on')
    script.panel(view)
    script.bar(0, 0, columns, ' a list')
    rows = [f'{n:5}  ' + script.sentence(columns - 8) for n in range(1000)]
    top = 500
    for y in range(lines):
        script.text(view, y, 0, rows[top + y])
    for _ in range(frames):
        by = chance.one_of((-3, -1, 1, 1, 3, lines // 2))
        top = (top + by) % (1000 - lines)
        script.call('scrl', view, by)
        for y in range(lines - by, lines) if by > 0 else range(-by):
            script.text(view, y, 0, rows[top + y])
        script.text(0, 0, columns - 10, f'{top:5}')
        script.frame()


def tiled(script, frames, moved):
    """200 panels as tiles of the screen, of which some change places with one another in each frame."""
    chance, down, across = script.chance, 10, 20
    high, wide = script.lines // down, script.columns // across
    places = [(y * high, x * wide) for y in range(down) for x in range(across)]
    for number, place in enumerate(places):
        window = script.window(high, wide, *place)
        script.call('attrset', window, f'{(0, BOLD, REVERSE)[number % 3]:02x}')
        for y in range(high):
            script.text(window, y, 0, f'{number:3}{chr(97 + number % 26)}'[:wide].ljust(wide - 1, '.'))
        script.panel(window)
    for _ in range(frames):
        order = list(range(len(places)))
        for i in range(moved):
            other = i + chance.below(len(order) - i)
            order[i], order[other] = order[other], order[i]
        chosen = order[:moved]
        goals = [places[tile] for tile in chosen[1:] + chosen[:1]]
        for tile, place in zip(chosen, goals):
            script.call('move_panel', tile + 1, *place)
            places[tile] = place
        script.frame()


def tiles(script, frames):
    """Tiles of which 20 move."""
    tiled(script, frames, 20)


def shuffle(script, frames):
    """Tiles that all move."""
    tiled(script, frames, 200)


def again(script, frames):
    """Windows with borders that are erased in each frame, and written again as they were."""
    lines, columns = script.lines, script.columns
    high, wide = lines // 2, columns // 2
    pages = []
    for y, x in itertools.product((0, lines - high), (0, columns - wide)):
        window = script.window(high, wide, y, x)
        script.panel(window)
        pages.append((window, [script.sentence(wide - 4) for _ in range(high - 2)]))
    for _ in range(frames):
        for window, texts in pages:
            script.call('erase', window)
            script.border(window, high, wide, 'window')
            for y, text in enumerate(texts):
                script.text(window, y + 1, 2, text)
        script.frame()


def meters(script, frames):
    """Meters in many colours: each has a name, cells from green to red up to its value, and a number on a ground of a colour."""
    lines, columns, chance = script.lines, script.columns, script.chance
    for pair in range(1, 43):
        script.call('init_pair', pair, (pair - 1) % 7 + 1, (pair - 1) // 7)
    across = max(columns // 40, 1)
    wide = columns // across
    values = [chance.below(wide - 16) for _ in range(across * lines)]
    for _ in range(frames):
        for number, value in enumerate(values):
            values[number] = value = max(0, min(wide - 17, value + chance.below(7) - 3))
            y, x = number // across, number % across * wide
            script.call('color_set', 0, 1 + number % 42)
            script.text(0, y, x, WORDS[number % len(WORDS)][:6].ljust(6))
            part = (wide - 16) // 4 + 1
            for step, pair in enumerate((2, 3, 5, 1)):
                script.call('color_set', 0, pair + 7 * (number % 6))
                script.text(0, y, x + 7 + step * part, '|' * max(0, min(part, value - step * part)))
                script.call('color_set', 0, 0)
                script.call('addstr', 0, ' ' * (part - max(0, min(part, value - step * part))))
            script.call('color_set', 0, 8 + number % 35)
            script.text(0, y, x + wide - 5, f'{value:3}%')
        script.call('color_set', 0, 0)
        script.call('move', 0, 0, 0)
        script.frame()


WORKLOADS = {each.__name__: each for each in (edit, mail, monitor, windows, repaint, sparse, colours, log, pager, levels, processes, keywords,
                                              life, pan, scroller, tiles, shuffle, again, meters)}


def script_of(name, lines, columns, frames):
    """The lines of a workload's script: the opening, and then its frames."""
    script = Script(lines, columns)
    WORKLOADS[name](script, frames)
    return script.calls

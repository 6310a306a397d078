"""What is asked of a screen beside the calls: questions by chance, and what the oracle answers."""
from oracle.making import there
from oracle.refusals import E5, E10, Refused, refuse
from oracle.running import Run, answer_text

MOST_CELLS = 10000  # of a window of which the oracle is quick
TOO_GREAT = (999, 1001, 65535, 65536, 65537, 2 ** 31, 2 ** 32 - 1)
OWN = 9     # the number of the terminal's own colours


def next_of(numbers, n):
    return min((it for it in numbers if it > n), default=0)


def parent(world, w):
    refuse(there(world, w).parent is None, E10)
    return world.windows[w].parent


def panel(world, w):
    there(world, w)
    return next((p for p, u in world.panels.items() if u == w), 0)


def line_text(columns, cells):
    return ' '.join([str(columns), *cells])


def row(world, w, y, room):
    window = there(world, w)
    refuse(y >= window.lines, E5)
    cells = [world.cell_at(w, y, x) for x in range(min(window.columns, room))]
    return line_text(window.columns, (f'{it.character:02x}{it.attributes:02x}{it.pair:02x}' for it in cells))


def cell(world, w, y, x):
    window = there(world, w)
    refuse(y >= window.lines or x >= window.columns, E5)
    return world.cell_at(w, y, x)


def shown_row(world, y, room):
    refuse(y >= world.lines, E5)
    renditions = [(it.character, *it.rendition) for it in world.virtual[y][:room]]
    return line_text(world.columns, (f'{ch:02x}{attributes:02x}' + ''.join(str(OWN if it is None else it) for it in colours)
                                     for ch, attributes, *colours in renditions))


# Of each question, named as in C, its arguments and its answer.
QUESTIONS = {
    'row': ('window line room', row),
    'shown_row': ('line room', shown_row),
    'cell': ('window line column', cell),
    'wattr_get': ('window', lambda world, w: (there(world, w).attributes, world.windows[w].pair)),
    'getbkgd': ('window', lambda world, w: there(world, w).background),
    'wgetscrreg': ('window', lambda world, w: there(world, w).region),
    'is_scrollok': ('window', lambda world, w: there(world, w).is_scrolling),
    'is_cleared': ('window', lambda world, w: there(world, w).clear),
    'is_pad': ('window', lambda world, w: there(world, w).is_pad()),
    'wgetparent': ('window', parent),
    'window_panel': ('window', panel),
    'next_window': ('number', lambda world, n: next_of(world.windows, n)),
    'next_panel': ('number', lambda world, n: next_of(world.panels, n)),
}


def argument(chance, world, kind, before):
    """An argument of a kind, after others: mostly one that there is, and else one at a limit."""
    window = world.windows.get(before[0], world.windows[0]) if before else world.windows[0]
    there_is = {
        'window': list(world.windows), 'number': [0, *world.windows, *world.panels],
        'line': range(window.lines), 'column': range(window.columns), 'room': [0, 1, window.columns - 1, window.columns, window.columns + 5],
    }[kind]
    if kind == 'room' or chance.random() < 0.8:
        return chance.choice(there_is)
    return chance.choice((len(there_is), *TOO_GREAT))


class Asking:
    """The oracle beside a script whose lines it takes, as long as that is quick, and questions about what is there."""

    def __init__(self, lines, columns):
        self.run = Run(lines, columns)

    def is_quick(self):
        return all(window.lines * window.columns <= MOST_CELLS for window in self.run.world.windows.values())

    def after(self, line, chance):
        """Some questions after a line: of each its name, its arguments, and what the oracle answers, as the log tells a call's answer."""
        if self.is_quick():
            self.run.take(line)
            return [self.question(chance) for _ in range(chance.choice((0, 0, 1, 3)))]
        return []

    def question(self, chance):
        world, arguments = self.run.world, []
        name = chance.choice(list(QUESTIONS))
        kinds, answer = QUESTIONS[name]
        for kind in kinds.split():
            arguments.append(argument(chance, world, kind, arguments))
        try:
            return name, arguments, answer_text(answer(world, *arguments))
        except Refused as why:
            return name, arguments, str(why)

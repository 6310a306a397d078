"""Makes the calls of a script by the methods of Python, and writes the log that `curspan run` writes."""
import curspan
from curspan import Attr
from oracle.running import answer_text
from oracle.script import Fault, lines_of, read_line
from oracle.table import TABLE
from trial.asking import Asking, line_text
from calls_python import Method  # of tools, as oracle.table finds it

METHODS = {word: Method(call, {}) for word, call in TABLE.items()}
NUMBERS = {it.__name__: number for number, it in curspan._statuses.BY_STATUS.items()}


def told(answer):
    """How the log tells an answer, or None where it doesn't."""
    if isinstance(answer, bool):
        return 'true' if answer else 'false'
    if isinstance(answer, curspan.Cell):
        return f'{ord(answer.character)} {answer.attrs.value:02x} {answer.pair}'
    if isinstance(answer, tuple):
        return f'{answer[0]} {answer[1]}'
    if isinstance(answer, (curspan.Window, curspan.Panel)):
        return str(answer.number)
    return None if answer is None else str(answer)


class Replay:
    """The screen of a script, and what came of its calls, and of questions between them, beside what the oracle answers."""

    def __init__(self, lines, columns, script, chance):
        self.screen = curspan.Screen(lines, columns)
        self.chance = chance
        self.windows, self.panels = {0: self.screen.stdscr}, {}
        window = self.screen.newwin(1, 1)
        self.gone = {'window': [window], 'panel': [window.new_panel()]}     # the deleted ones, which stand for numbers that there are not
        self.gone['panel'][0].delete()
        window.delete()
        self.log, self.out, self.status = '', b'', 0
        self.asked, self.wanted = [], []
        asking = Asking(lines, columns)
        for number, line in enumerate(lines_of(script), 1):
            said = read_line(line)
            if isinstance(said, Fault):
                self.tell(number, said.kind)
                self.status = 2
                break
            if said:
                self.make(number, said.word, said.arguments)
            for name, arguments, answer in asking.after(line, chance):
                self.wanted.append((number, name, arguments, answer))
                self.asked.append((number, name, arguments, self.ask(name, arguments)))
            if len(self.out) < 100 or chance.random() < 0.5:
                self.out += self.screen.take()
        self.out += self.screen.take()

    def tell(self, number, text):
        if text is not None:
            self.log += f'line {number}: {text}\n'

    def make(self, number, word, arguments):
        try:
            answer = self.call(word, list(arguments))
        except curspan.Refusal as why:
            name = type(why).__name__
            self.tell(number, f'E{NUMBERS[name]} {name}')
            self.status = 1
            return
        self.note(word, arguments, answer)
        if word in ('panel_above', 'panel_below') and answer is None:
            answer = 'none'
        if not TABLE[word].answer.startswith('count'):
            self.tell(number, told(answer))

    def ask(self, name, arguments):
        """Asks a question, by properties and lists."""
        try:
            return answer_text(getattr(self, f'of_{name}')(*arguments))
        except curspan.Refusal as why:
            kind = type(why).__name__
            return f'E{NUMBERS[kind]} {kind}'

    def of_row(self, w, y, room):
        cells = self.window(w).row(y)
        return line_text(len(cells), (f'{ord(it.character):02x}{it.attrs.value:02x}{it.pair:02x}' for it in cells[:room]))

    def of_shown_row(self, y, room):
        cells = self.screen.row(y)
        return line_text(len(cells), (f'{ord(it.character):02x}{it.attrs.value:02x}' + ''.join(str(9 if c is None else int(c)) for c in it[2:])
                                      for it in cells[:room]))

    def of_cell(self, w, y, x):
        row = self.window(w).row(y)
        if x >= len(row):
            raise curspan.OutsideWindow
        return told(row[x])

    def of_wattr_get(self, w):
        window = self.window(w)
        return window.attrs.value, window.pair

    def of_getbkgd(self, w):
        return told(self.window(w).background)

    def of_wgetscrreg(self, w):
        return self.window(w).region

    def of_is_scrollok(self, w):
        return self.window(w).scrolling

    def of_is_cleared(self, w):
        return self.window(w).clearing

    def of_is_pad(self, w):
        window = self.window(w)
        assert window.lines
        return isinstance(window, curspan.Pad)

    def of_wgetparent(self, w):
        parent = self.window(w).parent
        if parent is None:
            raise curspan.NotDerived
        return parent.number

    def of_window_panel(self, w):
        panel = self.window(w).panel
        return panel.number if panel else 0

    def of_next_window(self, n):
        return min((it.number for it in self.screen.windows if it.number > n), default=0)

    def of_next_panel(self, n):
        return min((it.number for it in self.screen.panels if it.number > n), default=0)

    def note(self, word, arguments, answer):
        """Keeps the objects that a call made, and finds those that it answers again."""
        objects, gone = (self.panels, self.gone['panel']) if isinstance(answer, curspan.Panel) or word == 'del_panel' else (self.windows, self.gone['window'])
        if word in ('delwin', 'del_panel'):
            gone.append(objects.pop(arguments[0]))
        elif isinstance(answer, (curspan.Window, curspan.Panel)):
            assert objects.setdefault(answer.number, answer) is answer

    def window(self, number):
        """The object of a number, or one that is gone."""
        return self.windows.get(number) or self.chance.choice(self.gone['window'])

    def panel(self, number):
        return self.panels.get(number) or self.chance.choice(self.gone['panel'])

    def call(self, word, arguments):
        method, receiver = METHODS[word], self.screen
        if word in ('panel_above', 'panel_below') and arguments[0] is None:
            return self.screen.bottom_panel() if word == 'panel_above' else self.screen.top_panel()
        given = {name: self.object(kind, it) for (name, kind), it in zip(TABLE[word].arguments, arguments)}
        if method.owner != 'screen':
            receiver = given.pop(TABLE[word].arguments[0][0])
        if method.type == 'pad' and not hasattr(receiver, method.name):     # no method of windows
            raise curspan.NoSuchWindow if receiver in self.gone['window'] else curspan.NotPad
        return self.by_chance(receiver, method.name, [self.as_text(given[name]) for name, _ in method.parameters])

    def object(self, kind, it):
        """An argument as Python has it."""
        if kind == 'attributes':
            return Attr(int(it, 16) if isinstance(it, bytes) else it)
        return self.window(it) if kind == 'window' else self.panel(it) if kind.startswith('panel') else it

    def as_text(self, value):
        """Bytes as a text, at times, where they are one."""
        return value.decode() if isinstance(value, bytes) and value.isascii() and self.chance.random() < 0.5 else value

    def by_chance(self, receiver, name, arguments):
        """Calls a method by places, by names, or a setting's property."""
        setting = {'attrset': 'attrs', 'color_set': 'pair', 'scrollok': 'scrolling', 'clearok': 'clearing', 'setscrreg': 'region'}.get(name)
        if setting and self.chance.random() < 0.3:
            value = tuple(arguments) if name == 'setscrreg' else arguments[0]
            setattr(receiver, setting, value)
            return None
        method = getattr(receiver, name)
        signature = method.__text_signature__ or ''
        names = [part.split('=')[0] for part in signature.strip('()').replace('$self, ', '').split(', ') if part and not part.startswith('$')]
        if names and len(names) == len(arguments) and '/' not in names and self.chance.random() < 0.3:
            return method(**dict(zip(names, arguments)))
        return method(*arguments)

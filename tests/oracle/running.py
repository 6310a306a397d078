"""What comes of a script: its log and status, its picture, and each update of the terminal."""
from .calls import CALLS, make
from .cells import Cell, blank_picture
from .printing import hexadecimal, picture_text
from .refusals import Refused
from .script import Fault, lines_of, read_line
from .world import World


def answer_text(answer):
    """How the log tells an answer, or None where it doesn't."""
    if answer is None:
        return None
    if isinstance(answer, bool):
        return 'true' if answer else 'false'
    if isinstance(answer, Cell):
        return f'{answer.character} {hexadecimal(answer.attributes)} {answer.pair}'
    if isinstance(answer, tuple):
        return f'{answer[0]} {answer[1]}'
    return str(answer)


class Run:
    """A run of a script on a blank screen: it is read line by line, up to its first fault."""

    def __init__(self, lines, columns):
        self.world = World(lines, columns)
        self.log = []
        self.number = 0
        self.has_refusals = False
        self.fault = None           # the number of the faulty line, and its Fault
        self.update_lines = []      # the number of the line of each doupdate

    def take(self, line):
        """Takes a line without its newline, and answers whether more may follow."""
        self.number += 1
        said = read_line(line)
        if isinstance(said, Fault):
            self.fault = (self.number, said)
            self.tell(said.kind)
            return False
        if said:
            self.make(said)
        return True

    def make(self, said):
        if said.word == 'doupdate':
            self.update_lines.append(self.number)
        try:
            told = answer_text(make(self.world, CALLS[said.word][1], said.arguments))
        except Refused as why:
            self.has_refusals = True
            told = str(why)
        if told is not None:
            self.tell(told)

    def tell(self, text):
        self.log.append(f'line {self.number}: {text}\n')

    def log_text(self):
        return ''.join(self.log)

    def status(self):
        return 2 if self.fault else 1 if self.has_refusals else 0

    def painted(self):
        """What paint prints: the picture of the windows, and nothing after a fault."""
        if self.fault:
            return ''
        return picture_text(self.world.picture(), self.world.screen_cursor(self.world.topmost()))

    def shown(self):
        """What show prints of what was sent."""
        return picture_text(*(self.world.shown or (blank_picture(self.world.lines, self.world.columns), (0, 0))))


def run_script(lines, columns, script):
    run = Run(lines, columns)
    for line in lines_of(script):
        if not run.take(line):
            break
    return run

"""What must hold of a program in another language that makes the calls of a script."""
import re

from oracle.calls import CALLS
from oracle.script import faults_of, lines_of, read_line
from oracle.table import TABLE

from .asking import Asking
from .differing import want
from .program import Program

NO_NUMBER = 65535     # of no window or panel


class Replay(Program):
    """A program that makes the calls of a script, and the program that runs it as it is."""

    def __init__(self, path, work, runner):
        super().__init__(path, work)
        self.runner = runner


def plain(said, form):
    """An argument as such a program reads it: a number, of which 0 is no panel, or the bytes of a text in hexadecimal digits."""
    if form == 'number_or_none':
        return '0' if said is None else str(said or NO_NUMBER)
    if form == 'character':
        return str(said[0])
    return said.hex() if form == 'text' else str(int(said))


def plain_call(call):
    """The call's name in C, and its arguments."""
    forms, _ = CALLS[call.word]
    return ' '.join([TABLE[call.word].name, *map(plain, call.arguments, forms)])


def with_questions(script, text, log):
    """The calls of a script, a line each, which begins with the number of its line there, and questions after some; and the log of all
    together, with that of the calls alone."""
    told = dict(re.findall(r'line (\d+): (.*)\n', log))
    asking, plain, wanted = Asking(script.lines, script.columns), [], []

    def add(number, words, answer_of_it):
        plain.append(f'{number} {words}\n')
        if answer_of_it is not None:
            wanted.append(f'line {number}: {answer_of_it}\n')

    for number, line in enumerate(lines_of(text), 1):
        call = read_line(line)
        if call:
            add(number, plain_call(call), told.get(str(number)))
        for name, arguments, answer in asking.after(line, script.chance):
            add(f'{number}?', ' '.join([name, *map(str, arguments)]), answer)
    return ''.join(plain).encode(), ''.join(wanted)


def is_replayed(replay, script):
    """A program in another language makes the calls of a script with the same bytes, answers and refusals, and is told what the oracle has
    beside them."""
    faults = faults_of(script.text)
    text = script.first_lines(faults[0][0] - 1) if faults else script.text
    ran = replay.runner.run(script.words('run'), text)
    script.replayed = script.replayed or with_questions(script, text, ran.log.decode())
    plain, wanted = script.replayed
    came = replay.run([str(script.lines), str(script.columns)], plain)
    want('the log', re.sub(r'(E\d+) \w+', r'\1', wanted), came.log.decode())
    want('the bytes', ran.out, came.out)
    want('the status', 0, came.status)

"""Runs small programs: the first one of each manual, which shows two windows until a key is typed, and after the word --
lists that scroll, of which each is given more lines than there is room for."""
import shlex
import sys
import tempfile

from pseudoterminal import Terminal

wrong = []


def want(words, terminal, holds, what):
    if not holds:
        wrong.append(f'{words}: {what}; what came last: {terminal.bytes[-300:]!r}')


def ends(words, terminal):
    want(words, terminal, terminal.ends() and terminal.status == 0, f'it ends with 0, and not with {terminal.status}')
    want(words, terminal, not terminal.differences(), 'the terminal is as before')
    terminal.close()


def look_at_first(words):
    terminal = Terminal(shlex.split(words))
    for text in (b'below', b'above'):
        want(words, terminal, terminal.shows(text), f'it shows {text}')
    terminal.type(b'q')
    ends(words, terminal)


def look_at_list(words, file):
    terminal = Terminal([*shlex.split(words), file])
    for text, step in (('line 24', None), ('line 25', b'\x1b[6~'), ('line 25', 10), ('line 15', b'\x1b[5~'),
                       ('line 34', 20), ('line 15\r\n', b'\r')):
        at = len(terminal.bytes)
        if isinstance(step, int):
            terminal.resize(step, 40)
        elif step:
            terminal.type(step)
        want(words, terminal, terminal.shows(text.encode(), 10, at), f'it shows {text!r} after {step!r}')
    ends(words, terminal)


between = sys.argv.index('--')
for first in sys.argv[1:between]:
    look_at_first(first)
with tempfile.NamedTemporaryFile('w') as lines:
    lines.writelines(f'line {number}\n' for number in range(1, 100))
    lines.flush()
    for command in sys.argv[between + 1:]:
        look_at_list(command, lines.name)
for line in wrong:
    print('small:', line)
sys.exit(bool(wrong))

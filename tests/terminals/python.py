"""Tries in Python the example over asyncio, whose time goes on while keys are read, and wrapper, which gives the terminal
back before an exception is told of. The word is the folder of the examples."""
import sys

from pseudoterminal import Terminal

RAISES = 'import curspan\ncurspan.wrapper(lambda terminal, word: int(terminal.key() + word), "one")'
ANSWERS = 'import curspan\nprint(curspan.wrapper(lambda terminal, *, word: terminal.key() + word, word="two"))'
wrong = []


def want(terminal, holds, what):
    if not holds:
        wrong.append(f'{what}; what came last: {terminal.bytes[-300:]!r}')


def ends(words, key, status, text):
    """A program reads a key, and ends so; the text comes after its page."""
    terminal = Terminal(words)
    want(terminal, terminal.shows(b'\x1b[?1049h'), 'it takes the terminal')
    terminal.type(key)
    want(terminal, terminal.ends() and terminal.status == status, f'it ends with {status}, and not with {terminal.status}')
    want(terminal, not terminal.differences(), 'the terminal is as before')
    want(terminal, text in terminal.bytes[terminal.bytes.rfind(b'\x1b[?1049l'):], f'{text} is told on the page of before')
    terminal.close()


clock = Terminal(['python3', f'{sys.argv[1]}/clock.py'])
want(clock, clock.shows(b':'), 'the clock shows a time')
at = len(clock.bytes)
clock.type(b'x')
want(clock, clock.shows(b'\x1b[', 5, at), 'the time goes on, also after a key')
clock.resize(30, 100)
want(clock, clock.shows(b'\x1b[16;', 5), 'the clock follows the size')
clock.type(b'q')
want(clock, clock.ends() and clock.status == 0 and not clock.differences(), 'q ends the clock')
clock.close()
ends(['python3', '-c', RAISES], b'z', 1, b'ValueError')
ends(['python3', '-c', ANSWERS], b'z', 0, b'ztwo')
for line in wrong:
    print('python:', line)
sys.exit(bool(wrong))

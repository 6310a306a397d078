"""Runs the clock of each language, whose commands are the words: it goes on while nothing is typed, draws at once at a
new size and after a stop, and q ends it at once."""
import re
import shlex
import sys
import time

from pseudoterminal import Terminal

failed = 0


def judge(name, what, holds):
    global failed
    failed += not holds
    if not holds:
        print(f'clocks: {name}: not so: {what}')


def look(name, command):
    terminal = Terminal(command, 10, 30)
    judge(name, 'it shows the time', terminal.shows(b':', 10))
    at = len(terminal.bytes)
    end = time.monotonic() + 2.5
    while time.monotonic() < end:
        terminal.read(0.1)
    judge(name, 'the time goes on', len(re.findall(rb'\d', terminal.bytes[at:])) >= 2)
    for lines, columns in ((5, 20), (12, 40)):
        at, begun = len(terminal.bytes), time.monotonic()
        terminal.resize(lines, columns)
        judge(name, f'it is drawn at {lines} by {columns}', terminal.shows(b'\x1b[2J', 10, at))
        judge(name, 'that is at once', time.monotonic() - begun < 0.7)
    terminal.type(b'\x1a')
    judge(name, 'it stops', terminal.stops() and not terminal.differences())
    at, begun = len(terminal.bytes), time.monotonic()
    terminal.goes_on()
    judge(name, 'it is drawn when it goes on', terminal.shows(b'\x1b[2J', 10, at))
    begun = time.monotonic()
    terminal.type(b'aq')    # the second of two keys that come at once is read at once
    judge(name, 'q ends it', terminal.ends() and terminal.status == 0 and time.monotonic() - begun < 0.7)
    judge(name, 'the terminal is as before', not terminal.differences())
    terminal.close()


for words in sys.argv[1:]:
    look(words.split('/')[-1], shlex.split(words))
print(f'clocks: {len(sys.argv) - 1} of them, {failed} times wrong')
sys.exit(bool(failed))

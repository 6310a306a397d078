"""Two terminals in one process show two screens and read two users' keys, in Python; and what a Terminal refuses."""
import os
import pty
import sys
import termios
import threading

import curspan
from curspan import Color

wrong = []


def want(holds, what):
    if not holds:
        wrong.append(what)


def raises(kind, text, function, *arguments, **names):
    try:
        function(*arguments, **names)
    except kind as error:
        want(text in str(error), f'{text!r} is in {error}')
    else:
        want(False, f'{kind} is raised, with {text}')


def read(master):
    """What a terminal got."""
    os.set_blocking(master, False)
    data = b''
    try:
        while part := os.read(master, 65536):
            data += part
    except BlockingIOError:
        pass
    return data


def sends_all_once(screen, master, when):
    read(master)
    count, sent = screen.doupdate(), read(master)
    picture = sent[sent.find(b'\x1b[0m\x1b[2J'):]
    want(picture.count(b'screen 0') == 1 and count == len(picture), f'all is sent once {when}, and counted')


os.environ['TERM'] = 'xterm'
pairs = [pty.openpty() for _ in range(2)]
masters, slaves = [it[0] for it in pairs], [it[1] for it in pairs]
before = [termios.tcgetattr(it) for it in slaves]
terminals = []
for i, slave in enumerate(slaves):
    os.system(f'stty rows {10 + i} cols {40 + i} < {os.ttyname(slave)}')
    terminals.append(curspan.Terminal(slave))
for i, terminal in enumerate(terminals):
    want(terminal.size == (10 + i, 40 + i), 'each has its size')
    screen = terminal.screen()
    want(screen is terminal.screen() and screen.file is terminal, 'a terminal has one screen')
    screen.init_pair(1, Color.RED if i == 0 else Color.GREEN, Color.DEFAULT)
    screen.stdscr.addstr(f'screen {i}', pair=1)
    screen.update_panels()
    want(screen.doupdate() > 0, 'doupdate says how many bytes it sent')
    want(screen.row(0)[0].foreground == (Color.RED, Color.GREEN)[i] and screen.row(0)[0].background is None, 'a row has the colours')
os.write(masters[0], b'a')
os.write(masters[1], '\x1b[1;5Cé'.encode())
want(terminals[1].key(2) == 'ctrl+right' and terminals[1].key(2) == 'é' and terminals[1].key(0) is None, 'the other reads its keys')
want(terminals[0].key(2) == 'a' and terminals[0].key(0.01) is None, 'the first reads its keys')
want(b';31;49mscreen 0' in read(masters[0]) and b';32;49mscreen 1' in read(masters[1]), 'each shows its screen')

os.write(masters[0], b'\x1b[200~one\rtwo\x1b[201~')
pasted = terminals[0].key(2)
want(pasted == curspan.Paste('one\ntwo'), 'a text is pasted')
old = terminals[0].screen()
os.system(f'stty rows 12 cols 50 < {os.ttyname(slaves[0])}')
want(terminals[0].key(2) == 'resize', 'a new size is a key')
new = terminals[0].screen()
want(new is not old and old.closed and (new.lines, new.columns) == (12, 50) and new.stdscr.line(0).rstrip() == 'screen 0', 'a screen is made anew with what it showed')
want(new.stdscr.inch(0, 0).pair == 1, 'its pairs stay')
sends_all_once(new, masters[0], 'after a new size')

raises(curspan.TerminalError, 'open already', curspan.Terminal, slaves[0])
raises(curspan.TerminalError, 'no terminal', curspan.Terminal, os.pipe()[0])
raises(FileNotFoundError, 'No such file', curspan.Terminal, '/nowhere')
raises(ValueError, 'Color.DEFAULT', curspan.Screen(4, 10).init_pair, 1, Color.RED, Color.DEFAULT)
raises(ValueError, "'strict' or 'replace'", curspan.Screen, 4, 10, errors='ignore')
raises(curspan.BadPair, '', new.init_pair, 64, Color.RED, Color.DEFAULT)
thread = threading.Thread(target=lambda: raises(curspan.TerminalError, 'another thread', terminals[0].key, 0))
thread.start()
thread.join()
child = os.fork()
if child == 0:
    try:
        terminals[0].key(0)
    except curspan.TerminalError as error:
        os._exit(0 if 'another process' in str(error) else 1)
    os._exit(2)
want(os.waitpid(child, 0)[1] == 0, 'a forked child is refused')
terminals[0].suspend()
want(termios.tcgetattr(slaves[0]) == before[0], 'a terminal that is suspended has its modes')
sends_all_once(new, masters[0], 'after it was suspended')
for terminal in terminals:
    with terminal:
        pass
    want(terminal.closed, 'a terminal is closed at the end of with')
raises(curspan.TerminalError, 'not open', terminals[0].key)
want([termios.tcgetattr(it) for it in slaves] == before, 'both are given back')
os.environ['TERM'] = 'dumb'
raises(curspan.TerminalError, 'dumb', curspan.Terminal, slaves[0])
os.environ['TERM'] = 'xterm'
last = curspan.Terminal(slaves[0])
os.close(masters[0])
raises(EOFError, 'ended', last.key, 2)

strict, replacing = curspan.Screen(4, 20), curspan.Screen(4, 20, errors='replace')
try:
    strict.stdscr.addstr('résumé.pdf', y=1, x=2)
except curspan.BadCharacter as error:
    want(error.character == 'é' and error.position == 1 and 'U+00E9' in str(error), 'BadCharacter names the character and its place')
else:
    want(False, 'a text with an accent is refused')
replacing.stdscr.addstr('résumé.pdf \u65e5', y=1, x=2)
replacing.stdscr.addch(2, 0, 'ö')
want(replacing.stdscr.line(1).strip() == 'resume.pdf ?' and replacing.stdscr.line(2)[0] == 'o', 'characters are replaced')
raises(TypeError, 'or neither', strict.stdscr.addstr, 'a', y=1)
for it in wrong:
    print(f'two: not so: {it}')
print('two: all is so' if not wrong else f'two: {len(wrong)} times wrong')
sys.exit(bool(wrong))

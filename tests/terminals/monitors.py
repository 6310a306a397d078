"""Runs the monitor of each language, whose commands are the words: looks at its list, its question and its sizes, and at its own size in lines."""
import pathlib
import re
import shlex
import sys
import time

from pseudoterminal import Terminal

ROOT = pathlib.Path(__file__).parents[2]
SOURCES = {'c': (ROOT / 'examples/c/processes.c', 100, r'/\*.*?\*/|^$'), 'python3': (ROOT / 'examples/python/processes.py', 60, r'""".*?"""|^\s*#[^\n]*$'),
           'rust': (ROOT / 'rust/examples/processes.rs', 90, r'^\s*//[^\n]*$'), 'bash': (ROOT / 'examples/processes.sh', 70, r'^\s*#[^\n]*$')}
results = []


def judge(name, what, holds):
    results.append(holds)
    if not holds:
        print(f'monitors: {name}: not so: {what}')


def look_at_source(path, most, comments):
    lines = [it for it in re.sub(comments, '', path.read_text(), flags=re.S | re.M).splitlines() if it.strip()]
    judge(path.name, f'it has {most} lines at most, and not {len(lines)}', len(lines) <= most)
    judge(path.name, 'no line has more than 100 columns', all(len(it) <= 100 for it in path.read_text().splitlines()))


def look(command):
    terminal = Terminal(command)
    name = pathlib.Path(command[-1]).name

    def types(keys, text, what):
        at = len(terminal.bytes)
        terminal.type(keys)
        judge(name, what, terminal.shows(text, 10, at))

    judge(name, 'it lists processes, in colour', terminal.shows(b'q quit', 10) and b';37;44m' in terminal.bytes)
    types(b'k', b'y or n', 'it asks')
    types(b'n', b'\x1b[', 'the question goes')
    types(b'p', b'\x1b[', 'it sorts by number')
    types(b'\x1b[B', b'\x1b[', 'an arrow chooses')
    types(b'k', b'y or n', 'it asks again')
    for lines, columns in ((10, 30), (24, 80)):
        at = len(terminal.bytes)
        terminal.resize(lines, columns)
        judge(name, f'its question stays at {lines} by {columns}', terminal.shows(b'y or n', 10, at))
    types(b'y', b'\x1b[', 'the question goes')
    time.sleep(0.3)
    at = len(terminal.bytes)
    terminal.resize(30, 100)
    judge(name, 'it follows the size', terminal.shows(b'\x1b[30;1H', 10, at))
    time.sleep(0.3)
    terminal.type(b'q')
    judge(name, f'it ends well, and not with {terminal.status}', terminal.ends() and terminal.status == 0)
    judge(name, 'the terminal is as before', not terminal.differences())
    terminal.close()


def panic(command):
    terminal = Terminal(command)
    terminal.shows(b'q quit', 10)
    terminal.type(b'x')
    judge('a panic', 'it ends by its status', terminal.ends() and terminal.status == 101)
    judge('a panic', 'it is told after the terminal is given back', not terminal.differences() and b'told on the page' in terminal.bytes[terminal.bytes.rfind(b'\x1b[?1049l'):])
    terminal.close()


for source in SOURCES.values():
    look_at_source(*source)
for words in sys.argv[1:]:
    look(shlex.split(words))
    if words.endswith('/examples/processes'):
        panic([words.replace('/examples/processes', '/examples/panics')])
print(f'monitors: {sum(results)} hold, {len(results) - sum(results)} do not')
sys.exit(not all(results))

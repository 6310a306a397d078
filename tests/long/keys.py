"""Types keys, pasted texts, sequences that are no key's and escapes by chance at programs that name keys, cut by
chance, and looks at what each names: SECONDS SEED COMMAND.., of which each has its share of the time."""
import pathlib
import random
import shlex
import sys
import tempfile
import time

sys.path.insert(0, str(pathlib.Path(__file__).parents[1] / 'terminals'))
from pseudoterminal import Terminal

SECONDS, CHANCE = float(sys.argv[1]), random.Random(int(sys.argv[2]))
PROGRAMS = [shlex.split(it) for it in sys.argv[3:]]
DELAY = 0.5    # of an escape, which a slow machine mustn't reach between two parts of a sequence
KEYS = {
    b'\x1b[A': 'up', b'\x1bOB': 'down', b'\x1b[1;5C': 'ctrl+right', b'\x1b[3~': 'delete', b'\x1b[15~': 'f5',
    b'\x1b[Z': 'shift+tab', b'\x01': 'ctrl+a', b'\r': 'enter', b'\x7f': 'backspace', b'\x1bx': 'alt+x',
    'é'.encode(): 'é', '日'.encode(): '日', '😀'.encode(): '😀', b'\x1b[97;5u': 'ctrl+a', b'\x1b[9z': 'unknown',
    b'\x1b]11;rgb:0/0/0\x1b\\': 'unknown', b'\x1b[1;9999A': 'unknown',
}
ILL_FORMED = [b'\xff', b'\xf4\x90\x80\x84', b'\xed\xa0\x80', b'\xc0\xaf', b'\xf8\x88\x80\x80\x80']


def some():
    """Some bytes, the names that they have, and whether the delay must end after them."""
    kind = CHANCE.randrange(10)
    if kind == 0:
        text = ''.join(CHANCE.choice('abc é日\t') for _ in range(CHANCE.randrange(30)))
        return b'\x1b[200~' + text.encode() + b'\x1b[201~', [f'paste {text}'], False
    if kind == 1:
        bad = CHANCE.choice(ILL_FORMED)
        return bad, ['unknown'] * len(bad), False
    if kind == 2 and CHANCE.randrange(20) == 0:
        return b'\x1b', ['escape'], True
    keys = [CHANCE.choice([*KEYS, bytes([CHANCE.randrange(33, 127)])]) for _ in range(8)]
    return b''.join(keys), [KEYS.get(it) or it.decode() for it in keys], False


def type_cut(terminal, data):
    while data:
        size = CHANCE.randrange(1, len(data) + 1)
        terminal.type(data[:size])
        data = data[size:]
        if CHANCE.randrange(3) == 0:
            time.sleep(CHANCE.uniform(0, 0.002))


def session(command):
    """Whether the program named what was typed."""
    wanted = []
    with tempfile.NamedTemporaryFile('r', encoding='utf-8') as file:
        terminal = Terminal([*command, file.name], environment={'TERM': 'xterm', 'ESCDELAY': str(int(DELAY * 1000))})
        if not terminal.shows(b'ready', 20):
            sys.exit(f'keys: {command} is not ready')
        for _ in range(60):
            data, names, is_escape = some()
            wanted += names
            type_cut(terminal, data)
            if is_escape:
                time.sleep(2 * DELAY)
        terminal.type(b'\x04')
        ended = terminal.ends(30) and terminal.status == 0 and not terminal.differences()
        terminal.close()
        named = file.read().split('\n')[:-2]
    if ended and named == wanted:
        return len(wanted)
    at = next((i for i, it in enumerate(wanted) if named[i:i + 1] != [it]), len(wanted))
    how = '' if ended else 'it did not end well; '
    print(f'keys: {command[-1]}: {how}from {at} on: {named[at:at + 5]}, and not {wanted[at:at + 5]}')
    return 0


good = True
for program in PROGRAMS:
    end, sessions, count = time.monotonic() + SECONDS / len(PROGRAMS), 0, 0
    while good and (sessions == 0 or time.monotonic() < end):
        keys = session(program)
        good, sessions, count = keys > 0, sessions + 1, count + keys
        print(f'\rkeys: {program[-1]}: {sessions} sessions, {count} keys', end='', file=sys.stderr, flush=True)
    print(file=sys.stderr)
sys.exit(not good)

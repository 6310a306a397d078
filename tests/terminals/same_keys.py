"""Types what is in tests/c/typed at programs that name keys, cut at each byte, and the keys of terminals also at once, and compares what
these name in each language, and with the names of the keys that the table of sequences has. The words are the folder of tests, and of each
program its command. One of bash, which has no raw mode, is compared in what terminals send at once and in the table."""
import pathlib
import re
import shlex
import sys
import tempfile
import time

from pseudoterminal import Terminal

TESTS = pathlib.Path(sys.argv[1])
PROGRAMS = [shlex.split(it) for it in sys.argv[2:] if not it.startswith('bash ')]
SCRIPTS = [shlex.split(it) for it in sys.argv[2:] if it.startswith('bash ')]
NAMES = {'PPAGE': 'pageup', 'NPAGE': 'pagedown', 'IC': 'insert', 'DC': 'delete', 'BEG': 'begin', 'SR': 'shift+up', 'SF': 'shift+down', 'BTAB': 'shift+tab',
         'SPREVIOUS': 'shift+pageup', 'SNEXT': 'shift+pagedown', 'SIC': 'shift+insert', 'SDC': 'shift+delete', 'SHOME': 'shift+home', 'SEND': 'shift+end',
         'SRIGHT': 'shift+right', 'SLEFT': 'shift+left', 'EOL': 'ctrl+end'}


def bytes_of(word):
    """The bytes of a word as printf has them."""
    return re.sub(rb'\\0?([0-7]{3})|\\e', lambda it: bytes([int(it[1], 8)]) if it[1] else b'\x1b', word.encode())


def keys_of(command, terminal_type, parts, pause):
    """What a program names the keys that are typed in parts, with a pause after each."""
    with tempfile.NamedTemporaryFile('r', encoding='utf-8') as file:
        terminal = Terminal([*command, file.name], environment={'TERM': terminal_type, 'ESCDELAY': '5000'})
        if not terminal.shows(b'ready'):
            sys.exit(f'keys: {command} is not ready: {terminal.bytes!r}')
        for part in parts:
            terminal.type(part)
            if pause:
                time.sleep(pause)
        terminal.type(b'\x04')
        if not terminal.ends(10) or terminal.status != 0 or terminal.differences():
            sys.exit(f'keys: {command} ended with {terminal.status}, and left other than before: {terminal.differences()}')
        terminal.close()
        return file.read().split('\n')[:-2]


def name_of(key):
    """The name of a key of curses.h, or nothing where it is one of the many with modifiers."""
    function = re.match(r'F\((\d+)\)', key)
    if function:
        return f'f{function[1]}' if int(function[1]) <= 12 else None
    return NAMES.get(key, key.lower())


def sequences():
    """The sequences of all terminals, and what they are named."""
    yield b'\x7f', 'backspace'
    table, _, _ = (TESTS.parent / 'c/sequences.c').read_text().partition('/* of the Linux console alone */')
    for text, key in re.findall(r'S\("([^"]*)", (\w+(?:\(\d+\))?)\)', table):
        if name_of(key):
            yield b'\x1b' + text.encode(), name_of(key)


def compare(what, answers):
    """Whether all programs named the same keys."""
    if all(it == answers[0] for it in answers):
        return True
    print(f'keys: {what}: not the same')
    for command, keys in zip(PROGRAMS, answers):
        print(f'  {command[0]}:', [f'{at}: {key}' for at, key in enumerate(keys) if key != (answers[0][at:] or [''])[0]])
    return False


good, count = True, 0
for typed in sorted((TESTS / 'c/typed').iterdir()):
    kind = typed.suffix[1:].replace('profile', 'xterm')
    lines = [it for it in typed.read_text().splitlines() if not it.startswith('#')]
    whole = [bytes_of(word).replace(b'\x04', b'') for line in lines for word in line.split() if word[0] != '@']
    each = [bytes([it]) for it in b''.join(whole)]
    cut = [keys_of(command, kind, each, 0.003) for command in PROGRAMS]
    good &= compare(f'{typed.name}, cut at each byte', cut)
    count += len(cut[0])
    if typed.stem != 'keys':
        continue
    at_once = [keys_of(command, kind, [bytes_of(lines[0])], 0) for command in PROGRAMS]
    good &= compare(f'{kind}, at once', at_once)
    for command in SCRIPTS:
        keys = keys_of(command, kind, [bytes_of(lines[0]).replace(b'\x1a', b'')], 0)
        good &= compare(f'{kind}, at once, in bash', [[it for it in at_once[0] if it != 'ctrl+z'], keys])
    if at_once[0] != cut[0][:len(at_once[0])] or 'unknown' in at_once[0] or 'escape' in at_once[0]:
        print(f'keys: {kind}: cut at each byte they are others, or some are unknown: {at_once[0]} and {cut[0]}')
        good = False
    good &= compare(f'{kind}, all that is typed', [keys_of(command, kind, whole, 0.02) for command in PROGRAMS])
table = list(sequences())
for command in [PROGRAMS[0], *SCRIPTS]:
    named = keys_of(command, 'xterm', [it for it, _ in table], 0)
    if named != [it for _, it in table]:
        print(f'keys: of the table, {command[0]}:', [it for it in zip(table, named) if it[0][1] != it[1]])
        good = False
texts = [b'a\xc3\xa9', b'\x1b[1;5D\x1b[1;6H\x1b[5;3~', b'\x1b[200~two\rlines\x1b[201~x', b'\x01\x1a\x1c\r\t', b'\x1bx\x1b\r', b'\xff\xe6\x97']
wanted = ['a', 'é', 'ctrl+left', 'ctrl+shift+home', 'alt+pageup', 'paste two', 'lines', 'x', 'ctrl+a', 'ctrl+z',
          'ctrl+\\', 'enter', 'tab', 'alt+x', 'alt+enter', 'unknown', 'unknown']
for command in PROGRAMS:
    keys = keys_of(command, 'xterm', texts, 0)
    if keys != wanted:
        print(f'keys: {command[0]}: {keys}, and not {wanted}')
        good = False
LANGUAGES = len(PROGRAMS) + len(SCRIPTS)
print(f'keys: {count} keys, and {len(table)} of the table, are the same in {LANGUAGES} languages' if good
      else 'keys: they are not the same')
sys.exit(not good)

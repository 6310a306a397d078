"""Scripts over screen.bash in situations in which such scripts hung, or left their terminal taken: each ends by itself or by Ctrl-C within a
second, with a sentence where something is wrong, and gives the terminal back. The words are the folder of screen.bash and that of scripts."""
import os
import re
import signal
import sys
import time

from pseudoterminal import Terminal

SCREEN, FOLDER = sys.argv[1:3]
HEAD = f'. {SCREEN}/screen.bash\n'
# Of each: its name, the script, what is typed once `ready` is shown, the status, and a pattern of what is said after the page.
SITUATIONS = [
    ('a loop behind a pipe', 'curspan_open || exit\nprintf "a\\nb\\n" | while read -r word; do curspan_text 0 "$word"; done\n' 'READY', b'x', 1,
     r'line 3: curspan_text: this is a subshell'),
    ('an answer by a substitution', 'curspan_open || exit\nwin=$(curspan_ask newwin 3 3 1 1)\nREADY', b'x', 1, r'line 3: curspan_ask: this is a subshell'),
    ('a subshell', 'curspan_open || exit\n(curspan_call move 0 1 1)\nREADY', b'x', 1, r'line 3: curspan_call: this is a subshell'),
    ('a command behind', 'curspan_open || exit\nsleep 30 &\n(sleep 30; true) &\nREADY', b'x', 0, ''),
    ('a coproc of its own', 'curspan_open || exit\ncoproc other { sleep 30; }\nREADY', b'x', 0, ''),
    ('a coproc before', 'coproc other { sleep 30; }\ncurspan_open || exit\nREADY', b'x', 0, ''),
    ('another IFS', 'IFS=,\ncurspan_open || exit\nREADY', b'x', 0, ''),
    ('another IFS, of digits', 'IFS=0123456789\ncurspan_open 10 20 || exit\nREADY', b'x', 0, ''),
    ('no standard input and error', 'exec 0<&- 2>&-\ncurspan_open || exit\nREADY', b'x', 0, ''),
    ('no standard streams at all', 'exec 0<&- 1>&- 2>&-\ncurspan_open || exit\nREADY', b'x', 0, ''),
    ('another program in its place', 'curspan_open || exit\nSHOWN\ncurspan_read_key\nexec sleep 0.3\n', b'x', 0, ''),
    ('a trap before', 'trap "echo my own trap" EXIT\ncurspan_open || exit\nREADY', b'x', 0, 'my own trap'),
    ('a trap after', 'curspan_open || exit\ntrap "echo my own trap" EXIT\nSHOWN\ncurspan_read_key\nexit 3\n', b'x', 3, 'my own trap'),
    ('a trap and Ctrl-C', 'trap "echo my own trap" EXIT\ncurspan_open || exit\nREADY', b'\x03', 130, 'my own trap'),
    ('no room', 'curspan_open 100 20 || echo "its status is $?"\n', b'', 0, r'line 2: curspan_open: the terminal has 24 lines of 80 columns, and 100 of 20[^$]*its status is 1'),
    ('wrong sizes', 'curspan_open ten 20 || echo "its status is $?"\n', b'', 0, r'line 2: curspan_open: lines and columns are wanted[^$]*ten 20[^$]*its status is 1'),
    ('no program', 'curspan_program=/nowhere\ncurspan_open || echo "its status is $?"\n', b'', 0, r'line 3: curspan_open: the program /nowhere doesn.t run[^$]*its status is 1'),
    ('open already', 'curspan_open || exit\ncurspan_open || again=$?\nREADY', b'x', 1, r'line 3: curspan_open: a screen is open already'),
    ('nothing open', 'curspan_show || echo "its status is $?"\n', b'', 0, r'line 2: curspan_show: no screen is open[^$]*its status is 1'),
    ('a misspelt call', 'curspan_open || exit\ncurspan_call adstr 0 hello\nREADY', b'', 2, r'line 3: curspan_call: .*unknown call "adstr": see addstr'),
    ('a word that is no number', 'curspan_open || exit\ncurspan_call move 0 one 1\nREADY', b'', 2, r'line 3: curspan_call: .*column 8: move wants a number'),
    ('a refused call', 'curspan_open || exit\ncurspan_call move 0 99 99 || said=$?\nREADY', b'x', 1, r'line 3: curspan_call: move 0 99 99 is refused: E5 OutsideWindow'),
    ('a program that is killed', 'curspan_open || exit\nSHOWN\nkill -KILL "$curspan_drawer"\nsleep 0.2\ncurspan_show\ncurspan_show\nREADY', b'', 2,
     r'line [78]: curspan_show: the program has ended'),
    ('a shell of the program that is killed', 'curspan_open || exit\nkill -KILL "$curspan_guard"\nsleep 0.1\nREADY', b'', 2,
     r'line [56]: curspan_\w+: the program has ended'),
    ('Ctrl-C while it waits for a key', 'curspan_open || exit\nREADY', b'\x03', 130, ''),
    ('Ctrl-C while it sleeps', 'curspan_open || exit\nSHOWN\nsleep 30\n', b'\x03', 130, ''),
    ('Ctrl-C while a command runs that ignores it',
     "curspan_open || exit\nSHOWN\nbash -c 'trap \"\" INT; sleep 0.4'\nREADY", b'\x03', 130, ''),
    ('Ctrl-C while it draws', 'curspan_open || exit\nSHOWN\nwhile :; do curspan_call move 0 1 1; curspan_show; done\n', b'\x03', 130, ''),
    ('a line that is asked for', 'curspan_open || exit\nSHOWN\ncurspan_ask_line 0 2 2 20 old\nline=$curspan_answer\ncurspan_close\necho "it is $line"\n',
     b'\x7f\x7f\x7fnew x\x7fline\r', 0, 'it is new line'),
]


def script_of(text):
    shown = 'curspan_text 0 "ready"\ncurspan_show'
    return HEAD + text.replace('READY', f'{shown}\ncurspan_read_key\ncurspan_close').replace('SHOWN', shown)


def try_one(name, text, keys, status, pattern, words=None, act=None):
    path = os.path.join(FOLDER, 'script')
    with open(path, 'w', encoding='utf-8') as file:
        file.write(script_of(text))
    terminal = Terminal(words or ['bash', path], environment={'SCRIPT': path})
    wrong = []
    if keys or act:
        if not terminal.shows(b'ready', 5):
            wrong.append('it shows its text')
        time.sleep(0.1)
        (act or terminal.type)(terminal if act else keys)
    limit = 1.0 if keys or act else 5.0
    begun = time.monotonic()
    if not terminal.ends(limit + 4):
        wrong.append('it ends')
    elif time.monotonic() - begun > limit:
        wrong.append(f'it ends within a second: it took {time.monotonic() - begun:.2f}')
    elif terminal.status != status:
        wrong.append(f'its status is {status}, and not {terminal.status}')
    wrong += [f'{it} is as before' for it in terminal.differences()]
    after = terminal.bytes[terminal.bytes.rfind(b'\x1b[?1049l') + 1:].decode('utf-8', 'replace').replace('\r', '')
    if name in ('a trap after', 'two in a pipeline'):
        after = terminal.bytes.decode()    # the program gives the terminal back once the script has ended
    if not re.search(pattern, after):
        wrong.append(f'it says {pattern}')
    terminal.close()
    for it in wrong:
        print(f'shell: {name}: not so: {it}; what came: {after[-400:]!r}')
    return not wrong


def resize(terminal):
    terminal.resize(30, 100)
    terminal.shows(b'30 by 100', 5)
    terminal.type(b'q')


def end_as_it_closes(terminal):
    terminal.type(b'x')
    terminal.shows(b'\x1b[?1049l')
    os.kill(terminal.process, signal.SIGTERM)


def has_no_loop_that_drops_signals():
    """Bash drops one that comes just as break or continue ends a turn of a loop."""
    with open(f'{SCREEN}/screen.bash', encoding='utf-8') as file:
        found = re.findall(r'^[^#\n]*\b(?:break|continue)\b', file.read(), re.M)
    for it in found:
        print(f'shell: screen.bash: a loop drops signals: {it}')
    return not found


def others():
    yield has_no_loop_that_drops_signals()
    yield try_one('a signal while it closes', 'curspan_open || exit\nSHOWN\ncurspan_read_key\ncurspan_close\nsleep 5\n', b'', -signal.SIGTERM, '',
                  act=end_as_it_closes)
    yield try_one('two in a pipeline', 'curspan_open || exit\nREADY', b'x', 0, 'another script has this terminal',
                  words=['bash', '-c', 'bash "$SCRIPT" | bash "$SCRIPT"; true'])
    yield try_one('a new size', 'curspan_open || exit\nSHOWN\nuntil curspan_read_key && [ "$curspan_key" = q ]; do curspan_resize\n'
                  'curspan_text 0 "$curspan_lines by $curspan_columns"; curspan_show; done\ncurspan_close\n', b'', 0, '', act=resize)
    for number in (signal.SIGTERM, signal.SIGHUP, signal.SIGKILL):
        yield try_one(f'signal {number.name}', 'curspan_open || exit\nREADY', b'', -9 if number == signal.SIGKILL else 128 + number, '',
                      act=lambda terminal, number=number: os.kill(terminal.process, number))


results = [try_one(*it) for it in SITUATIONS if len(sys.argv) < 4 or sys.argv[3] in it[0]]
if len(sys.argv) < 4:
    results += list(others())
print(f'shell: {sum(results)} situations end well, {len(results) - sum(results)} do not')
sys.exit(not all(results))

"""Ends programs by signals by chance, at moments by chance, each of them COUNT times, a third with a terminal that
takes no bytes, since Ctrl-S was typed: COUNT SEED COMMAND.., of which the modes are as before each time, and where
bytes are taken the page and the cursor too. A script's terminal takes bytes always, since bash itself waits for it, and
no script gets SIGQUIT, which bash passes over."""
import os
import pathlib
import random
import shlex
import signal
import sys
import time

sys.path.insert(0, str(pathlib.Path(__file__).parents[1] / 'terminals'))
from pseudoterminal import Terminal

COUNT, CHANCE, PROGRAMS = int(sys.argv[1]), random.Random(int(sys.argv[2])), [shlex.split(it) for it in sys.argv[3:]]
SIGNALS = [getattr(signal, f'SIG{it}') for it in
           'INT TERM HUP QUIT USR1 USR2 ALRM ABRT XCPU SYS TRAP IO RTMIN RTMAX'.split()]


def try_one(command, number, moment, is_stopped):
    terminal = Terminal(command, environment={'RUST_BACKTRACE': '0'})
    terminal.shows(b'\x1b[?1049h', 20)
    limit = time.monotonic() + moment
    while time.monotonic() < limit:
        terminal.read(0.001)
    if is_stopped:
        terminal.type(b'\x13')
        time.sleep(0.02)
    os.kill(terminal.process, number)
    end = time.monotonic() + 5
    while terminal.status is None and time.monotonic() < end:
        terminal.hears()
        time.sleep(0.002)
    if terminal.status is None and is_stopped and command[0] == 'python3' and number == signal.SIGINT:
        terminal.type(b'\x11')    # it ends once it has told there of KeyboardInterrupt
        terminal.ends(5)
    ended = terminal.status is not None
    found = [it for it in terminal.differences(3) if it == 'its modes' or not is_stopped]
    terminal.close()
    if not ended or found:
        print(f'endings: {command[-1]}, {number.name} after {moment:.4f} s{", stopped" if is_stopped else ""}: '
              f'{"it ended" if ended else "it did not end"}, and other than before: {found}')
    return ended and not found


failed = 0
for program in PROGRAMS:
    name = pathlib.Path(program[-1]).name
    is_script = program[0] == 'bash'
    for i in range(COUNT):
        number = CHANCE.choice([it for it in SIGNALS if not is_script or it != signal.SIGQUIT])
        failed += not try_one(program, number, CHANCE.uniform(0, 0.3), i % 3 == 2 and not is_script)
        print(f'\rendings: {name}: {i + 1} of {COUNT}, {failed} failed', end='', file=sys.stderr, flush=True)
    print(file=sys.stderr)
sys.exit(bool(failed))

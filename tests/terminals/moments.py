"""Ends each program, whose commands are the words after a count and a seed, so many times at moments by chance: by
Ctrl-C, TERM, HUP, Ctrl-Z with fg and then q, and a fault, in turn. A fault is an exception in Python, USR1 in a script,
a panic in the program for that, and elsewhere ABRT. The terminal is as before each time."""
import os
import random
import shlex
import signal
import sys
import time

from pseudoterminal import Terminal

COUNT, CHANCE = int(sys.argv[1]), random.Random(int(sys.argv[2]))
# Runs a program in Python in which SIGUSR1 is an exception.
RAISING = """import runpy, signal, sys
def fail(number, frame): raise RuntimeError('a fault')
signal.signal(signal.SIGUSR1, fail)
runpy.run_path(sys.argv[1], run_name='__main__')"""
again = []
ENDS = ['Ctrl-C', 'TERM', 'HUP', 'Ctrl-Z', 'fault']


def end(terminal, command, how):
    if how == 'Ctrl-C':
        may_be_lost = b'\x1b[?1049h' not in terminal.bytes
        terminal.type(b'\x03')
        if may_be_lost and not terminal.ends(5):
            again.append(command[-1])    # bash drops one at its begin, and Python in callbacks of the imports that it begins with
            terminal.type(b'\x03')
    elif how in ('TERM', 'HUP'):
        os.kill(terminal.process, {'TERM': signal.SIGTERM, 'HUP': signal.SIGHUP}[how])
    elif how == 'fault' and command[-1].endswith('/panics'):
        terminal.type(b'x')
    elif how == 'fault':
        os.kill(terminal.process, signal.SIGUSR1 if command[0] in ('python3', 'bash') else signal.SIGABRT)
    else:
        terminal.type(b'\x1a')
        if not terminal.stops(10):
            return terminal.has_ended()    # it came before the terminal was taken, and the mode of before took the key
        found = terminal.differences(2)
        if found:
            return False
        terminal.goes_on()
        terminal.type(b'q')
    return True


def try_one(command, how, moment):
    terminal = Terminal(command, environment={'RUST_BACKTRACE': '0'})    # a backtrace takes long
    limit = time.monotonic() + moment
    while time.monotonic() < limit:
        terminal.read(0.001)
    state = 'taken' if b'1049h' in terminal.bytes else 'not taken yet'
    good = end(terminal, command, how) and terminal.ends(15)
    found = terminal.differences(3)
    if not good or found:
        print(f'moments: {command[-1]}, {how} after {moment:.4f} s, {state}: {"it ends, and " if good else "it does not end, or was not given back; "}'
              f'other than before: {found}; what came last: {terminal.bytes[-200:]!r}')
    terminal.close()
    return good and not found


failed = 0
for words in sys.argv[3:]:
    command = shlex.split(words)
    if command[0] == 'python3':
        command = ['python3', '-c', RAISING, *command[1:]]
    begun = time.monotonic()
    first = Terminal(command)
    first.shows(b'q quit', 20)
    span = (time.monotonic() - begun) * 1.5
    first.type(b'q')
    first.ends(10)
    first.close()
    failed += sum(not try_one(command, ENDS[i % len(ENDS)], CHANCE.uniform(0, span)) for i in range(COUNT))
print(f'moments: {COUNT} in each of {len(sys.argv) - 3} languages, {failed} did not give the terminal back; Ctrl-C was typed again {len(again)} times')
sys.exit(bool(failed))

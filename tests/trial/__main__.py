"""Goes through the seeds: for each a script and a stream, and all that must hold of them."""
import argparse
import os
import random
import sys
import tempfile
import time

from . import of_scripts, of_streams, of_writes
from .beside import Beside, is_the_same
from .differing import Differs
from .of_scripts import Script, reads_few_cells
from .of_streams import Stream
from .program import Program
from .replaying import Replay, is_replayed
from .scripts import script_of
from .shrinking import smallest_script, smallest_stream
from .streams import stream_of

SCRIPT_CHECKS = of_scripts.CHECKS + of_writes.CHECKS
SECONDS_BETWEEN = 10


def read_words():
    parser = argparse.ArgumentParser(prog='tests/random', description='Tries scripts and streams by chance, of COUNT seeds from SEED on.')
    parser.add_argument('count', metavar='COUNT', type=int, help='how many seeds are tried')
    parser.add_argument('seed', metavar='SEED', type=int, nargs='?', help='the first seed; the time if left out')
    parser.add_argument('--program', required=True, metavar='FILE', help='the program, in place of the one that was built')
    parser.add_argument('--probe', required=True, metavar='FILE', help='the program that counts composed cells, likewise')
    parser.add_argument('--replay', metavar='FILE', action='append', default=[], help='try scripts alone, through programs of other languages')
    parser.add_argument('--beside', metavar='FILE', help='look alone whether another program gives the same')
    parser.add_argument('--print', action='store_true', help='print the scripts and the streams, and try nothing')
    parser.add_argument('--whole', action='store_true', help='print what fails as it is, and make nothing smaller')
    return parser.parse_args()


def spelled(byte):
    return '\\\\' if byte == 92 else chr(byte) if 32 <= byte <= 126 else '\\n\n' if byte == 10 else f'\\x{byte:02x}'


def tell_text(name, text):
    """A text as a case has it: plain where each line can be seen, and else by escapes."""
    lines = text.split(b'\n')
    if lines[-1] == b'' and all(byte in range(32, 127) for line in lines for byte in line) and len(text) < 4000:
        shown = '\n'.join(line.decode() + ('$' if line.endswith((b' ', b'$')) else '') for line in lines)
        print(f'--- {name}\n{shown}', end='')
    else:
        print(f'--- {name}, in which a backslash begins an escape\n' + ''.join(map(spelled, text)))


class Trial:
    """The programs that are tried."""

    def __init__(self, words, work):
        self.program = Program(words.program, work)
        self.probe = Program(words.probe, work) if os.access(words.probe, os.X_OK) else None
        self.replays = [Replay(path, work, self.program) for path in words.replay]
        self.beside = Beside(Program(words.beside, work), self.program) if words.beside else None
        self.makes_smaller = not words.whole

    def checks(self):
        """Each check of a script, and the program that it is of."""
        if self.beside:
            return [(is_the_same, self.beside)]
        if self.replays:
            return [(is_replayed, replay) for replay in self.replays]
        counting = [(reads_few_cells, self.probe)] if self.probe else []
        return [(check, self.program) for check in SCRIPT_CHECKS] + counting

    def try_seed(self, seed):
        """Answers whether all holds of a seed's script and stream."""
        script = Script(*script_of(random.Random(f'script {seed}')))
        if self.replays:
            return all(self.holds(check, program, script, seed) for check, program in self.checks())
        of_stream = [(is_the_same, self.beside)] if self.beside else [(check, self.program) for check in of_streams.CHECKS]
        stream = Stream(*stream_of(random.Random(f'stream {seed}')))
        return (all(self.holds(check, program, script, seed) for check, program in self.checks())
                and all(self.holds(check, program, stream, seed) for check, program in of_stream))

    def holds(self, check, program, tried, seed):
        """Answers whether a check holds of a script or a stream, and else tells of the smallest of which it doesn't."""
        def failure(tried):
            tried.chance = random.Random(f'{check.__name__} {seed}')
            try:
                check(program, tried)
            except Differs as differs:
                return differs
            return None

        def other(text):
            return type(tried)(tried.lines, tried.columns, text)
        if failure(tried) is None:
            return True
        text = tried.text
        if self.makes_smaller:
            print(f'random: seed {seed}: {check.__name__} does not hold; making it smaller', file=sys.stderr)
            smallest = smallest_script if isinstance(tried, Script) else smallest_stream
            text = smallest(text, lambda text: failure(other(text)) is not None)
        self.tell(failure(other(text)), check, other(text), seed)
        return False

    @staticmethod
    def tell(differs, check, tried, seed):
        print(f'random: seed {seed} fails in {check.__name__}. {" ".join(check.__doc__.split())}')
        print('It fails on:')
        print(f'--- size {tried.lines} {tried.columns}')
        tell_text('script' if isinstance(tried, Script) else 'stream', tried.text)
        print(f'differs in {differs.what}:')
        for name, value in (('wanted', differs.wanted), ('came', differs.came)):
            print(f'  {name}: {value!r}')
        print(f'again: tests/random 1 {seed}')


def print_seed(seed):
    for name, make in (('script', script_of), ('stream', stream_of)):
        lines, columns, text = make(random.Random(f'{name} {seed}'))
        print(f'--- size {lines} {columns}')
        tell_text(name, text)


def try_seeds(words, first):
    """Goes through the seeds up to the first that fails, and answers the exit status."""
    told = time.monotonic()
    with tempfile.TemporaryDirectory() as work:
        trial = Trial(words, work)
        for seed in range(first, first + words.count):
            if not trial.try_seed(seed):
                return 1
            if time.monotonic() - told > SECONDS_BETWEEN:
                told = time.monotonic()
                print(f'random: {seed - first + 1} of {words.count} passed', file=sys.stderr)
    counted = '' if trial.probe or trial.replays or trial.beside else ', and no cells were counted: there is no probe'
    print(f'random: {words.count} passed, from seed {first} on{counted}; go on by tests/random 1000 {first + words.count}')
    return 0


def main():
    words = read_words()
    first = int(time.time()) if words.seed is None else words.seed
    if words.print:
        for seed in range(first, first + words.count):
            print_seed(seed)
        return 0
    if not os.access(words.program, os.X_OK):
        print(f'random: there is no program {words.program}', file=sys.stderr)
        return 125
    return try_seeds(words, first)


sys.exit(main())

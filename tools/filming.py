"""A film of a program in a terminal: it is recorded while keys are typed, and drawn in SVG."""
import dataclasses
import fcntl
import itertools
import pathlib
import re
import subprocess
import sys
import tempfile
import termios
import zipfile

from drawing import ROOT, drawing, picture, show, size_of

PROGRAM, RECORDING, FILM = ROOT / 'examples/python/shopping.py', ROOT / 'docs/film.typed', ROOT / 'docs/film.svg'
TITLE = 'A shopping list in a terminal: things are ticked, a question is answered, and the terminal gets smaller'
KEYS = {'up': b'\x1b[A', 'down': b'\x1b[B', 'space': b' '}
CLEAR, MODE = b'\x1b[2J', rb'\x1b\[\?\d*[hl]'
LONGEST = 120   # line of a recording


@dataclasses.dataclass
class Step:
    """For how many seconds a picture is shown, the key that is typed before it or a new size as `@14x58`, and what the
    program sends then: no modes, and after a new size what comes from the clear on."""
    seconds: float
    typed: str
    sent: bytes = b''

    @property
    def size(self):
        """The lines and columns of a new size, or None."""
        found = re.fullmatch(r'@(\d+)x(\d+)', self.typed)
        return found and (int(found[1]), int(found[2]))


def read_recording(text):
    """The steps of a recording. In what was sent a backslash begins an escape, and line ends don't count."""
    steps = []
    for line in text.splitlines():
        if line.startswith('--- '):
            _, seconds, typed = line.split()
            steps.append(Step(float(seconds), typed))
        else:
            steps[-1].sent += line.encode().decode('unicode_escape').encode()
    return steps


def write_recording(steps):
    lines = []
    for step in steps:
        lines += [f'--- {step.seconds:g} {step.typed}', '']
        for item in re.findall('\x1b?[^\x1b]+', step.sent.decode()):
            item = re.sub(' $', r'\\x20', item.encode('unicode_escape').decode())
            if len(lines[-1] + item) > LONGEST:
                lines.append('')
            lines[-1] += item
    return '\n'.join([*lines, ''])


def settle(terminal):
    """Reads until the program has taken what was typed, and waits for more."""
    looks = 0
    while looks < 3:
        if terminal.has_ended():
            sys.exit(f'film: {PROGRAM} has ended: {terminal.bytes.decode()}')
        has_sent, is_typed = terminal.read(0.02), any(fcntl.ioctl(terminal.slave, termios.FIONREAD, bytes(4)))
        state = pathlib.Path(f'/proc/{terminal.process}/stat').read_text().rpartition(')')[2].split()[0]
        looks = 0 if has_sent or is_typed or state != 'S' else looks + 1


def record(steps):
    """The steps, with what the program sends now."""
    sys.path.append(str(ROOT / 'tests/terminals'))
    from pseudoterminal import Terminal
    with tempfile.TemporaryDirectory() as work:
        subprocess.run([sys.executable, '-B', ROOT / 'python/wheel.py', 'build', work], check=True, stdout=sys.stderr)
        zipfile.ZipFile(next(pathlib.Path(work).glob('*.whl'))).extractall(work)
        terminal = Terminal([sys.executable, '-B', str(PROGRAM)], *steps[0].size, {'PYTHONPATH': work})
        recorded = []
        try:
            for step in steps:
                if step.size:
                    terminal.resize(*step.size)
                    terminal.shows(CLEAR)
                else:
                    terminal.type(KEYS.get(step.typed, step.typed.encode()))
                settle(terminal)
                sent = re.sub(MODE, b'', terminal.bytes)
                recorded.append(dataclasses.replace(step, sent=sent[sent.index(CLEAR):] if step.size else sent))
                terminal.bytes = b''
        finally:
            terminal.close()
    return recorded


def screens(steps):
    """After each step what was sent since the last size, and that size."""
    for step in steps:
        sent, size = (step.sent, step.size) if step.size else (sent + step.sent, size)
        yield sent, *size


def shown(number, since, until):
    """The rule that shows a picture from one share of the time to another."""
    states = ((0, 'hidden'), (since, 'visible'), (until, 'hidden'))
    frames = ''.join(f'{share:g}%{{visibility:{state}}}' for share, state in states)
    return f'#p{number}{{animation-name:p{number}}}@keyframes p{number}{{{frames}}}'


def film(steps):
    """The drawing of all pictures, one after the other. Where nothing moves, the longest is seen."""
    terminals = [show(*it) for it in screens(steps)]
    starts = [0, *itertools.accumulate(it.seconds for it in steps)]
    shares = [100 * it / starts[-1] for it in starts]
    longest = max(range(len(steps)), key=lambda number: steps[number].seconds)
    width, height = map(max, zip(*map(size_of, terminals)))
    return drawing(
        width, height, TITLE, '<style>',
        f'.p{{visibility:hidden;animation:{starts[-1]:g}s step-end infinite}}#p{longest}{{visibility:visible}}',
        '@media(prefers-reduced-motion){.p{animation:none}}',
        *(shown(number, *its) for number, its in enumerate(zip(shares, shares[1:]))), '</style>',
        *(f'<g class="p" id="p{number}">\n{picture(it)}\n</g>' for number, it in enumerate(terminals)))

"""What must hold of a stream, whatever bytes it has."""
import random

from oracle.printing import picture_text
from oracle.terminal import Terminal

from .differing import want
from .program import Came, cut


class Stream:
    """A stream to a terminal of a size."""

    jobs = ('show',)

    def __init__(self, lines, columns, text):
        self.lines = lines
        self.columns = columns
        self.text = text
        self.chance = random.Random(0)

    def words(self, _='show'):
        return ['show', '--lines', str(self.lines), '--cols', str(self.columns)]


def is_shown(program, stream):
    """The picture is the oracle's, and the log has the offset of what isn't in the profile."""
    terminal = Terminal(stream.lines, stream.columns)
    failure = terminal.read(stream.text)
    picture = picture_text(terminal.picture, terminal.cursor, terminal.rendition).encode()
    log = b'' if failure is None else b'offset %d: not in the profile\n' % failure
    want('what show prints', Came(picture, log, 0 if failure is None else 1), program.run(stream.words(), stream.text))


def is_shown_in_pieces(program, stream):
    """A stream that is cut anywhere shows the same."""
    whole = program.run(stream.words(), stream.text)
    for sizes in ([1], [stream.chance.randint(2, 256)], [stream.chance.randint(1, 256), 256]):
        want('show of a stream in pieces', whole, program.run_in_pieces(stream.words(), cut(stream.text, sizes)))


CHECKS = (is_shown, is_shown_in_pieces)

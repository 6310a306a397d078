"""Wrong bodies: edits of the code that the prover must refuse.

crates/NAME/wrong/PATH.edits holds those of crates/NAME/src/PATH.rt in the order of the code, with an empty line between
two, and PATH.written.edits those that tools/calls writes. A wrong body is a line with its name, which ` (telling)`
follows where ./test tries it, and pairs of lines `old: TEXT` and `new: TEXT`. An old text is in the file once, as the
pairs before it leave the file.
"""
import glob
import re
import sys

# A wrong body, and a pair of it.
BODY = re.compile(r'(\w+)( \(telling\))?((?:\nold: .+\nnew:.*)+)')
PAIR = re.compile(r'\nold: (.+)\nnew: ?(.*)')


class WrongBody:
    """A wrong body: the file that holds it, its crate, the file of that crate that it changes, and pairs of texts."""

    def __init__(self, path, name, is_telling, pairs):
        self.path, self.name, self.is_telling, self.pairs = path, name, is_telling, pairs
        self.crate, _, source = path.removeprefix('crates/').partition('/wrong/')
        self.file = f'src/{source.removesuffix(".edits").removesuffix(".written")}.rt'

    def __str__(self):
        return f'{self.path}: {self.name}'

    def text(self):
        """Its lines as its file holds them."""
        return self.name + ' (telling)' * self.is_telling + '\n' + self.lines()

    def edit(self):
        """Its lines as `rt must-fail` reads them, in a file of its own."""
        return f'file: {self.file}\n{self.lines()}'

    def lines(self):
        return ''.join(f'old: {old}\nnew: {new}\n' for old, new in self.pairs)


def text_of(bodies):
    """The text of a file that holds some wrong bodies."""
    return '\n'.join(it.text() for it in bodies)


def read_bodies(path):
    """The wrong bodies of a file, in their order."""
    with open(path, encoding='utf-8') as it:
        text = it.read()
    for part in text.removesuffix('\n').split('\n\n'):
        body = BODY.fullmatch(part)
        if not body:
            sys.exit(f'{path}: a name and pairs of lines old: and new: make a wrong body, and these do not:\n{part}')
        yield WrongBody(path, body[1], bool(body[2]), PAIR.findall(body[3]))


def bodies_of(crate):
    """The wrong bodies of a crate."""
    paths = sorted(glob.glob(f'crates/{crate}/wrong/**/*.edits', recursive=True))
    return [body for path in paths for body in read_bodies(path)]

"""Another program, as one of another processor, beside the one that was built."""
from .differing import want


class Beside:
    """Both."""

    def __init__(self, other, program):
        self.other, self.program = other, program


def is_the_same(sides, tried):
    """The other program gives what the one that was built gives."""
    for job in tried.jobs:
        wanted, came = (it.run(tried.words(job), tried.text) for it in (sides.program, sides.other))
        want(f'what {job} gives', wanted, came)

"""The words of a script: of each call the forms of its arguments, by calls.table, and what it does to the world."""
from . import copying, making, refreshing, stacking, writing
from .table import TABLE

FORMS = {'window': 'number', 'panel': 'number', 'colour': 'number', 'panel_or_none': 'number_or_none'}


def named(word):
    """addch writes a text of one character."""
    word = 'addstr' if word == 'addch' else word
    return next(getattr(group, word) for group in (making, writing, copying, stacking, refreshing) if hasattr(group, word))


# Of each word the forms of its arguments and its function.
CALLS = {word: ([FORMS.get(kind, kind) for _, kind in call.arguments], named(word)) for word, call in TABLE.items()}


def make(world, call, arguments):
    """Makes a call, and answers what it answers. What it wrote affects lines of the screen."""
    world.frame = None
    answer = call(world, *arguments)
    if world.frame:
        world.affected.update(world.lines_that_show_frame())
    return answer

"""The calls that write in a window, and those that set how it writes."""
from .cells import LAST_PAIR, SPACE, Cell, is_printable
from .making import there
from .refusals import E5, E12, E13, E16, E20, refuse

BACKSPACE, NEWLINE, RETURN = 8, 10, 13


def is_writable(character):
    return is_printable(character) or character in (BACKSPACE, NEWLINE, RETURN)


def written(window, character):
    """A space becomes the background's character; attributes are those of both, the pair the background's where the window's is 0."""
    return Cell(window.background.character if character == SPACE else character,
                window.attributes | window.background.attributes, window.pair or window.background.pair)


def background_on(window, lines, first=0):
    """The drawing that clears some lines from a column on."""
    return {(y, x): window.background for y in lines for x in range(first, window.columns)}


def lines_moved(world, w, top, bottom, count):
    """The drawing in which each line from top to bottom takes the one that lies count lines further, and else the background."""
    window = world.windows[w]
    return {(y, x): world.cell_at(w, y + count, x) if top <= y + count <= bottom else window.background
            for y in range(top, bottom + 1) for x in range(window.columns)}


def next_line(world, w):
    """Goes to the next line, if there is one to go to: within the region the last line scrolls, and without scrolling it is the end, as
    is the window's last line. Tells whether it went."""
    window = world.windows[w]
    y = window.cursor[0]
    if y == window.region[1]:
        if not window.is_scrolling:
            return False
        world.put(w, lines_moved(world, w, *window.region, 1))
        window.cursor = (y, 0)
        return True
    if y == window.lines - 1:
        return False
    window.cursor = (y + 1, 0)
    return True


def write_character(world, w, character):
    window = world.windows[w]
    y, x = window.cursor
    if character == RETURN:
        window.cursor = (y, 0)
    elif character == BACKSPACE:
        window.cursor = (y, max(x - 1, 0))
    elif character == NEWLINE:
        world.put(w, background_on(window, [y], x))
        if not next_line(world, w):
            window.cursor = (y, 0)
    else:
        world.put(w, {(y, x): written(window, character)})
        if x < window.columns - 1:
            window.cursor = (y, x + 1)
        else:
            next_line(world, w)


def addstr(world, w, text):
    """The characters of a text in order. A refused one writes nothing."""
    there(world, w)
    refuse(not all(is_writable(character) for character in text), E13)
    for character in text:
        write_character(world, w, character)


def move(world, w, y, x):
    window = there(world, w)
    refuse(not window.has_place(y, x), E5)
    window.cursor = (y, x)


def insch(world, w, text):
    window = there(world, w)
    refuse(not is_printable(text[0]), E13)
    y, x = window.cursor
    drawing = {(y, column): world.cell_at(w, y, column - 1) for column in range(x + 1, window.columns)}
    drawing[y, x] = written(window, text[0])
    world.put(w, drawing)


def delch(world, w):
    window = there(world, w)
    y, x = window.cursor
    drawing = {(y, column): world.cell_at(w, y, column + 1) for column in range(x, window.columns - 1)}
    drawing[y, window.columns - 1] = window.background
    world.put(w, drawing)


def insertln(world, w):
    window = there(world, w)
    world.put(w, lines_moved(world, w, window.cursor[0], window.lines - 1, -1))


def deleteln(world, w):
    window = there(world, w)
    world.put(w, lines_moved(world, w, window.cursor[0], window.lines - 1, 1))


def erase(world, w):
    window = there(world, w)
    world.put(w, background_on(window, range(window.lines)))
    window.cursor = (0, 0)


def clear(world, w):
    erase(world, w)
    world.windows[w].clear = True


def clrtoeol(world, w):
    window = there(world, w)
    world.put(w, background_on(window, [window.cursor[0]], window.cursor[1]))


def clrtobot(world, w):
    clrtoeol(world, w)
    window = world.windows[w]
    world.put(w, background_on(window, range(window.cursor[0] + 1, window.lines)))


def scrl(world, w, count):
    window = there(world, w)
    refuse(not window.is_scrolling, E16)
    if count != 0:
        world.put(w, lines_moved(world, w, *window.region, count))


def setscrreg(world, w, top, bottom):
    window = there(world, w)
    refuse(top > bottom or bottom >= window.lines, E12)
    window.region = (top, bottom)


def scrollok(world, w, flag):
    there(world, w).is_scrolling = flag


def clearok(world, w, flag):
    there(world, w).clear = flag


def attrset(world, w, attributes):
    there(world, w).attributes = attributes


def attron(world, w, attributes):
    there(world, w).attributes |= attributes


def attroff(world, w, attributes):
    there(world, w).attributes &= ~attributes


def bkgdset(world, w, attributes, text):
    window = there(world, w)
    refuse(not is_printable(text[0]), E13)
    window.background = Cell(text[0], attributes, 0)


def color_set(world, w, pair):
    window = there(world, w)
    refuse(pair > LAST_PAIR, E20)
    window.pair = pair


def bkgdpair(world, w, pair):
    window = there(world, w)
    refuse(pair > LAST_PAIR, E20)
    window.background = window.background._replace(pair=pair)

"""The values that windows have, attributes, colours and cells; and those that terminals send, keys and pasted texts."""
import enum
from typing import NamedTuple, Optional, cast


class Attr(enum.Flag):
    """Attributes of characters: Attr.BOLD | Attr.REVERSE has two, and Attr(0) none."""
    BOLD = 0x01
    DIM = 0x02
    UNDERLINE = 0x04
    BLINK = 0x08
    REVERSE = 0x10
    INVIS = 0x20


class Color(enum.IntEnum):
    """The colours of the terminal, for init_pair. DEFAULT is its own, on a screen that a Terminal made."""
    BLACK = 0
    RED = 1
    GREEN = 2
    YELLOW = 3
    BLUE = 4
    MAGENTA = 5
    CYAN = 6
    WHITE = 7
    DEFAULT = -1


class Cell(NamedTuple):
    """What a window has at a place."""
    character: str
    attrs: Attr = Attr(0)
    pair: int = 0


class Shown(NamedTuple):
    """What the terminal shows at a place. None is its own colour."""
    character: str
    attrs: Attr = Attr(0)
    foreground: Optional[Color] = None
    background: Optional[Color] = None


class Key(str):
    """A key, which is its name: a character, or a word as 'up', 'f1', 'ctrl+left' or 'resize'. So it compares with
    texts, and Key.UP is 'up'."""
    UP = DOWN = LEFT = RIGHT = HOME = END = PAGEUP = PAGEDOWN = INSERT = DELETE = cast('Key', '')
    ENTER = TAB = ESCAPE = BACKSPACE = BEGIN = A1 = A3 = B2 = C1 = C3 = RESIZE = UNKNOWN = cast('Key', '')
    F1 = F2 = F3 = F4 = F5 = F6 = F7 = F8 = F9 = F10 = cast('Key', '')
    F11 = F12 = F13 = F14 = F15 = F16 = F17 = F18 = F19 = F20 = cast('Key', '')
    sent = b''    # what the terminal sent


for _name in [*filter(str.isupper, vars(Key))]:
    setattr(Key, _name, Key(_name.lower()))


class Paste(NamedTuple):
    """A text that was pasted into the terminal, or a part of it, where it pauses for a second or is long. It equals no
    key."""
    text: str
    ended: bool = True


for _it in (Attr, Color, Cell, Shown, Key, Paste):
    _it.__module__ = 'curspan'

"""The refusals. Written by tools/calls from calls.table."""
from ._errors import Refusal

__all__ = [
    'NoSuchWindow', 'NoSuchPanel', 'OffScreen', 'OutsideParent', 'OutsideWindow', 'HasDerived', 'InPanel', 'IsPad',
    'NotPad', 'NotDerived', 'BadSize', 'BadRegion', 'BadCharacter', 'StandardScreen', 'Hidden', 'ScrollingOff',
    'TooMany', 'NoMemory', 'BadRectangle', 'BadPair',
]


class NoSuchWindow(Refusal):
    """There is no such window or pad."""
    status = 1


class NoSuchPanel(Refusal):
    """There is no such panel."""
    status = 2


class OffScreen(Refusal):
    """A part would lie off the screen, or there would be no cell."""
    status = 3


class OutsideParent(Refusal):
    """A derived window or pad would not lie inside its parent, or have no cell."""
    status = 4


class OutsideWindow(Refusal):
    """The window has no such place, line or rectangle."""
    status = 5


class HasDerived(Refusal):
    """A window or pad derives from this one."""
    status = 6


class InPanel(Refusal):
    """The window is in a panel."""
    status = 7


class IsPad(Refusal):
    """The call is not for pads."""
    status = 8


class NotPad(Refusal):
    """The call is for pads alone."""
    status = 9


class NotDerived(Refusal):
    """The call is for windows and pads that derive from another one."""
    status = 10


class BadSize(Refusal):
    """A screen or a pad has no such size."""
    status = 11


class BadRegion(Refusal):
    """The region's first line is after its last, or the window has no such line."""
    status = 12


class BadCharacter(Refusal):
    """The character is none that the call takes."""
    status = 13


class StandardScreen(Refusal):
    """The call is not for the standard screen."""
    status = 14


class Hidden(Refusal):
    """The panel is hidden."""
    status = 15


class ScrollingOff(Refusal):
    """The window doesn't scroll."""
    status = 16


class TooMany(Refusal):
    """There are 1000 windows and pads besides the standard screen, or 1000 panels."""
    status = 17


class NoMemory(Refusal, MemoryError):
    """There is no memory for it."""
    status = 18


class BadRectangle(Refusal):
    """A rectangle's first line or column is after its last."""
    status = 19


class BadPair(Refusal):
    """There is no such colour pair or colour, or pair 0 was to be set."""
    status = 20

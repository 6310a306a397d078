"""Windows, derived windows, pads and panels of curses, whose calls are proved.

A Screen keeps windows and sends the bytes that show what changed of them:

    with curspan.Screen(24, 80, sys.stdout.buffer) as screen:
        window = screen.newwin(3, 20, 2, 5)
        window.addstr(1, 2, 'hello', curspan.Attr.BOLD)
        window.new_panel()
        screen.update_panels()
        screen.doupdate()

Screen, Window, Pad and Panel have a method for each call, and each call that is refused raises an exception with the refusal's name, as
OutsideWindow. The page docs/python.md explains all.
"""
from ._curspan import Pad, Panel, Screen, Terminal, Window, commit as __commit__, version as __version__
from ._errors import Closed, Error, Refusal, TerminalError, WriteFailed
from ._values import Attr, Cell, Color, Key, Paste, Shown
from ._wrapper import wrapper
from . import _written_errors
from ._written_errors import *

__all__ = [
    'Terminal', 'wrapper', 'Screen', 'Window', 'Pad', 'Panel', 'Attr', 'Color', 'Cell', 'Shown', 'Key', 'Paste',
    'Closed', 'Error', 'Refusal', 'TerminalError', 'WriteFailed', '__commit__', '__version__',
]
__all__ += _written_errors.__all__

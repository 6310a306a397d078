"""What three of the examples share: the terminal with a screen in its colours, and dialogs."""
import contextlib
import sys
from typing import Iterator, List, Optional

import curspan
from curspan import Attr, Color

PLAIN, BAR, WARNING = 1, 2, 3   # colour pairs
opened: List[curspan.Terminal] = []


@contextlib.contextmanager
def open_screen(raw: bool = False) -> Iterator[curspan.Screen]:
    """A screen over the terminal, which is given back at the end. Raw, Ctrl-C and the like are keys."""
    try:
        found = curspan.Terminal(raw=raw, cursor=True, paste=False)
    except curspan.TerminalError as why:
        sys.exit(f'{sys.argv[0]}: this wants a terminal: {why}')
    with found as terminal:
        opened.append(terminal)
        screen = terminal.screen()
        screen.init_pair(PLAIN, Color.BLACK, Color.WHITE)
        screen.init_pair(BAR, Color.WHITE, Color.BLUE)
        screen.init_pair(WARNING, Color.WHITE, Color.RED)
        yield screen


def read_key(seconds: Optional[float] = None) -> Optional[curspan.Key]:
    """The next key, or None where none comes in time."""
    key = opened[-1].key(seconds)
    return key if isinstance(key, curspan.Key) else None


def show(screen: curspan.Screen) -> None:
    screen.update_panels()
    screen.doupdate()


def frame(window: curspan.Window, title: str = '') -> None:
    """Draws a frame at the edge of a window."""
    window.box()
    if title:
        window.addstr(0, 2, f' {title} ', Attr.BOLD)


@contextlib.contextmanager
def dialog(screen: curspan.Screen, lines: int, columns: int, title: str, pair: int = PLAIN) -> Iterator[curspan.Window]:
    """A window with a frame in the middle of the screen, on top of all others as long as it is in use."""
    lines, columns = min(lines, screen.lines), min(columns, screen.columns)
    with screen.newwin(lines, columns, (screen.lines - lines) // 2, (screen.columns - columns) // 2) as window, window.new_panel():
        window.background = curspan.Cell(' ', pair=pair)
        window.erase()
        frame(window, title)
        yield window

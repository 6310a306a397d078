"""A program that uses what the stubs say, for mypy alone."""
import io
from typing import List, Optional, Tuple

import curspan


async def read(terminal: curspan.Terminal) -> List[str]:
    key = terminal.key(0.5)
    text: str = key.text if isinstance(key, curspan.Paste) else key or ''
    name: str = curspan.Key.UP if key == curspan.Key.UP else curspan.Key('ctrl+left')
    curspan.Key.PGUP  # type: ignore[attr-defined]
    name = key  # type: ignore[assignment]
    return [text, name, *[it.text if isinstance(it, curspan.Paste) else it async for it in terminal]]


def use(screen: curspan.Screen) -> None:
    window: curspan.Window = screen.newwin(lines=2, x=3)
    pad: curspan.Pad = screen.newpad(1, 1).subpad()
    place: Tuple[int, int] = window.getyx()
    window.move(*place)
    window.addstr('text', curspan.Attr.BOLD)
    window.addstr(0, 0, b'text', attrs=curspan.Attr(0), pair=1)
    window.addch(65)
    window.attrs |= curspan.Attr.DIM
    window.background = curspan.Cell('.', curspan.Attr.BOLD)
    window.region = 0, 1
    cell: curspan.Cell = window.inch(0, 0)
    name: str = cell.character
    above: Optional[curspan.Panel] = window.new_panel().above()
    lines: List[str] = [*window, *screen, name]
    shown: List[curspan.Shown] = screen.row(0)
    with pad, screen:
        pad.pnoutrefresh(0, 0, 0, 0, 0, 0)
        print(lines, shown, above)
    window.move('1', 2)  # type: ignore[arg-type]
    window.background = '.'  # type: ignore[assignment]
    window.attrset(1)  # type: ignore[arg-type]
    window.subpad()  # type: ignore[attr-defined]
    curspan.Screen(1, 1, io.StringIO())  # type: ignore[arg-type]
    curspan.Screen(1, 1, io.BytesIO())

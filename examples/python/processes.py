#!/usr/bin/env python3
"""A monitor of the processes of a Linux machine: p, n and m sort by number, name and memory;
arrows choose one, k asks before it would end it, and q ends the monitor. It looks again each
second, follows the size of the terminal, and ends no process: it says which one it would."""
import os
from pathlib import Path
from typing import List, Tuple

import curspan
from curspan import Attr, Color

Process = Tuple[int, str, int]
TITLE, CHOSEN = 1, 2
ORDERS = {'p': lambda it: it[0], 'n': lambda it: it[1], 'm': lambda it: -it[2]}


def look(order: str) -> List[Process]:
    """Number, name and memory in KiB of each process."""
    found = []
    for name in filter(str.isdigit, os.listdir('/proc')):
        try:
            memory = int(Path(f'/proc/{name}/statm').read_text().split()[1]) * 4
            command = Path(f'/proc/{name}/comm').read_text(errors='replace').strip()
            found.append((int(name), command, memory))
        except OSError:
            pass    # it has ended
    return sorted(found, key=ORDERS[order])


def draw(screen: curspan.Screen, rows: List[Process], first: int, chosen: int, ended: int) -> None:
    desk, width = screen.stdscr, screen.columns
    desk.addstr(0, 0, f'{"   NUMBER  NAME                   KIB":{width}.{width}}', pair=TITLE)
    for y in range(1, screen.lines - 1):
        row = rows[first + y - 1:first + y]
        text = ''.join(f'{number:9}  {name:15.15}  {memory:9}' for number, name, memory in row)
        desk.addstr(y, 0, f'{text:{width}.{width}}', pair=CHOSEN if first + y - 1 == chosen else 0)
    keys = f' p number  n name  m memory  k end ({ended})  q quit'
    desk.addstr(screen.lines - 1, 0, f'{keys:{width}.{width}}', pair=TITLE)
    screen.update_panels()


def ask(screen: curspan.Screen, number: int, name: str) -> None:
    """Draws the question whether a process shall be ended over the list."""
    lines, width = min(3, screen.lines), min(40, screen.columns)
    y, x = (screen.lines - lines) // 2, (screen.columns - width) // 2
    with screen.newwin(lines, width, y, x) as window, window.new_panel():
        window.background = curspan.Cell(' ', Attr.REVERSE)
        window.erase()
        window.addstr(lines // 2, 0, f' y or n: end {number}, {name:.15}?'[:width])
        screen.update_panels()


def main(terminal: curspan.Terminal) -> None:
    order, first, chosen, ended, asked, key = 'm', 0, 0, 0, None, None
    screen = terminal.screen(errors='replace')
    screen.init_pair(TITLE, Color.WHITE, Color.BLUE)
    screen.init_pair(CHOSEN, Color.RED, Color.DEFAULT)
    while key != 'q':
        screen, processes = terminal.screen(), look(order)
        chosen = max(0, min(chosen, len(processes) - 1))
        first = max(min(first, chosen), chosen - screen.lines + 3)
        draw(screen, processes, first, chosen, ended)
        if asked:
            ask(screen, *asked[:2])
        screen.doupdate()
        key = terminal.key(1)
        if asked and key not in (None, 'resize'):
            ended, asked, key = asked[0] if key == 'y' else ended, None, None
        asked = processes[chosen] if key == 'k' else asked
        order = str(key) if key in ORDERS else order
        chosen += (key == 'down') - (key == 'up')


if __name__ == '__main__':
    curspan.wrapper(main)

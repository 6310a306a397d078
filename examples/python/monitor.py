#!/usr/bin/env python3
"""A monitor of a Linux machine: its load, its memory, and the processes with the most memory, anew each second. Arrows scroll, q ends."""
import os
import sys
import time
from collections import deque
from typing import Deque, Dict, Iterator, List, Tuple

import curspan
from curspan import Attr
from terminal import BAR, WARNING, frame, open_screen, read_key, show

MOST_PROCESSES = 200
PAGE = os.sysconf('SC_PAGE_SIZE')


def read_memory() -> Dict[str, int]:
    """The numbers of /proc/meminfo, in KiB."""
    with open('/proc/meminfo', encoding='ascii') as file:
        return {name: int(rest.split()[0]) for name, rest in (line.split(':') for line in file)}


def read_processes() -> Iterator[Tuple[int, int, str]]:
    """Of each process its memory in bytes, its number, and its name."""
    for name in os.listdir('/proc'):
        if name.isdigit():
            try:
                with open(f'/proc/{name}/statm', encoding='ascii') as memory, open(f'/proc/{name}/comm', 'rb') as command:
                    yield int(memory.read().split()[1]) * PAGE, int(name), command.read().decode('ascii', 'replace').strip()
            except (FileNotFoundError, ProcessLookupError):
                pass    # it has ended


def printable(text: str) -> str:
    """A text with a question mark for what a window can't have."""
    return ''.join(it if ' ' <= it <= '~' else '?' for it in text)


def draw_bar(window: curspan.Window, y: int, part: float) -> None:
    """Draws a bar of a part of a whole."""
    room = window.columns - 4
    filled = min(round(part * room), room)
    window.addstr(y, 2, ' ' * filled, pair=WARNING if part > 0.9 else BAR)
    window.addstr(y, 2 + filled, '.' * (room - filled))


def draw_load(window: curspan.Window, loads: Deque[float]) -> None:
    """Draws a column for each load, the newest to the right."""
    window.erase()
    height, most = window.lines - 2, max([1.0, *loads])
    for x, load in enumerate(reversed(loads)):
        for y in range(round(load / most * height)):
            window.addch(window.lines - 2 - y, window.columns - 3 - x, ' ', pair=BAR)
    frame(window, f'load {loads[-1]:.2f}, highest {most:.2f}')


def draw_memory(window: curspan.Window) -> None:
    memory = read_memory()
    whole, free = memory['MemTotal'], memory['MemAvailable']
    window.addstr(1, 2, f'{(whole - free) >> 10:>7} of {whole >> 10:>7} MiB are used')
    draw_bar(window, 2, (whole - free) / whole)
    frame(window, 'memory')


def draw_processes(pad: curspan.Pad) -> int:
    """Draws a line for each process into the pad, and answers how many they are."""
    processes: List[Tuple[int, int, str]] = sorted(read_processes(), reverse=True)[:MOST_PROCESSES]
    pad.erase()
    for y, (size, number, name) in enumerate(processes):
        pad.addstr(y, 0, f'{number:>8} {size >> 20:>7} MiB  {printable(name):<20.20}')
    return len(processes)


def main() -> None:
    loads: Deque[float] = deque(maxlen=200)
    with open_screen() as screen:
        if screen.lines < 16 or screen.columns < 60:
            raise SystemExit('monitor: the terminal is too small: 16 lines of 60 columns are wanted')
        desk, half, bottom = screen.stdscr, screen.columns // 2, screen.lines - 2
        memory, load = screen.newwin(4, half, 1, 0), screen.newwin(screen.lines - 6, half, 5, 0)
        table = screen.newwin(screen.lines - 2, screen.columns - half, 1, half)
        frame(table, 'memory of processes')
        pad = screen.newpad(MOST_PROCESSES, 40)
        first, count, next_look = 0, 0, 0.0
        for window in (memory, load, table):
            window.new_panel()
        desk.addstr(screen.lines - 1, 0, ' arrows scroll  q ends')
        while True:
            if time.monotonic() >= next_look:
                next_look = time.monotonic() + 1
                loads.append(os.getloadavg()[0])
                while len(loads) > load.columns - 4:
                    loads.popleft()
                desk.addstr(0, 1, time.strftime('%H:%M:%S'), Attr.BOLD)
                draw_memory(memory)
                draw_load(load, loads)
                count = draw_processes(pad)
            first = max(0, min(first, count - (bottom - 2)))
            screen.update_panels()
            # a pad is in no panel: it is shown after them
            pad.pnoutrefresh(first, 0, 2, half + 1, bottom - 1, min(half + 40, screen.columns - 2))
            screen.doupdate()
            key = read_key(max(0, next_look - time.monotonic()))
            if key == 'q':
                return
            first += {'down': 1, 'up': -1}.get(key or '', 0)


if __name__ == '__main__':
    try:
        main()
    except KeyboardInterrupt:
        sys.exit(130)

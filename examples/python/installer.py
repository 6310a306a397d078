#!/usr/bin/env python3
"""An installer's dialogs: a welcome, a list to choose from, a bar that grows, a question, and a farewell. Nothing is installed."""
import sys
import time
from dataclasses import dataclass
from typing import List, Sequence

import curspan
from curspan import Attr
from terminal import BAR, WARNING, dialog, open_screen, read_key, show


@dataclass
class Part:
    """Something that can be installed."""
    name: str
    megabytes: int
    is_wanted: bool = True


PARTS = [Part('the program', 3), Part('the library for C', 2), Part('manual pages', 1), Part('examples', 1, False)]
SECONDS_A_MEGABYTE = 0.3


def draw_desk(screen: curspan.Screen) -> None:
    desk = screen.stdscr
    desk.background = curspan.Cell(' ', pair=BAR)
    desk.erase()
    desk.addstr(0, 1, 'Curspan', Attr.BOLD)


def choose(screen: curspan.Screen, title: str, text: Sequence[str], answers: Sequence[str], pair: int = 1) -> str:
    """Asks, and gives the answer that was chosen: with the arrows and Enter, or by its first letter."""
    width = max(max(map(len, [*text, title])), sum(len(it) + 4 for it in answers)) + 6
    chosen = 0
    with dialog(screen, len(text) + 5, width, title, pair) as window:
        for y, line in enumerate(text, 2):
            window.addstr(y, 3, line)
        while True:
            x = 3
            for number, answer in enumerate(answers):
                window.addstr(window.lines - 2, x, f'[ {answer} ]', Attr.REVERSE if number == chosen else Attr(0))
                if number == chosen:
                    cursor = x + 2
                x += len(answer) + 5
            window.move(window.lines - 2, cursor)
            show(screen)
            key = read_key()
            if key == 'enter':
                return answers[chosen]
            if key in ('left', 'right', 'tab'):
                chosen = (chosen + (-1 if key == 'left' else 1)) % len(answers)
            for answer in answers:
                if key and key == answer[0].lower():
                    return answer


def choose_parts(screen: curspan.Screen, parts: List[Part]) -> bool:
    """Lets the user choose among parts, and tells whether to go on."""
    at = 0
    with dialog(screen, len(parts) + 7, 46, 'What is installed') as window:
        window.addstr(len(parts) + 5, 3, 'Space chooses, Enter goes on, Esc ends')
        rows = window.derwin(len(parts), 40, 2, 3)
        with rows:
            while True:
                for y, part in enumerate(parts):
                    mark = 'x' if part.is_wanted else ' '
                    rows.addstr(y, 0, f' [{mark}] {part.name:<24}{part.megabytes:>4} MB ', Attr.REVERSE if y == at else Attr(0))
                window.addstr(len(parts) + 3, 3, f'{sum(it.megabytes for it in parts if it.is_wanted):>4} MB in all')
                show(screen)
                key = read_key()
                if key == ' ':
                    parts[at].is_wanted = not parts[at].is_wanted
                elif key in ('up', 'down'):
                    at = (at + (1 if key == 'down' else -1)) % len(parts)
                elif key in ('enter', 'escape'):
                    return key == 'enter'


def install(screen: curspan.Screen, parts: Sequence[Part]) -> bool:
    """Shows how far it is, and tells whether all was installed. Esc asks whether to end."""
    whole, done = sum(it.megabytes for it in parts), 0.0
    with dialog(screen, 7, 60, 'Installing') as window:
        room = window.columns - 6
        for part in parts:
            end = done + part.megabytes
            while done < end:
                done = min(done + 0.1, end)
                filled = round(done / whole * room)
                window.addstr(2, 3, f'{part.name:<{room}}')
                window.addstr(4, 3, ' ' * filled, pair=BAR)
                window.addstr(4, 3 + filled, '.' * (room - filled))
                window.addstr(5, 3, f'{done / whole:4.0%}')
                show(screen)
                if read_key(0) == 'escape' and choose(screen, 'End', ['Part of it is installed already.', 'End all the same?'], ['No', 'Yes'], WARNING) == 'Yes':
                    return False
                time.sleep(SECONDS_A_MEGABYTE / 10)
    return True


def main() -> int:
    with open_screen() as screen:
        if screen.lines < 16 or screen.columns < 60:
            raise SystemExit('installer: the terminal is too small: 16 lines of 60 columns are wanted')
        draw_desk(screen)
        if choose(screen, 'Welcome', ['This installs nothing: it shows dialogs.', 'Go on?'], ['Yes', 'No']) == 'No':
            return 1
        if not choose_parts(screen, PARTS):
            return 1
        wanted = [it for it in PARTS if it.is_wanted]
        if not install(screen, wanted):
            return 1
        choose(screen, 'Done', [f'{len(wanted)} parts are installed.'], ['Ok'])
    return 0


if __name__ == '__main__':
    try:
        sys.exit(main())
    except KeyboardInterrupt:
        sys.exit(130)

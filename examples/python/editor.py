#!/usr/bin/env python3
"""An editor: editor.py FILE. Arrows, Home and End move, Ctrl-S writes the file, Ctrl-Q ends."""
import pathlib
import sys
from typing import List

import curspan
from curspan import Attr
from terminal import BAR, WARNING, dialog, open_screen, read_key, show

CTRL_C, CTRL_Q, CTRL_S = 'ctrl+c', 'ctrl+q', 'ctrl+s'


def shown(text: str) -> str:
    """A text as a window can have it: tabs as a blank, and a question mark for each character that isn't in ASCII."""
    return ''.join(it if ' ' <= it <= '~' else ' ' if it == '\t' else '?' for it in text)


class Editor:
    """A text with a cursor, and the windows that show it."""

    def __init__(self, screen: curspan.Screen, path: pathlib.Path) -> None:
        self.screen, self.path = screen, path
        self.page = screen.newwin(screen.lines - 1, 0, 0, 0)
        self.status = screen.newwin(1, 0, screen.lines - 1, 0)
        self.status.background = curspan.Cell(' ', pair=BAR)
        for window in (self.status, self.page):
            window.new_panel()
        text = path.read_text(errors='surrogateescape') if path.exists() else ''
        self.lines: List[str] = text.split('\n')
        self.line, self.column = 0, 0       # the cursor, in the text
        self.top, self.left = 0, 0          # the place of the text at which the page begins
        self.is_changed = False

    def draw(self) -> None:
        """Shows the part of the text in which the cursor is."""
        lines, columns = self.page.getmaxyx()
        self.top = min(max(self.top, self.line - lines + 1), self.line)
        self.left = min(max(self.left, self.column - columns + 1), self.column)
        self.page.erase()
        for y, line in enumerate(self.lines[self.top:self.top + lines]):
            self.page.addstr(y, 0, shown(line[self.left:self.left + columns]))
        self.status.erase()
        mark = '*' if self.is_changed else ' '
        place = f'{self.line + 1}:{self.column + 1} '
        room = self.screen.columns - len(place) - 1
        self.status.addstr(0, 0, shown(f' {self.path}{mark}  ^S write  ^Q end')[:room])
        self.status.addstr(0, self.screen.columns - len(place) - 1, place, Attr.BOLD)
        self.page.move(self.line - self.top, self.column - self.left)
        show(self.screen)

    def tell(self, title: str, text: str, keys: str) -> str:
        """Shows a text, and waits for one of some keys."""
        with dialog(self.screen, 5, max(len(text), len(title)) + 6, title, WARNING) as window:
            window.addstr(2, 3, shown(text)[:window.columns - 6])
            show(self.screen)
            while (key := read_key()) is None or key not in keys.split():
                pass
            return key

    def write(self) -> bool:
        try:
            self.path.write_text('\n'.join(self.lines), errors='surrogateescape')
        except OSError as why:
            self.tell('Not written', f'{why.strerror} (Enter)', 'enter')
            return False
        self.is_changed = False
        return True

    def may_end(self) -> bool:
        if not self.is_changed:
            return True
        answer = self.tell('The text was changed', 'Write it? y, n, or Esc to go on', 'y n escape')
        return answer == 'n' or answer == 'y' and self.write()

    def change(self, line: str) -> None:
        self.lines[self.line] = line
        self.is_changed = True

    def join(self, line: int) -> None:
        """Joins a line with the next one, if there is one."""
        if 0 <= line < len(self.lines) - 1:
            self.line, self.column = line, len(self.lines[line])
            self.change(self.lines[line] + self.lines.pop(line + 1))

    def obey(self, key: str) -> None:
        """Does what a key says."""
        text, at = self.lines[self.line], self.column
        if key in ('up', 'down'):
            self.line = min(max(self.line + (1 if key == 'down' else -1), 0), len(self.lines) - 1)
        elif key in ('left', 'right'):
            self.column += 1 if key == 'right' else -1
        elif key in ('home', 'end'):
            self.column = 0 if key == 'home' else len(text)
        elif key == 'enter':
            self.change(text[:at])
            self.lines.insert(self.line + 1, text[at:])
            self.line, self.column = self.line + 1, 0
        elif key == 'backspace' and at > 0:
            self.change(text[:at - 1] + text[at:])
            self.column -= 1
        elif key == 'backspace':
            self.join(self.line - 1)
        elif key == 'delete' and at < len(text):
            self.change(text[:at] + text[at + 1:])
        elif key == 'delete':
            self.join(self.line)
        elif len(key) == 1 and (' ' <= key <= '~' or key == '\t'):
            self.change(text[:at] + key + text[at:])
            self.column += 1
        self.column = min(max(self.column, 0), len(self.lines[self.line]))

    def run(self) -> None:
        while True:
            self.draw()
            key = read_key()
            if key in (CTRL_Q, CTRL_C) and self.may_end():
                return
            if key == CTRL_S:
                self.write()
            elif key is not None:
                self.obey('\t' if key == 'tab' else key)


def main() -> None:
    if len(sys.argv) != 2:
        raise SystemExit('usage: editor.py FILE')
    with open_screen(raw=True) as screen:
        if screen.lines < 5 or screen.columns < 40:
            raise SystemExit('editor: the terminal is too small: 5 lines of 40 columns are wanted')
        Editor(screen, pathlib.Path(sys.argv[1])).run()


if __name__ == '__main__':
    main()

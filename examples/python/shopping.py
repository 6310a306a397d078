#!/usr/bin/env python3
"""A shopping list: arrows choose, the space bar ticks, d deletes, and q ends it. A question comes up over
the list, and all is laid out anew where the terminal gets another size."""
from typing import List, Set

import curspan
from curspan import Attr, Cell, Color

LIST, CHOSEN, QUESTION = 1, 2, 3    # colour pairs
PRICES = {
    'apples': 2.40, 'bread': 3.10, 'butter': 2.80, 'carrots': 1.20, 'cheese': 4.50, 'coffee': 6.90, 'eggs': 3.30,
    'flour': 1.10, 'honey': 5.20, 'lemons': 1.60, 'milk': 1.30, 'noodles': 1.50, 'onions': 0.90, 'pepper': 2.20,
    'rice': 2.10, 'salt': 0.60, 'sugar': 1.40, 'tea': 3.80, 'tomatoes': 2.70, 'yoghurt': 1.90}


class View:
    """The windows of a screen of one size: the list, and the question over it."""

    def __init__(self, screen: curspan.Screen) -> None:
        if screen.lines < 8 or screen.columns < 40:
            raise SystemExit('shopping: the terminal is too small: 8 lines of 40 columns are wanted')
        self.screen, self.first = screen, 0
        screen.stdscr.erase()
        screen.stdscr.addstr(screen.lines - 1, 3, 'Space ticks   d deletes   q quits')
        self.list = screen.newwin(screen.lines - 2, screen.columns - 4, 1, 2)
        self.list.background = Cell(' ', pair=LIST)
        self.list.new_panel()
        self.question = screen.newwin(5, 26, (screen.lines - 5) // 2, (screen.columns - 26) // 2)
        self.question.background = Cell(' ', pair=QUESTION)
        self.popup = self.question.new_panel()

    def draw(self, names: List[str], ticked: Set[str], chosen: int, is_asked: bool) -> None:
        """Draws the part of the list that has the chosen thing, and the question where it is asked."""
        height, width = self.list.lines - 2, self.list.columns - 2
        self.first = max(min(self.first, chosen), chosen - height + 1)
        self.list.erase()
        self.list.box()
        self.list.addstr(0, 2, ' Shopping ', Attr.BOLD)
        self.list.addstr(height + 1, width - 15, f' total {sum(PRICES[it] for it in names):7.2f} ', Attr.BOLD)
        for y, name in enumerate(names[self.first:self.first + height], 1):
            text = f' [{"x" if name in ticked else " "}] {name}'
            pair = CHOSEN if self.first + y - 1 == chosen else LIST
            self.list.addstr(y, 1, f'{text:{width - 8}}{PRICES[name]:7.2f} ', pair=pair)
        if is_asked:
            self.question.erase()
            self.question.box()
            self.question.addstr(1, 3, f'Delete {names[chosen]}?', Attr.BOLD)
            self.question.addstr(3, 3, 'y yes   n no')
            self.popup.show()
        elif not self.popup.hidden():
            self.popup.hide()
        self.screen.update_panels()
        self.screen.doupdate()


def main(terminal: curspan.Terminal) -> None:
    screen = terminal.screen()
    for pair, background in ((LIST, Color.BLUE), (CHOSEN, Color.CYAN), (QUESTION, Color.WHITE)):
        screen.init_pair(pair, Color.WHITE if pair == LIST else Color.BLACK, background)
    view, names, chosen, is_asked, key = View(screen), list(PRICES), 0, False, None
    ticked: Set[str] = set()
    while key != 'q':
        if view.screen is not terminal.screen():    # the terminal has another size
            view = View(terminal.screen())
        view.draw(names, ticked, chosen, is_asked)
        key = terminal.key()
        if is_asked and key != 'resize':
            del names[chosen:chosen + (key == 'y')]
            is_asked = False
        elif names:
            is_asked = is_asked or key == 'd'
            ticked ^= {names[chosen]} if key == ' ' else set()
            chosen += (key == 'down') - (key == 'up')
        chosen = max(0, min(chosen, len(names) - 1))


if __name__ == '__main__':
    curspan.wrapper(main)

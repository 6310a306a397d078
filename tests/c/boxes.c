/* Boxes whose sides have attributes and colours, in windows that have some too. */
#include "shot.h"

static WINDOW *boxed(int number, chtype sides, chtype ends, attr_t attrs, chtype background) {
    WINDOW *win = newwin(5, 18, 1 + 6 * (number / 4), 1 + 19 * (number % 4));
    wbkgdset(win, background);
    werase(win);
    wattron(win, (int)attrs);
    box(win, sides, ends);
    mvwprintw(win, 2, 2, "box %d", number);
    wnoutrefresh(win);
    return win;
}

int main(void) {
    initscr();
    start_color();
    init_pair(1, COLOR_YELLOW, COLOR_BLUE);
    init_pair(2, COLOR_WHITE, COLOR_RED);
    refresh();
    WINDOW *wins[] = {
        boxed(0, '|' | A_BOLD, '-' | A_UNDERLINE, A_NORMAL, ' '),
        boxed(1, '|', '-', A_REVERSE, ' '),
        boxed(2, '|' | COLOR_PAIR(1), '-', COLOR_PAIR(2), ' '),
        boxed(3, 0, 0, A_BOLD | COLOR_PAIR(1), ' '),
        boxed(4, '!', '=', A_NORMAL, COLOR_PAIR(1) | ' '),
        boxed(5, '|' | COLOR_PAIR(2), '-' | A_BOLD, A_NORMAL, COLOR_PAIR(1) | ' '),
        boxed(6, '|' | A_REVERSE, '-', A_UNDERLINE, A_REVERSE | ' '),
        boxed(7, ' ' | A_REVERSE, ' ' | A_REVERSE, A_NORMAL, ' '),
        boxed(8, ' ', ' ', A_REVERSE, ' '),
        boxed(9, ACS_VLINE | A_BOLD, ACS_HLINE | COLOR_PAIR(2), A_NORMAL, '.'),
        boxed(10, '|', 0, A_BLINK, A_BOLD | '.'),
        boxed(11, 0, '-' | A_DIM, A_INVIS, COLOR_PAIR(2) | '+'),
    };
    doupdate();
    shot();
    for (size_t i = 0; i < sizeof wins / sizeof wins[0]; i++) {
        wattrset(wins[i], (int)(i % 2 ? A_BOLD : A_NORMAL));
        wborder(wins[i], 'l' | A_BOLD, 'r', 't' | COLOR_PAIR(1), 'b', '1' | A_REVERSE, '2', '3' | COLOR_PAIR(2), '4');
        wnoutrefresh(wins[i]);
    }
    doupdate();
    shot();
    endwin();
    return 0;
}

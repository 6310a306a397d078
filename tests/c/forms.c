/* The forms that move first, and those that mean the standard screen. */
#include "shot.h"

int main(void) {
    static const chtype row[] = {'r', 'o' | A_BOLD, 'w' | A_REVERSE, ' ', '1', 0};
    initscr();
    WINDOW *win = newwin(8, 40, 12, 20);
    move(0, 5);
    addch('a');
    addstr("bcdef");
    addnstr("ghijkl", 3);
    mvaddch(1, 5, 'A' | A_UNDERLINE);
    mvaddstr(1, 6, "BCDEF");
    mvaddnstr(1, 11, "GHIJKL", 2);
    mvaddstr(2, 0, "..........");
    move(2, 2);
    addchstr(row);
    mvaddch(2, 20, 'c');
    move(3, 2);
    addchnstr(row, 2);
    mvaddchstr(4, 2, row);
    mvaddchnstr(5, 2, row, 3);
    mvaddnstr(6, 0, "all of it", -1);
    move(7, 76);
    addchstr(row);
    wmove(win, 0, 1);
    waddch(win, 'a');
    waddstr(win, "bcd");
    waddnstr(win, "efgh", 2);
    mvwaddch(win, 1, 1, 'x');
    mvwaddstr(win, 2, 1, "a string");
    mvwaddnstr(win, 3, 1, "a string", 5);
    wmove(win, 4, 1);
    waddchstr(win, row);
    waddch(win, '!');
    wmove(win, 5, 1);
    waddchnstr(win, row, 4);
    mvwaddchstr(win, 6, 1, row);
    mvwaddchnstr(win, 7, 1, row, -1);
    look_over_screen(win);
    mvprintw(22, 0, "outside: %d %d %d", move(-1, 0), mvaddch(0, 80, 'x'), mvwaddstr(win, 8, 0, "x"));
    mvprintw(23, 0, "of none: %d %d %d", wmove(NULL, 0, 0), waddch(NULL, 'x'), waddstr(NULL, "x"));
    refresh();
    shot();
    endwin();
    return 0;
}

/* Scroll regions, and what scrolls. */
#include "shot.h"

static void number_lines(WINDOW *win) {
    werase(win);
    for (int y = 0; y < getmaxy(win); y++) mvwprintw(win, y, 0, "line %d", y);
}

int main(void) {
    initscr();
    WINDOW *win = newwin(10, 30, 2, 5);
    scrollok(win, TRUE);
    number_lines(win);
    wscrl(win, 2);
    look_at(win);
    number_lines(win);
    wsetscrreg(win, 3, 7);
    wscrl(win, -2);
    look_at(win);
    number_lines(win);
    scroll(win);
    look_at(win);
    number_lines(win);
    wmove(win, 7, 3);
    waddstr(win, "ends\nnew\nnewer");
    look_at(win);
    wsetscrreg(win, 0, 9);
    wmove(win, 9, 0);
    for (int i = 0; i < 4; i++) wprintw(win, "\nlast %d", i);
    look_at(win);
    number_lines(stdscr);
    scrollok(stdscr, TRUE);
    setscrreg(5, 15);
    scrl(3);
    look_at(stdscr);
    scrl(-1);
    scroll(stdscr);
    look_at(stdscr);
    scrollok(win, FALSE);
    mvprintw(20, 0, "without scrolling: %d", wscrl(win, 1));
    mvprintw(21, 0, "no such region: %d", wsetscrreg(win, 5, 30));
    look_at(stdscr);
    endwin();
    return 0;
}

/* Where windows are, how large they are, and windows that can't be. */
#include "shot.h"

int main(void) {
    int y, x;
    WINDOW *nothing = NULL;
    initscr();
    WINDOW *win = newwin(5, 20, 2, 4), *rest = newwin(0, 0, 12, 60);
    for (y = 0; y < 11; y++) mvwhline(rest, y, 0, 'r', 19);
    box(win, '|', '-');
    wmove(win, 3, 7);
    getyx(win, y, x);
    mvprintw(15, 0, "cursor %d %d, %d %d", y, x, getcury(win), getcurx(win));
    getbegyx(win, y, x);
    mvprintw(16, 0, "begins %d %d, %d %d", y, x, getbegy(win), getbegx(win));
    getmaxyx(rest, y, x);
    mvprintw(17, 0, "size %d %d, %d %d", y, x, getmaxy(rest), getmaxx(rest));
    getparyx(win, y, x);
    mvprintw(18, 0, "no parent %d %d", y, x);
    mvprintw(19, 0, "none: %d %d", newwin(-1, 5, 0, 0) == NULL, derwin(win, 9, 9, 0, 0) == NULL);
    wnoutrefresh(stdscr);
    wnoutrefresh(win);
    wnoutrefresh(rest);
    doupdate();
    shot();
    move(20, 0);
    printw("moved %d", mvwin(win, 8, 30));
    printw(", not moved %d", mvwin(win, 22, 70) == ERR && getbegy(win) == 8 && wmove(win, 1, 1) == OK);
    look_over_screen(win);
    mvprintw(21, 0, "deleted %d", delwin(rest));
    mvprintw(22, 0, "of none: %d %d %d %d", delwin(NULL), mvwin(NULL, 0, 0), getmaxy(nothing), getcurx(nothing));
    move(23, 0);
    printw("%d %d %d", subwin(NULL, 1, 1, 0, 0) == NULL, dupwin(NULL) == NULL, subpad(NULL, 1, 1, 0, 0) == NULL);
    refresh();
    shot();
    endwin();
    return 0;
}

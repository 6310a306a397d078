/* Characters and lines inserted and deleted, and parts cleared. */
#include "shot.h"

static void write_lines(WINDOW *win) {
    werase(win);
    for (int y = 0; y < getmaxy(win) - 1; y++) mvwprintw(win, y, 0, "%d: the quick brown fox jumps", y);
}

int main(void) {
    initscr();
    write_lines(stdscr);
    move(0, 4);
    insch('I' | A_BOLD);
    mvinsch(1, 4, 'J');
    mvinsstr(2, 4, "several ");
    move(3, 4);
    insstr("more ");
    insnstr("fewer", 2);
    mvinsnstr(4, 4, "of these", 3);
    move(5, 4);
    delch();
    mvdelch(6, 7);
    move(7, 6);
    insertln();
    move(10, 0);
    deleteln();
    move(12, 0);
    insdelln(2);
    move(16, 0);
    insdelln(-1);
    move(20, 9);
    clrtoeol();
    look_at(stdscr);
    move(21, 3);
    clrtobot();
    look_at(stdscr);
    WINDOW *win = newwin(10, 30, 5, 40);
    write_lines(win);
    wmove(win, 0, 3);
    winsch(win, 'W');
    mvwinsch(win, 1, 29, 'E');
    wmove(win, 2, 3);
    winsstr(win, "text");
    winsnstr(win, "other", 3);
    mvwinsstr(win, 3, 25, "beyond the edge");
    mvwinsnstr(win, 4, 0, "ab", 2);
    wmove(win, 5, 5);
    wdelch(win);
    mvwdelch(win, 5, 6);
    wmove(win, 6, 0);
    winsertln(win);
    wmove(win, 8, 0);
    wdeleteln(win);
    wmove(win, 1, 0);
    winsdelln(win, -1);
    winsdelln(win, 1);
    mvwinsch(win, 7, 3, '\001' | A_BOLD);
    mvwinsstr(win, 7, 10, "a\tb\033c");
    mvwinsch(win, 7, 28, '\177');
    look_at(win);
    wmove(win, 4, 6);
    wclrtoeol(win);
    wmove(win, 6, 2);
    wclrtobot(win);
    look_at(win);
    werase(win);
    look_at(win);
    mvprintw(23, 0, "of none: %d %d %d %d", winsch(NULL, 'x'), wdelch(NULL), winsdelln(NULL, 1), werase(NULL));
    look_at(stdscr);
    endwin();
    return 0;
}

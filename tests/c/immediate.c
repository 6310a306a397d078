/* Windows that each change shows, or passes on to the parent; and the stops of tabs. */
#include "shot.h"

/* Writes whether a window's parent is touched, and takes that away. */
static void tell(WINDOW *parent, int line, const char *what) {
    mvprintw(line, 0, "%s %d", what, is_wintouched(parent));
    refresh();
    untouchwin(parent);
}

int main(void) {
    initscr();
    start_color();
    WINDOW *win = newwin(6, 30, 2, 4), *part = derwin(win, 3, 20, 1, 2);
    refresh();
    immedok(win, TRUE);
    waddch(win, 'a');
    shot();
    waddstr(win, " text\nand another");
    shot();
    box(win, 0, 0);
    mvwhline(win, 2, 1, '=', 20);
    shot();
    mvwinsch(win, 1, 1, 'i');
    mvwdelch(win, 1, 5);
    mvwinsstr(win, 3, 3, "inserted");
    shot();
    wmove(win, 1, 0);
    winsertln(win);
    wclrtoeol(win);
    shot();
    werase(win);
    wbkgd(win, '.');
    shot();
    immedok(win, FALSE);
    waddstr(win, "not shown");
    shot();
    untouchwin(win);
    tell(win, 10, "without");
    waddch(part, 'p');
    tell(win, 11, "still");
    syncok(part, TRUE);
    waddch(part, 'q');
    tell(win, 12, "character");
    waddstr(part, "text");
    tell(win, 13, "text");
    wclrtobot(part);
    tell(win, 14, "cleared");
    printw(", %d %d %d %d", is_immedok(win), is_syncok(part), is_syncok(win), is_immedok(part));
    syncok(part, FALSE);
    waddch(part, 'r');
    tell(win, 15, "no more");
    mvprintw(17, 0, "%d", TABSIZE);
    printw(" %d", set_tabsize(4));
    printw("\tfour\tand");
    set_tabsize(0);
    mvaddstr(18, 1, "a\tb\tc");
    mvinsstr(18, 0, "x\ty");
    set_tabsize(8);
    mvaddstr(19, 1, "a\tb\tc");
    refresh();
    shot();
    endwin();
    return 0;
}

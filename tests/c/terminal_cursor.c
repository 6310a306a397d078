/* Where the terminal's cursor is, and how large it is. */
#include "shot.h"

static void tell(int y, const char *what) {
    int cursor_y, cursor_x, begin_y, begin_x, max_y, max_x;
    getyx(curscr, cursor_y, cursor_x);
    getbegyx(curscr, begin_y, begin_x);
    getmaxyx(curscr, max_y, max_x);
    mvprintw(y, 0, "%s: cursor %d %d, begins %d %d, size %d %d", what, cursor_y, cursor_x, begin_y, begin_x, max_y, max_x);
}

int main(void) {
    initscr();
    tell(0, "before any refresh");
    move(5, 7);
    refresh();
    tell(1, "at 5 7");
    move(9, 9);
    tell(2, "moved, and not shown");
    refresh();
    shot();
    WINDOW *win = newwin(4, 30, 12, 40);
    mvwaddstr(win, 1, 1, "a window's cursor");
    wnoutrefresh(win);
    tell(3, "not updated");
    doupdate();
    tell(4, "updated");
    refresh();
    shot();
    /* as a program that comes back to where the cursor was */
    int y, x;
    wmove(win, 2, 3);
    wrefresh(win);
    getyx(curscr, y, x);
    mvaddstr(6, 0, "a message");
    clrtoeol();
    move(y, x);
    refresh();
    shot();
    WINDOW *pad = newpad(10, 20);
    mvwaddstr(pad, 3, 4, "pad");
    prefresh(pad, 0, 0, 15, 10, 22, 29);
    tell(8, "a pad's");
    refresh();
    shot();
    endwin();
    return 0;
}

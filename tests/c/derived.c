/* Windows that derive from others, and what is touched of them. */
#include "shot.h"

int main(void) {
    initscr();
    WINDOW *parent = newwin(12, 40, 3, 10);
    fill(parent, 'a');
    WINDOW *relative = derwin(parent, 4, 12, 2, 3), *absolute = subwin(parent, 3, 10, 9, 30);
    wmove(parent, 0, 0);
    mvwaddstr(relative, 0, 0, "relative");
    mvwaddstr(absolute, 1, 1, "absolute");
    wrefresh(parent);
    shot();
    wsyncup(relative);
    wsyncup(absolute);
    wrefresh(parent);
    shot();
    mvderwin(relative, 6, 20);
    mvwaddstr(relative, 1, 2, "moved");
    touchwin(parent);
    wrefresh(parent);
    shot();
    mvwaddstr(parent, 0, 0, "the first line");
    mvwaddstr(parent, 7, 22, "through the parent");
    untouchwin(relative);
    wsyncdown(relative);
    mvprintw(20, 0, "touched: %d %d %d", is_linetouched(relative, 0), is_linetouched(relative, 1), is_wintouched(relative));
    refresh();
    touchwin(parent);
    wrefresh(parent);
    wrefresh(relative);
    shot();
    wmove(relative, 2, 5);
    wcursyncup(relative);
    mvprintw(21, 0, "the parent's cursor: %d %d", getcury(parent), getcurx(parent));
    int y, x;
    getparyx(absolute, y, x);
    mvprintw(22, 0, "in the parent: %d %d, of the parent: %d %d", y, x, getpary(parent), getparx(parent));
    refresh();
    wattron(parent, A_BOLD);
    WINDOW *bold = derwin(parent, 2, 20, 10, 5);
    waddstr(bold, "bold as its parent");
    WINDOW *copy = dupwin(parent);
    mvwaddstr(copy, 5, 5, "only in the copy");
    touchwin(parent);
    wrefresh(parent);
    shot();
    mvwin(copy, 5, 35);
    wrefresh(copy);
    shot();
    delwin(bold);
    delwin(relative);
    delwin(absolute);
    delwin(parent);
    delwin(copy);
    endwin();
    return 0;
}

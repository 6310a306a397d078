/* Derived windows that are deleted, or show another part, and what their parents show then. */
#include "shot.h"

int main(void) {
    initscr();
    WINDOW *parent = newwin(10, 40, 2, 5), *dialog = newwin(6, 30, 4, 20);
    fill(parent, 'a');
    fill(dialog, 'A');
    WINDOW *part = derwin(parent, 4, 12, 3, 10), *deep = derwin(part, 2, 5, 1, 2);
    mvwaddstr(part, 0, 0, "the part");
    mvwaddstr(deep, 1, 0, "deep");
    look_over_screen(parent);
    wrefresh(dialog);
    shot();
    mvprintw(20, 0, "%d", delwin(dialog));
    look_over_screen(parent);
    mvprintw(21, 0, "%d %d %d", delwin(deep), is_wintouched(part), is_wintouched(parent));
    look_over_screen(part);
    mvprintw(21, 10, "%d %d", delwin(part), is_wintouched(parent));
    look_over_screen(parent);
    part = derwin(parent, 3, 12, 0, 0);
    wrefresh(parent);
    wrefresh(part);
    mvwaddstr(part, 2, 1, "written");
    mvprintw(22, 0, "touched %d %d", is_linetouched(parent, 2), is_linetouched(parent, 6));
    printw(", moved %d", mvderwin(part, 5, 20));
    printw(", touched %d %d", is_linetouched(parent, 2), is_linetouched(parent, 7));
    wnoutrefresh(stdscr);
    wrefresh(parent);
    shot();
    mvwaddstr(part, 1, 0, "elsewhere");
    printw(", not moved %d %d %d", mvderwin(part, 8, 0), mvderwin(part, 0, 30), mvderwin(parent, 0, 0));
    wnoutrefresh(stdscr);
    wrefresh(part);
    shot();
    touchwin(parent);
    wrefresh(parent);
    shot();
    deep = derwin(part, 1, 8, 1, 1);
    mvwaddstr(parent, 6, 20, "through the parent");
    wrefresh(deep);
    mvprintw(23, 0, "touched %d %d", is_wintouched(part), is_wintouched(deep));
    refresh();
    shot();
    endwin();
    return 0;
}

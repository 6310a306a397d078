/* Panels alone at first, some of which are hidden, moved and deleted; then a window is refreshed too. */
#include "shot.h"

static PANEL *titled(int y, int x, const char *title) {
    WINDOW *win = newwin(6, 26, y, x);
    box(win, '|', '-');
    mvwaddstr(win, 0, 2, title);
    return new_panel(win);
}

static void update(void) {
    update_panels();
    doupdate();
    shot();
}

int main(void) {
    initscr();
    for (int y = 0; y < LINES; y++) mvhline(y, 0, '.', COLS - (y == LINES - 1));
    PANEL *a = titled(2, 4, "one"), *b = titled(5, 20, "two"), *c = titled(8, 10, "three");
    update();
    hide_panel(b);
    move_panel(c, 10, 40);
    update();
    WINDOW *log = newwin(4, 60, 18, 2);
    wbkgd(log, '~');
    mvwaddstr(log, 1, 1, "a window beside the panels");
    wnoutrefresh(log);
    update();
    show_panel(b);
    mvwaddstr(log, 2, 1, "two is back");
    wnoutrefresh(log);
    update();
    move_panel(b, 15, 30);
    update();
    WINDOW *of_c = panel_window(c);
    del_panel(c);
    update();
    c = new_panel(of_c);
    update();
    WINDOW *other = newwin(4, 30, 12, 2);
    mvwaddstr(other, 1, 1, "another window");
    replace_panel(a, other);
    update();
    mvwaddstr(log, 0, 0, "on top again");
    touchwin(log);
    wnoutrefresh(log);
    doupdate();
    shot();
    top_panel(a);
    update();
    endwin();
    return 0;
}

/* Overlapping panels: made, shown, hidden, ordered, moved, given other windows and deleted. */
#include "shot.h"

static PANEL *titled(int lines, int columns, int y, int x, const char *title) {
    WINDOW *win = newwin(lines, columns, y, x);
    box(win, '|', '-');
    mvwaddstr(win, 0, 2, title);
    mvwprintw(win, 1, 1, "at %d %d", y, x);
    return new_panel(win);
}

static void look(void) {
    update_panels();
    doupdate();
    shot();
}

int main(void) {
    static const char word[] = "kept";
    initscr();
    for (int y = 0; y < LINES; y++) mvhline(y, 0, '.', COLS - (y == LINES - 1));
    PANEL *a = titled(8, 30, 2, 4, "one"), *b = titled(7, 26, 5, 20, "two"), *c = titled(6, 30, 8, 10, "three");
    look();
    top_panel(a);
    look();
    bottom_panel(c);
    move_panel(b, 12, 40);
    look();
    hide_panel(a);
    look();
    mvprintw(0, 0, "hidden: %d %d", panel_hidden(a), panel_hidden(b));
    mvprintw(1, 0, "above c is b: %d, below b is c: %d", panel_above(c) == b, panel_below(b) == c);
    mvprintw(2, 0, "lowest is c: %d, highest is b: %d", panel_above(NULL) == c, panel_below(NULL) == b);
    mvprintw(3, 0, "above b is none: %d, below c is none: %d", panel_above(b) == NULL, panel_below(c) == NULL);
    show_panel(a);
    look();
    set_panel_userptr(a, word);
    mvprintw(20, 0, "pointers: %d %d", panel_userptr(a) == word, panel_userptr(b) == NULL);
    WINDOW *old = panel_window(b), *other = newwin(3, 20, 1, 50);
    mvwaddstr(other, 1, 1, "another window");
    replace_panel(b, other);
    mvprintw(21, 0, "the window of b is the other: %d", panel_window(b) == other);
    delwin(old);
    look();
    del_panel(c);
    mvprintw(22, 0, "of none: %d %d %d %d", del_panel(NULL), hide_panel(NULL), move_panel(NULL, 0, 0), panel_hidden(NULL));
    look();
    endwin();
    return 0;
}

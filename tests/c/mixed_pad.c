/* A pad that is scrolled, and a menu in panels over it. */
#include "shot.h"

static PANEL *menu(int x, const char *const *words, int count) {
    WINDOW *win = newwin(count + 2, 16, 1, x);
    box(win, '|', '-');
    for (int i = 0; i < count; i++) mvwaddstr(win, i + 1, 2, words[i]);
    PANEL *panel = new_panel(win);
    hide_panel(panel);
    return panel;
}

static void scroll_to(WINDOW *pad, int line) {
    pnoutrefresh(pad, line, 0, 1, 0, LINES - 2, COLS - 1);
    update_panels();
    doupdate();
    shot();
}

int main(void) {
    static const char *const files[] = {"open", "save", "quit"}, *const edits[] = {"cut", "copy", "paste", "undo"};
    initscr();
    mvaddstr(0, 0, " file  edit");
    mvaddstr(LINES - 1, 0, "a text of 60 lines");
    refresh();
    WINDOW *pad = newpad(60, 80);
    for (int y = 0; y < 60; y++) mvwprintw(pad, y, 3 * (y % 5), "%d: what stands on this line", y);
    PANEL *file = menu(1, files, 3), *edit = menu(7, edits, 4);
    scroll_to(pad, 0);
    scroll_to(pad, 10);
    show_panel(file);
    scroll_to(pad, 10);
    mvwchgat(panel_window(file), 2, 1, 14, A_REVERSE, 0, NULL);
    update_panels();
    doupdate();
    shot();
    show_panel(edit);
    scroll_to(pad, 11);
    top_panel(file);
    update_panels();
    doupdate();
    shot();
    bottom_panel(file);
    scroll_to(pad, 12);
    hide_panel(edit);
    hide_panel(file);
    update_panels();
    doupdate();
    shot();
    scroll_to(pad, 40);
    endwin();
    return 0;
}

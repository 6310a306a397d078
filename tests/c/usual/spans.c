/* Windows of other sizes: at the screen's ends, and made larger and smaller. */
#include "../shot.h"

static void look(WINDOW *win) {
    wrefresh(win);
    shot();
}

static void mark(WINDOW *win, char ch) {
    int lines, columns, y, x;
    getmaxyx(win, lines, columns);
    getbegyx(win, y, x);
    werase(win);
    for (int i = 0; i < lines; i++) mvwhline(win, i, 0, (chtype)ch, columns);
    mvwprintw(win, 0, 0, "%d %d %d %d", lines, columns, y, x);
}

int main(void) {
    initscr();
    for (int y = 0; y < 24; y++) mvhline(y, 0, '.', 80);
    look(stdscr);
    WINDOW *rest = newwin(0, 0, 20, 50), *tall = newwin(0, 12, 0, 0), *wide = newwin(2, 0, 21, 20);
    mark(rest, 'r');
    look(rest);
    mark(tall, 't');
    look(tall);
    mark(wide, 'w');
    look(wide);
    WINDOW *win = newwin(6, 20, 5, 20);
    mark(win, 'a');
    look(win);
    wresize(win, 10, 30);
    look(win);
    mark(win, 'b');
    look(win);
    wresize(win, 4, 12);
    touchwin(stdscr);
    wnoutrefresh(stdscr);
    look(win);
    mvwin(win, 20, 68);
    look(win);
    mvwprintw(stdscr, 0, 40, "%d %d", mvwin(win, 21, 68), mvwin(win, -1, 0));
    look(stdscr);
    mvprintw(1, 40, "%d %d %d", !newwin(30, 90, 0, 0), !newwin(-1, 4, 0, 0), !derwin(win, 9, 9, 0, 0));
    look(stdscr);
    WINDOW *twin = dupwin(win);
    mvwin(twin, 10, 60);
    mvwaddstr(twin, 1, 1, "a twin");
    look(twin);
    PANEL *panel = new_panel(twin);
    wresize(twin, 6, 18);
    mark(twin, 'p');
    update_panels();
    doupdate();
    shot();
    replace_panel(panel, twin);
    move_panel(panel, 3, 3);
    update_panels();
    doupdate();
    shot();
    del_panel(panel);
    erase();
    mvprintw(2, 2, "%d %d %d %d", LINES, COLS, is_wintouched(stdscr), is_linetouched(stdscr, 5));
    look(stdscr);
    endwin();
    return 0;
}

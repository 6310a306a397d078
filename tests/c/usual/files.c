/* A file manager: two panes, a bar below them, and questions on top. */
#include "../shot.h"

static const char *const names[] = {"..",      "bench",   "cases",   "docs",      "examples",
                                    "include", "install", "package", "README.md", "test"};
enum { NAMES = sizeof names / sizeof names[0] };

static void draw_pane(WINDOW *pane, int first, int chosen, bool is_active) {
    werase(pane);
    if (is_active) wattron(pane, A_BOLD);
    box(pane, 0, 0);
    wattroff(pane, A_BOLD);
    mvwprintw(pane, 0, 3, " %s ", is_active ? "/usr/share" : "/home");
    for (int i = 0; i < getmaxy(pane) - 2; i++) {
        int number = first + i;
        if (number == chosen && is_active) wattron(pane, A_REVERSE);
        if (number % 3 == 0) wattron(pane, COLOR_PAIR(2) | A_BOLD);
        mvwprintw(pane, 1 + i, 1, " %-24.24s %8d ", names[number % NAMES], number * 3711 % 90000);
        wattrset(pane, A_NORMAL);
    }
    wmove(pane, 1 + chosen - first, 1);
}

static void draw_bar(WINDOW *bar) {
    static const char *const words[] = {"Help", "Menu", "View", "Edit", "Copy", "Move", "Mkdir", "Delete", "Quit"};
    wmove(bar, 0, 0);
    for (int i = 0; i < 9; i++) {
        wattrset(bar, A_NORMAL);
        wprintw(bar, "%2d", i + 1);
        wattrset(bar, COLOR_PAIR(3));
        wprintw(bar, "%-6.6s", words[i]);
    }
}

static void look(void) {
    update_panels();
    doupdate();
    shot();
}

int main(void) {
    initscr();
    start_color();
    init_pair(1, COLOR_WHITE, COLOR_BLUE);
    init_pair(2, COLOR_CYAN, COLOR_BLUE);
    init_pair(3, COLOR_BLACK, COLOR_CYAN);
    init_pair(4, COLOR_WHITE, COLOR_RED);
    WINDOW *panes[2] = {newwin(22, 40, 1, 0), newwin(22, 40, 1, 40)}, *bar = newwin(1, 80, 23, 0);
    mvaddstr(0, 0, "  Left     File     Command     Options     Right");
    mvchgat(0, 0, -1, A_REVERSE, 0, NULL);
    refresh();
    draw_bar(bar);
    wnoutrefresh(bar);
    for (int step = 0; step < 8; step++) {
        int active = step / 3 % 2;
        wbkgdset(panes[0], COLOR_PAIR(1) | ' ');
        wbkgdset(panes[1], COLOR_PAIR(step > 4 ? 3 : 1) | ' ');
        draw_pane(panes[!active], 0, 0, false);
        draw_pane(panes[active], step > 5 ? 4 : 0, 2 + 3 * (step % 3), true);
        wnoutrefresh(panes[!active]);
        wnoutrefresh(panes[active]);
        doupdate();
        shot();
    }
    WINDOW *question = newwin(7, 44, 8, 18), *shadow = newwin(7, 44, 9, 20);
    wbkgd(question, COLOR_PAIR(4) | ' ');
    wbkgd(shadow, A_DIM | '#');
    box(question, 0, 0);
    mvwaddstr(question, 0, 17, " Delete? ");
    mvwaddstr(question, 2, 3, "README.md and 3 other files");
    PANEL *below = new_panel(shadow), *above = new_panel(question);
    for (int choice = 0; choice < 3; choice++) {
        static const char *const words[] = {"[ Yes ]", "[ No ]", "[ All ]"};
        for (int i = 0; i < 3; i++) {
            wattrset(question, i == choice ? COLOR_PAIR(3) | A_BOLD : COLOR_PAIR(4));
            mvwaddstr(question, 4, 5 + 12 * i, words[i]);
        }
        look();
    }
    hide_panel(below);
    look();
    move_panel(above, 2, 2);
    look();
    del_panel(above);
    delwin(question);
    del_panel(below);
    for (int i = 0; i < 2; i++) touchwin(panes[i]), wnoutrefresh(panes[i]);
    doupdate();
    shot();
    flash();
    clear();
    mvprintw(12, 30, "%s", "Nothing is left.");
    refresh();
    shot();
    endwin();
    return 0;
}

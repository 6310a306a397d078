/* Panels, which are moved, hidden, raised, lowered and given other windows. */
#include "../shot.h"

static void look(void) {
    update_panels();
    doupdate();
    shot();
}

int main(void) {
    PANEL *panels[5];
    initscr();
    start_color();
    for (short i = 1; i < 6; i++) init_pair(i, COLOR_WHITE, i);
    for (int y = 0; y < 24; y++) mvprintw(y, y, "below all panels, line %d", y);
    for (int i = 0; i < 5; i++) {
        WINDOW *win = newwin(9, 26, 1 + 3 * i, 2 + 11 * i);
        wbkgd(win, COLOR_PAIR(i + 1) | ' ');
        box(win, 0, 0);
        mvwprintw(win, 1, 2, "panel %d", i);
        panels[i] = new_panel(win);
    }
    look();
    top_panel(panels[1]);
    look();
    bottom_panel(panels[3]);
    look();
    hide_panel(panels[2]);
    look();
    move_panel(panels[2], 12, 50);
    move_panel(panels[0], 10, 20);
    look();
    show_panel(panels[2]);
    look();
    mvwprintw(panel_window(panels[4]), 3, 2, "written below others");
    look();
    mvaddstr(5, 60, "and on the standard screen");
    look();
    WINDOW *other = newwin(4, 60, 6, 10);
    for (int y = 0; y < 4; y++) mvwprintw(other, y, 0, "another window for a panel, line %d", y);
    WINDOW *before = panel_window(panels[1]);
    replace_panel(panels[1], other);
    look();
    replace_panel(panels[1], before);
    look();
    for (PANEL *panel = panel_above(NULL); panel; panel = panel_above(panel))
        mvwprintw(panel_window(panel), 7, 2, "in order");
    look();
    set_panel_userptr(panels[0], "a text");
    mvwprintw(panel_window(panels[0]), 4, 2, "%s %d", (const char *)panel_userptr(panels[0]), panel_hidden(panels[2]));
    top_panel(panels[0]);
    look();
    del_panel(panels[4]);
    look();
    for (int i = 0; i < 4; i++) {
        move_panel(panels[i], 2 * i, 10 * i);
        look();
    }
    for (int i = 0; i < 3; i++) hide_panel(panels[i]);
    clear();
    mvaddstr(0, 0, "the standard screen is cleared");
    look();
    werase(panel_window(panels[3]));
    mvwaddstr(panel_window(panels[3]), 4, 4, "the last one");
    look();
    endwin();
    return 0;
}

/* Four windows beside one another, of which some have parts, under three panels in turn on top. */
#include "shot.h"

int main(void) {
    initscr();
    start_color();
    init_pair(1, COLOR_YELLOW, COLOR_BLUE);
    init_pair(2, COLOR_WHITE, COLOR_RED);
    refresh();
    WINDOW *tiles[4];
    PANEL *panels[3];
    for (int i = 0; i < 4; i++) {
        tiles[i] = newwin(12, 40, 12 * (i / 2), 40 * (i % 2));
        wbkgd(tiles[i], COLOR_PAIR(i % 2) | ' ');
        fill(tiles[i], (chtype)('a' + i));
        wnoutrefresh(tiles[i]);
    }
    doupdate();
    shot();
    for (int i = 0; i < 3; i++) {
        WINDOW *win = newwin(6, 24, 5 + 3 * i, 24 + 5 * i);
        wbkgd(win, COLOR_PAIR(2) | ' ');
        box(win, '|', '-');
        mvwprintw(win, 0, 2, " %d ", i);
        panels[i] = new_panel(win);
    }
    update_panels();
    doupdate();
    shot();
    for (int i = 0; i < 3; i++) {
        top_panel(panels[i]);
        mvwprintw(panel_window(panels[i]), 2, 2, "on top");
        mvwprintw(tiles[i], 6, 10, "beside panel %d", i);
        wnoutrefresh(tiles[i]);
        update_panels();
        doupdate();
        shot();
    }
    WINDOW *part = derwin(tiles[1], 3, 12, 2, 2);
    waddstr(part, "a part of a tile");
    wrefresh(part);
    bottom_panel(panels[1]);
    update_panels();
    doupdate();
    shot();
    for (int i = 0; i < 3; i++) {
        hide_panel(panels[i]);
        update_panels();
        for (int tile = 0; tile < 4; tile++) {
            redrawwin(tiles[tile]);
            wnoutrefresh(tiles[tile]);
        }
        update_panels();
        doupdate();
        shot();
    }
    endwin();
    return 0;
}

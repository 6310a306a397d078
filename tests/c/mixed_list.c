/* A list in a window of its own, and a question in a panel over it. */
#include "shot.h"

static const char *const names[] = {"apples", "bread", "cheese", "dates", "eggs", "figs", "grapes", "honey"};

static void draw_list(WINDOW *list, int chosen) {
    werase(list);
    box(list, '|', '-');
    for (int i = 0; i < 8; i++) {
        if (i == chosen) wattron(list, A_REVERSE);
        mvwprintw(list, i + 1, 2, "%-14s", names[i]);
        wattroff(list, A_REVERSE);
    }
    wnoutrefresh(list);
}

int main(void) {
    initscr();
    curs_set(0);
    mvaddstr(0, 0, "shopping");
    refresh();
    WINDOW *list = newwin(10, 20, 2, 4), *question = newwin(5, 30, 6, 14);
    box(question, '|', '=');
    mvwaddstr(question, 2, 3, "take it off the list?");
    PANEL *panel = new_panel(question);
    hide_panel(panel);
    for (int chosen = 0; chosen < 4; chosen++) {
        draw_list(list, chosen);
        update_panels();
        doupdate();
        shot();
    }
    show_panel(panel);
    update_panels();
    doupdate();
    shot();
    mvwaddstr(question, 3, 3, "y/n");
    draw_list(list, 5);
    update_panels();
    doupdate();
    shot();
    hide_panel(panel);
    update_panels();
    doupdate();
    shot();
    draw_list(list, 6);
    doupdate();
    shot();
    show_panel(panel);
    move_panel(panel, 1, 30);
    draw_list(list, 7);
    update_panels();
    doupdate();
    shot();
    endwin();
    return 0;
}

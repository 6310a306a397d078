/* Text on the standard screen, a status line in a window, and help in a panel. */
#include "shot.h"

static void show_status(WINDOW *status, const char *text) {
    wbkgd(status, A_REVERSE | ' ');
    mvwaddstr(status, 0, 1, text);
    wclrtoeol(status);
    wrefresh(status);
}

int main(void) {
    initscr();
    for (int y = 0; y < LINES - 1; y++) mvprintw(y, 0, "line %d of the text, which is long enough to go on below", y);
    refresh();
    WINDOW *status = newwin(1, COLS, LINES - 1, 0), *help = newwin(8, 30, 3, 20);
    show_status(status, "read 23 lines");
    shot();
    box(help, '|', '-');
    mvwaddstr(help, 1, 2, "j  down");
    mvwaddstr(help, 2, 2, "k  up");
    PANEL *panel = new_panel(help);
    update_panels();
    doupdate();
    show_status(status, "help");
    shot();
    mvaddstr(4, 10, "written while the help is there");
    refresh();
    shot();
    update_panels();
    doupdate();
    shot();
    move_panel(panel, 12, 40);
    update_panels();
    doupdate();
    show_status(status, "moved");
    shot();
    werase(help);
    mvwaddstr(help, 4, 4, "the second page");
    show_status(status, "page 2");
    update_panels();
    doupdate();
    shot();
    del_panel(panel);
    delwin(help);
    update_panels();
    doupdate();
    show_status(status, "read on");
    shot();
    mvaddstr(22, 0, "the last line");
    refresh();
    show_status(status, "end");
    shot();
    endwin();
    return 0;
}

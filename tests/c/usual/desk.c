/* Windows over one another, without panels: whichever is refreshed last is on top. */
#include "../shot.h"

static void look(WINDOW *win) {
    wrefresh(win);
    shot();
}

int main(void) {
    initscr();
    WINDOW *wins[4];
    for (int y = 0; y < 24; y++) mvprintw(y, 0, "%02d ..................................................", y);
    look(stdscr);
    for (int i = 0; i < 4; i++) {
        wins[i] = newwin(8, 30, 2 + 4 * i, 4 + 12 * i);
        box(wins[i], i % 2 ? '|' : 0, i % 2 ? '-' : 0);
        mvwprintw(wins[i], 0, 2, "[ window %d ]", i);
        for (int y = 1; y < 7; y++) mvwprintw(wins[i], y, 2, "%d: %*c", y, 3 * y, 'a' + i);
        look(wins[i]);
    }
    touchwin(wins[1]);
    look(wins[1]);
    touchline(wins[0], 3, 4);
    look(wins[0]);
    redrawwin(wins[2]);
    look(wins[2]);
    mvwaddstr(wins[3], 3, 5, "only this line is new");
    look(wins[3]);
    mvwin(wins[0], 14, 3);
    touchwin(stdscr);
    wnoutrefresh(stdscr);
    for (int i = 3; i >= 0; i--) {
        touchwin(wins[i]);
        wnoutrefresh(wins[i]);
    }
    doupdate();
    shot();
    overwrite(wins[1], wins[2]);
    look(wins[2]);
    overlay(wins[3], wins[2]);
    look(wins[2]);
    copywin(wins[0], wins[3], 0, 0, 1, 1, 4, 20, TRUE);
    look(wins[3]);
    WINDOW *twin = dupwin(wins[3]);
    mvwin(twin, 0, 50);
    look(twin);
    untouchwin(stdscr);
    mvaddstr(12, 60, "beside them");
    look(stdscr);
    wclear(twin);
    mvwaddstr(twin, 1, 1, "clear");
    look(twin);
    clearok(curscr, TRUE);
    look(wins[0]);
    wredrawln(stdscr, 0, 6);
    look(stdscr);
    endwin();
    return 0;
}

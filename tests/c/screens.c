/* The screen: its size, its end, and what comes after that. */
#include "shot.h"

int main(void) {
    SCREEN *screen = newterm(getenv("TERM"), stdout, stdin);
    if (!screen) return 1;
    mvprintw(0, 0, "size %d %d, ended %d", LINES, COLS, isendwin());
    printw(", standard screen %d %d", getmaxy(stdscr), getmaxx(stdscr));
    attron(A_REVERSE);
    mvaddstr(5, 5, "before the end");
    attroff(A_REVERSE);
    refresh();
    shot();
    endwin();
    mvprintw(1, 0, "ended %d", isendwin());
    if (write(1, "\033[2J\033[3;3Hfrom outside", 22) < 0) return 3;
    refresh();
    shot();
    mvprintw(2, 0, "ended %d", isendwin());
    curs_set(1);
    beep();
    flash();
    napms(1);
    refresh();
    shot();
    endwin();
    delscreen(screen);
    return 0;
}

/* Pads, and the parts of them that are shown. */
#include "shot.h"

/* Puts the cursor where the standard screen has it, whether a pad's is shown or not, and looks. */
static void look(void) {
    refresh();
    shot();
}

int main(void) {
    initscr();
    WINDOW *pad = newpad(60, 100);
    for (int y = 0; y < 60; y++) mvwprintw(pad, y, 0, "line %d of a pad that is larger than the screen, to the right too", y);
    look();
    prefresh(pad, 10, 5, 2, 10, 12, 60);
    look();
    prefresh(pad, 30, 0, 2, 10, 12, 60);
    look();
    WINDOW *part = subpad(pad, 5, 30, 32, 8);
    wattron(part, A_REVERSE);
    mvwaddstr(part, 0, 0, "through a pad of a pad");
    touchwin(pad);
    pnoutrefresh(pad, 30, 0, 2, 10, 12, 60);
    pnoutrefresh(part, 0, 0, 15, 0, 18, 25);
    doupdate();
    look();
    prefresh(pad, -3, -1, 0, 0, 3, 20);
    look();
    wmove(pad, 1, 4);
    pechochar(pad, 'X');
    look();
    int refused = pnoutrefresh(pad, 0, 0, 0, 0, 30, 20);
    pechochar(pad, 'Y');
    mvprintw(22, 0, "refused: %d", refused == ERR);
    look();
    mvprintw(22, 0, "larger than the pad: %d", prefresh(part, 1, 5, 14, 10, LINES - 1, COLS - 1) == OK);
    look();
    mvprintw(22, 0, "past the pad, and past the screen: %d %d", prefresh(part, 5, 0, 0, 0, 4, 4), prefresh(pad, 0, 0, 0, 0, LINES, 4));
    look();
    WINDOW *other = newpad(3, 10);
    prefresh(pad, 1, 2, 3, 4, 8, 40);
    mvwaddstr(pad, 2, 3, "again");
    int shown = wrefresh(pad), never_shown = wrefresh(other);
    mvprintw(22, 0, "the part that was shown last: %d, of another pad: %d", shown, never_shown);
    clrtoeol();
    look();
    mvwaddstr(pad, 3, 3, "and again");
    wnoutrefresh(pad);
    wechochar(pad, '.');
    shot();
    delwin(other);
    delwin(part);
    delwin(pad);
    endwin();
    return 0;
}

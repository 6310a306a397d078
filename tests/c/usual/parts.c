/* Windows that are parts of others. */
#include "../shot.h"

static void look(WINDOW *win) {
    wrefresh(win);
    shot();
}

int main(void) {
    initscr();
    WINDOW *whole = newwin(18, 60, 2, 5);
    for (int y = 0; y < 18; y++)
        for (int x = 0; x < 60 - (y == 17); x++) mvwaddch(whole, y, x, (chtype)('a' + (x + y) % 26));
    look(whole);
    WINDOW *left = derwin(whole, 6, 20, 2, 3), *right = subwin(whole, 8, 20, 8, 35), *inner = derwin(left, 2, 8, 2, 6);
    werase(left);
    box(left, 0, 0);
    mvwaddstr(left, 1, 1, "derived");
    look(left);
    waddstr(inner, "a text in the inner");
    look(inner);
    wattron(right, A_REVERSE);
    for (int y = 0; y < 8; y++) mvwprintw(right, y, 0, "%-19d", y);
    look(right);
    touchwin(whole);
    look(whole);
    scrollok(right, TRUE);
    wscrl(right, 2);
    look(right);
    wscrl(right, -1);
    touchwin(whole);
    look(whole);
    wbkgd(left, A_UNDERLINE | ' ');
    look(left);
    mvderwin(left, 10, 30);
    mvwaddstr(left, 0, 0, "elsewhere in it");
    wsyncup(left);
    look(whole);
    mvderwin(left, 2, 3);
    syncok(inner, TRUE);
    mvwaddstr(inner, 1, 2, "sync");
    look(whole);
    wmove(inner, 1, 3);
    wcursyncup(inner);
    look(whole);
    WINDOW *top = subwin(stdscr, 2, 80, 0, 0), *bottom = subwin(stdscr, 2, 80, 22, 0);
    waddstr(top, "the top of the standard screen");
    mvwaddstr(bottom, 1, 0, "its bottom");
    mvwhline(bottom, 0, 0, '=', 80);
    look(stdscr);
    wmove(whole, 4, 0);
    winsdelln(whole, 2);
    look(whole);
    wclrtobot(left);
    mvwaddch(left, 5, 19, '!');
    look(left);
    delwin(inner);
    delwin(left);
    delwin(right);
    mvwin(whole, 4, 15);
    touchwin(stdscr);
    wnoutrefresh(stdscr);
    look(whole);
    endwin();
    return 0;
}

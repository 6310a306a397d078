/* Attributes of a window, and those of a character. */
#include "shot.h"

int main(void) {
    static const chtype each[] = {A_NORMAL, A_BOLD, A_DIM, A_UNDERLINE, A_BLINK, A_REVERSE, A_INVIS, A_STANDOUT};
    static const attr_t same[] = {WA_NORMAL, WA_BOLD, WA_DIM, WA_UNDERLINE, WA_BLINK, WA_REVERSE, WA_INVIS, WA_STANDOUT};
    initscr();
    for (int i = 0; i < 8; i++) {
        attrset((int)each[i]);
        mvprintw(i, 0, "attribute %d", i);
        attrset(A_NORMAL);
        mvaddch(i, 20, 'c' | each[i]);
        mvaddch(i, 22, 's' | each[i] | A_BOLD);
        attr_set(same[i], 0, NULL);
        mvaddstr(i, 30, "the same");
    }
    attrset(A_NORMAL);
    refresh();
    shot();
    attron(A_BOLD | A_UNDERLINE);
    mvaddstr(10, 0, "both");
    attroff(A_BOLD);
    addstr(" one");
    attr_on(A_REVERSE, NULL);
    addstr(" with reverse");
    attr_off(A_UNDERLINE | A_REVERSE, NULL);
    addstr(" none");
    standout();
    addstr(" out");
    standend();
    addstr(" normal");
    WINDOW *win = newwin(5, 40, 12, 5);
    wattron(win, A_REVERSE);
    waddstr(win, "reverse ");
    wattroff(win, A_REVERSE);
    wattrset(win, A_DIM);
    waddstr(win, "dim ");
    wattr_on(win, A_BOLD, NULL);
    waddstr(win, "and bold ");
    wattr_off(win, A_DIM, NULL);
    waddstr(win, "bold");
    wattrset(win, A_NORMAL);
    wstandout(win);
    mvwaddstr(win, 1, 0, "standout");
    wstandend(win);
    waddstr(win, " and not");
    wattr_set(win, A_UNDERLINE, 0, NULL);
    mvwaddch(win, 2, 0, 'u');
    waddch(win, 'b' | A_BOLD);
    waddch(win, ' ' | A_REVERSE);
    short pair;
    attr_t attrs;
    wattr_get(win, &attrs, &pair, NULL);
    wprintw(win, " %d %d", attrs == A_UNDERLINE, pair);
    wbkgdset(win, '.');
    mvwaddch(win, 3, 0, ' ');
    waddch(win, ' ' | A_REVERSE);
    look_over_screen(win);
    mvprintw(20, 0, "of none: %d %d %d", wattron(NULL, A_BOLD), wattrset(NULL, 0), wstandend(NULL));
    refresh();
    shot();
    endwin();
    return 0;
}

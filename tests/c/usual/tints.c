/* Attributes, colours and backgrounds. */
#include "../shot.h"

static void look(void) {
    refresh();
    shot();
}

int main(void) {
    static const chtype attrs[] = {A_NORMAL,  A_BOLD,     A_DIM,                A_UNDERLINE,       A_BLINK,
                                   A_REVERSE, A_STANDOUT, A_BOLD | A_UNDERLINE, A_REVERSE | A_BOLD};
    initscr();
    start_color();
    for (int i = 0; i < 9; i++) {
        attrset(attrs[i]);
        mvprintw(1 + i, 2, "attributes %d", i);
        addch('x' | A_UNDERLINE);
        addch(' ');
    }
    attrset(A_NORMAL);
    look();
    for (short i = 1; i < 64; i++) init_pair(i, (short)(i % 8), (short)(i / 8));
    for (short i = 1; i < 64; i++) {
        attron(COLOR_PAIR(i));
        mvprintw(1 + i / 8, 30 + 5 * (i % 8), "%3d ", i);
    }
    attrset(A_NORMAL);
    look();
    color_set(3, NULL);
    mvaddstr(12, 2, "color_set");
    attr_set(A_BOLD, 5, NULL);
    addstr("attr_set");
    attr_off(A_BOLD, NULL);
    addstr("attr_off");
    standout();
    addstr("standout");
    standend();
    addstr("standend");
    look();
    mvprintw(12, 2, "%-60s", "changed in place");
    mvchgat(12, 4, 12, A_UNDERLINE, 6, NULL);
    mvchgat(13, 0, -1, A_REVERSE, 1, NULL);
    look();
    bkgdset(COLOR_PAIR(8) | '.');
    mvaddstr(15, 2, "written on another background");
    clrtoeol();
    move(16, 10);
    clrtobot();
    look();
    WINDOW *win = newwin(6, 40, 14, 30);
    mvwaddstr(win, 1, 1, "plain ");
    wattron(win, A_BOLD);
    waddstr(win, "bold");
    wattroff(win, A_BOLD);
    wattron(win, COLOR_PAIR(4));
    mvwaddstr(win, 2, 1, "in a pair of its own");
    wattrset(win, A_NORMAL);
    wrefresh(win);
    shot();
    wbkgd(win, COLOR_PAIR(16) | ' ');
    wrefresh(win);
    shot();
    mvwaddstr(win, 3, 1, "after bkgd");
    wbkgd(win, COLOR_PAIR(33) | A_BOLD | ' ');
    wrefresh(win);
    shot();
    wbkgd(win, '+');
    wrefresh(win);
    shot();
    wbkgd(win, A_REVERSE | '-');
    mvwaddstr(win, 4, 1, "on minuses");
    wrefresh(win);
    shot();
    werase(win);
    mvwaddstr(win, 1, 1, "after erase");
    wrefresh(win);
    shot();
    init_pair(3, COLOR_WHITE, COLOR_MAGENTA);
    look();
    bkgd(COLOR_PAIR(17) | ' ');
    look();
    bkgd(' ');
    attrset(A_NORMAL);
    erase();
    for (int i = 0; i < 10; i++) mvaddch(i, 2 * i, (chtype)('0' + i) | attrs[i % 9] | COLOR_PAIR(i));
    look();
    chtype found = mvinch(3, 6);
    mvprintw(20, 0, "%d %d %c", (found & A_ATTRIBUTES) != 0, PAIR_NUMBER(found), (int)(found & A_CHARTEXT));
    addch(found);
    look();
    endwin();
    return 0;
}

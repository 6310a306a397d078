/* Borders and lines. */
#include "../shot.h"

static void look(WINDOW *win) {
    wrefresh(win);
    shot();
}

int main(void) {
    initscr();
    start_color();
    init_pair(1, COLOR_RED, COLOR_BLACK);
    init_pair(2, COLOR_YELLOW, COLOR_BLUE);
    box(stdscr, 0, 0);
    mvaddstr(0, 4, " a title ");
    look(stdscr);
    WINDOW *win = newwin(10, 30, 3, 5), *small = newwin(2, 2, 3, 60);
    WINDOW *line = newwin(1, 20, 6, 50), *column = newwin(8, 1, 8, 70);
    box(win, 0, 0);
    look(win);
    wborder(win, '|', '|', '-', '-', '+', '+', '+', '+');
    look(win);
    wborder(win, ACS_VLINE | A_BOLD, ACS_VLINE, ACS_HLINE | COLOR_PAIR(1), ACS_HLINE | COLOR_PAIR(1), 0, 0, 0, 0);
    look(win);
    wattron(win, COLOR_PAIR(2));
    box(win, 0, 0);
    look(win);
    wattroff(win, COLOR_PAIR(2));
    wbkgdset(win, COLOR_PAIR(2) | ' ');
    box(win, 0, 0);
    look(win);
    box(small, 0, 0);
    look(small);
    box(line, 0, 0);
    look(line);
    box(column, '!', 0);
    look(column);
    for (int i = 0; i < 6; i++) mvhline(14 + i, 5, i % 2 ? 0 : '=', 3 * i + 5);
    look(stdscr);
    for (int i = 0; i < 6; i++) mvvline(14, 40 + 3 * i, i % 2 ? 0 : '!', 2 + i);
    look(stdscr);
    mvhline(22, 60, '-', 100);
    mvvline(20, 77, '|', 100);
    attron(A_REVERSE);
    mvhline(13, 10, ' ', 12);
    mvhline(13, 30, ACS_HLINE, 12);
    attroff(A_REVERSE);
    look(stdscr);
    border('l', 'r', 't', 'b', '1', '2', '3', '4');
    look(stdscr);
    static const char letters[] = "`afgijklmnopqrstuvwxyz{|}~+,-.h0";
    for (int i = 0; letters[i]; i++) mvaddch(1, 2 + 2 * i, (chtype)letters[i] | A_ALTCHARSET);
    move(2, 2);
    attron(A_ALTCHARSET);
    addstr("lqqqk x mqj");
    attroff(A_ALTCHARSET);
    look(stdscr);
    wborder(win, A_REVERSE, A_REVERSE, A_REVERSE, A_REVERSE, 0, 0, 0, 0);
    look(win);
    endwin();
    return 0;
}

/* Lines and signs of the terminal's alternate set: drawn, coloured, read back, covered, and as backgrounds and attributes. */
#include "shot.h"

/* Writes the characters of acs_map. */
static void draw_all(void) {
    for (chtype ch = '`'; ch <= '~'; ch++) addch(acs_map[ch]);
    const chtype signs[] = {ACS_ULCORNER, ACS_LLCORNER, ACS_URCORNER, ACS_LRCORNER, ACS_LTEE,   ACS_RTEE,   ACS_BTEE,   ACS_TTEE,
                            ACS_HLINE,    ACS_VLINE,    ACS_PLUS,     ACS_S1,       ACS_S9,     ACS_DIAMOND, ACS_CKBOARD, ACS_DEGREE,
                            ACS_PLMINUS,  ACS_BULLET,   ACS_LARROW,   ACS_RARROW,   ACS_DARROW, ACS_UARROW, ACS_BOARD,  ACS_LANTERN,
                            ACS_BLOCK,    ACS_S3,       ACS_S7,       ACS_LEQUAL,   ACS_GEQUAL, ACS_PI,     ACS_NEQUAL, ACS_STERLING};
    move(2, 0);
    for (size_t i = 0; i < sizeof signs / sizeof signs[0]; i++) addch(signs[i]);
}

int main(void) {
    chtype row[20];
    char text[20];
    initscr();
    start_color();
    init_pair(1, COLOR_YELLOW, COLOR_BLUE);
    init_pair(2, COLOR_RED, -1);
    draw_all();
    mvaddch(4, 0, ACS_HLINE | A_BOLD);
    addch(ACS_HLINE | COLOR_PAIR(1));
    addch('x');
    addch(ACS_HLINE | COLOR_PAIR(2) | A_REVERSE);
    attron(A_ALTCHARSET);
    addstr("lqkpla");
    mvaddstr(20, 0, "AHQRXYZ!@[,+-.0hi nq");
    addch('W');
    addch('j' | COLOR_PAIR(1));
    hline('y', 4);
    mvvline(20, 40, '.', 2);
    mvinsch(20, 2, 'B');
    mvinsch(20, 2, 'x');
    move(4, 10);
    attroff(A_ALTCHARSET);
    addstr("lqk");
    printw(" %d %d", (int)(mvinch(4, 0) & A_CHARTEXT), (mvinch(4, 0) & A_ALTCHARSET) != 0);
    mvinnstr(4, 0, text, 8);
    mvinchnstr(4, 0, row, 8);
    mvaddstr(5, 0, text);
    mvaddchstr(6, 0, row);
    mvprintw(7, 0, "%d %d", PAIR_NUMBER(row[1]), (row[1] & A_ATTRIBUTES) == (A_ALTCHARSET | COLOR_PAIR(1)));
    printw(" %d", (termattrs() & A_ALTCHARSET) != 0);
    mvinsch(7, 20, ACS_DIAMOND);
    mvinsch(7, 20, ACS_PI | COLOR_PAIR(2));
    refresh();
    shot();
    WINDOW *win = newwin(8, 30, 9, 5), *over = newwin(4, 20, 11, 20);
    wbkgd(win, COLOR_PAIR(1) | ' ');
    box(win, 0, 0);
    mvwhline(win, 3, 1, 0, 28);
    mvwaddch(win, 3, 0, ACS_LTEE);
    mvwvline(win, 1, 10, ACS_VLINE | A_BOLD, 6);
    mvwprintw(win, 1, 12, "in a box");
    wrefresh(win);
    shot();
    wbkgdset(over, ACS_CKBOARD | COLOR_PAIR(2));
    werase(over);
    mvwaddch(over, 1, 1, ACS_PLUS);
    waddstr(over, "tux");
    wrefresh(over);
    shot();
    wbkgdset(over, ' ');
    werase(over);
    wborder(over, 0, 0, '=', ACS_S9, 0, '*', ACS_DIAMOND, 0);
    mvwchgat(over, 1, 0, 5, A_BOLD, 1, NULL);
    wrefresh(over);
    shot();
    overlay(over, win);
    wmove(win, 0, 3);
    wclrtoeol(win);
    wdelch(win);
    mvwinsch(win, 6, 2, ACS_UARROW);
    wrefresh(win);
    shot();
    mvwin(over, 0, 60);
    wrefresh(over);
    mvaddstr(4, 0, "plain again");
    touchwin(stdscr);
    refresh();
    shot();
    endwin();
    return 0;
}

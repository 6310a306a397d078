/* What is in windows, read back. */
#include "shot.h"

static void tell(int y, const char *what, const chtype *row) {
    mvprintw(y, 0, "%s:", what);
    for (; *row; row++) printw(" %c%s%s", (int)(*row & A_CHARTEXT), *row & A_BOLD ? "b" : "", *row & A_REVERSE ? "r" : "");
}

int main(void) {
    char text[200];
    chtype row[200];
    initscr();
    WINDOW *win = newwin(3, 20, 18, 50);
    mvaddstr(0, 3, "read me");
    attron(A_BOLD);
    mvaddstr(0, 12, "bold");
    attroff(A_BOLD);
    mvwaddstr(win, 1, 2, "in a window");
    mvwaddch(win, 2, 4, 'r' | A_REVERSE);
    move(0, 3);
    mvprintw(2, 0, "at 0 3: %c %c", (int)mvinch(0, 3), (int)(mvwinch(win, 1, 2) & A_CHARTEXT));
    move(0, 12);
    bool is_bold = (inch() & A_BOLD) != 0;
    wmove(win, 2, 4);
    bool is_reverse = (winch(win) & A_ATTRIBUTES) == A_REVERSE;
    mvprintw(3, 0, "bold %d, reverse %d", is_bold, is_reverse);
    mvinnstr(0, 3, text, 7);
    mvprintw(4, 0, "[%s]", text);
    move(0, 5);
    innstr(text, 2);
    mvprintw(5, 0, "[%s]", text);
    mvinstr(0, 3, text);
    mvprintw(6, 0, "[%s] %d", text, (int)strlen(text));
    move(0, 70);
    instr(text);
    mvprintw(7, 0, "%d", (int)strlen(text));
    mvwinnstr(win, 1, 0, text, 8);
    mvprintw(8, 0, "[%s]", text);
    wmove(win, 1, 5);
    winnstr(win, text, 3);
    mvprintw(9, 0, "[%s] cursor %d", text, getcurx(win));
    mvwinstr(win, 1, 2, text);
    mvprintw(10, 0, "[%s]", text);
    wmove(win, 2, 0);
    winstr(win, text);
    mvprintw(11, 0, "[%s]", text);
    mvinchnstr(0, 10, row, 7);
    tell(12, "row", row);
    move(0, 12);
    inchnstr(row, 3);
    tell(13, "row", row);
    mvwinchnstr(win, 2, 2, row, 5);
    tell(14, "row", row);
    wmove(win, 2, 4);
    winchnstr(win, row, 1);
    tell(15, "row", row);
    mvinchstr(0, 74, row);
    tell(16, "row", row);
    move(0, 75);
    inchstr(row);
    tell(17, "row", row);
    mvwinchstr(win, 1, 8, row);
    tell(18, "row", row);
    wmove(win, 1, 10);
    winchstr(win, row);
    tell(19, "row", row);
    mvprintw(22, 0, "of none: %d %d", winnstr(NULL, text, 3), winchnstr(NULL, row, 3));
    look_over_screen(win);
    endwin();
    return 0;
}

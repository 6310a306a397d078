/* wbkgd on cells of several renditions, again and again. */
#include "shot.h"

static void write_cells(WINDOW *win) {
    wmove(win, 0, 0);
    waddstr(win, "plain ");
    waddch(win, 'b' | A_BOLD);
    waddch(win, 'c' | COLOR_PAIR(2));
    wattron(win, A_UNDERLINE);
    waddstr(win, " under");
    wattroff(win, A_UNDERLINE);
    mvwaddstr(win, 1, 0, "next\tline");
    wmove(win, 2, 3);
}

static void look(WINDOW *win, const char *what) {
    mvprintw(12, 0, "%s: %x %x %d %d    ", what, (unsigned)((getbkgd(win) & A_CHARTEXT)), (unsigned)PAIR_NUMBER(getbkgd(win)),
             (getattrs(win) & A_BOLD) != 0, (int)PAIR_NUMBER(getattrs(win)));
    wnoutrefresh(stdscr);
    look_over_screen(win);
}

int main(void) {
    initscr();
    start_color();
    init_pair(1, COLOR_YELLOW, COLOR_BLUE);
    init_pair(2, COLOR_WHITE, COLOR_RED);
    init_pair(3, COLOR_BLACK, COLOR_CYAN);
    WINDOW *win = newwin(5, 30, 2, 4), *part = derwin(win, 2, 10, 1, 1);
    write_cells(win);
    look(win, "none");
    wbkgd(win, COLOR_PAIR(1));
    look(win, "pair 1");
    write_cells(win);
    look(win, "written");
    wbkgd(win, COLOR_PAIR(3) | A_BOLD);
    look(win, "pair 3, bold");
    write_cells(win);
    look(win, "written");
    wbkgd(win, ' ' | A_REVERSE);
    look(win, "reverse");
    wbkgd(win, ' ');
    look(win, "none again");
    wbkgdset(win, COLOR_PAIR(2) | ' ');
    wclrtobot(win);
    look(win, "set and cleared");
    wattron(win, A_BOLD);
    wbkgd(win, COLOR_PAIR(1) | ' ');
    waddstr(win, "after");
    look(win, "with bold");
    wbkgd(part, COLOR_PAIR(3) | ' ');
    waddstr(part, "in a part");
    look(win, "of a part");
    bkgd(COLOR_PAIR(1) | ' ');
    mvaddstr(14, 2, "the screen");
    look(win, "of the screen");
    endwin();
    return 0;
}

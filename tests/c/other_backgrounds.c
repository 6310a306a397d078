/* wbkgd with other characters, on cells that are the former background wholly, or have its character alone. */
#include "shot.h"

#include <locale.h>

static void write_cells(WINDOW *win) {
    mvwaddstr(win, 1, 1, "a text");
    mvwaddch(win, 1, 10, ' ' | A_UNDERLINE);
    mvwaddch(win, 1, 12, ' ' | COLOR_PAIR(2));
    mvwaddch(win, 2, 3, '.');
    mvwaddch(win, 2, 5, '.' | A_REVERSE);
    mvwaddch(win, 2, 7, '.' | COLOR_PAIR(1));
}

int main(void) {
    static const chtype backgrounds[] = {'.', '.' | A_REVERSE, ' ', '~' | A_UNDERLINE, 0, '=', COLOR_PAIR(1) | ' ', COLOR_PAIR(1) | '.', A_REVERSE, ' '};
    setlocale(LC_ALL, "C");
    initscr();
    start_color();
    init_pair(1, COLOR_YELLOW, COLOR_BLUE);
    init_pair(2, COLOR_WHITE, COLOR_RED);
    WINDOW *win = newwin(4, 20, 2, 4), *kept = newwin(4, 20, 2, 40);
    write_cells(kept);
    for (int i = 0; i < 10; i++) {
        wbkgd(win, backgrounds[i]);
        mvprintw(10 + i, 0, "%d: %lx %d", i, (unsigned long)(getbkgd(win) & A_CHARTEXT), (int)PAIR_NUMBER(getbkgd(win)));
        wnoutrefresh(stdscr);
        look_over_screen(win);
        write_cells(win);
        wbkgd(kept, backgrounds[i]);
        look_over_screen(kept);
    }
    endwin();
    return 0;
}

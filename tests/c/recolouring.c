/* Pairs that get other colours while they are on the screen. */
#include "shot.h"

static void look(void) {
    refresh();
    shot();
}

int main(void) {
    initscr();
    start_color();
    init_pair(1, COLOR_RED, COLOR_WHITE);
    init_pair(2, COLOR_RED, COLOR_WHITE);
    init_pair(3, COLOR_GREEN, COLOR_BLACK);
    for (short pair = 0; pair < 4; pair++) {
        attrset(COLOR_PAIR(pair) | (pair == 3 ? A_BOLD | A_UNDERLINE : A_NORMAL));
        mvprintw(2 + pair, 4, "in pair %d, with blanks   ", pair);
    }
    attrset(A_NORMAL);
    WINDOW *win = newwin(4, 30, 10, 20);
    wbkgd(win, COLOR_PAIR(2) | ' ');
    mvwaddstr(win, 1, 2, "a window of pair 2");
    look_over_screen(win);
    init_pair(1, COLOR_YELLOW, COLOR_BLUE);
    look();
    init_pair(2, COLOR_CYAN, COLOR_MAGENTA);
    look();
    init_pair(3, COLOR_GREEN, COLOR_BLACK);
    mvaddstr(20, 0, "the same again");
    look();
    init_pair(3, COLOR_WHITE, COLOR_RED);
    init_pair(2, COLOR_WHITE, COLOR_RED);
    doupdate();
    shot();
    init_pair(2, COLOR_BLACK, COLOR_CYAN);
    mvwaddstr(win, 2, 2, "and another text");
    wrefresh(win);
    shot();
    short foreground, background;
    pair_content(2, &foreground, &background);
    mvprintw(21, 0, "pair 2: %d %d", foreground, background);
    init_pair(1, COLOR_BLACK, COLOR_GREEN);
    look();
    endwin();
    return 0;
}

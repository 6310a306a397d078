/* Pairs before start_color, and after it. */
#include "shot.h"

#undef start_color

static void write_pairs(int y) {
    for (short pair = 0; pair < 2; pair++) mvprintw(y, 20 * pair, "pair "), addch('0' | COLOR_PAIR(pair)), addch('r' | COLOR_PAIR(pair) | A_REVERSE);
}

/* Writes what the calls on pairs answer. */
static void tell(int y) {
    short foreground = 9, background = 9;
    int made = init_pair(1, COLOR_BLUE, COLOR_YELLOW), told = pair_content(1, &foreground, &background);
    mvprintw(y, 0, "made %d, told %d: %d %d; of none %d", made, told, foreground, background, init_pair(-1, 1, 1));
}

int main(void) {
    initscr();
    tell(0);
    write_pairs(1);
    refresh();
    shot();
    mvprintw(3, 0, "%d", use_default_colors());
    write_pairs(4);
    refresh();
    shot();
    mvprintw(6, 0, "%d", start_color());
    tell(7);
    write_pairs(8);
    touchwin(stdscr);
    clearok(stdscr, TRUE);
    refresh();
    shot();
    mvprintw(10, 0, "%d %d", start_color(), COLORS);
    write_pairs(11);
    refresh();
    shot();
    init_pair(1, COLOR_CYAN, COLOR_BLACK);
    write_pairs(12);
    refresh();
    shot();
    endwin();
    return 0;
}

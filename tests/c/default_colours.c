/* The colours of pair 0 and of what is erased: white on black from start_color on, or what the program asks for. */
#include "shot.h"

#undef start_color

/* No cell is blank: an erased one may have the terminal's own background. */
static void draw(int line) {
    short foreground = 9, background = 9;
    pair_content(0, &foreground, &background);
    for (int y = 0; y < LINES; y++)
        for (int x = 0; x < COLS; x++) mvaddch(y, x, '.');
    mvprintw(line, 0, "pair_0_is_%d_on_%d_", foreground, background);
    addch('b' | A_BOLD);
    addch('r' | A_REVERSE);
    addch('1' | COLOR_PAIR(1));
    addch('2' | COLOR_PAIR(2));
    addch('u' | A_UNDERLINE);
    refresh();
    shot();
}

int main(void) {
    initscr();
    int answers[] = {start_color(), init_pair(1, COLOR_YELLOW, COLOR_BLUE), init_pair(2, COLOR_RED, COLOR_BLACK),
                     init_pair(2, COLOR_RED, -1)};
    draw(0);
    for (size_t i = 0; i < sizeof answers / sizeof answers[0]; i++) mvprintw(20, 5 * (int)i, "(%d)", answers[i]);
    refresh();
    shot();
    int first = assume_default_colors(COLOR_GREEN, COLOR_BLUE), second = init_pair(2, COLOR_RED, -1);
    clear();
    draw(1);
    mvprintw(20, 0, "(%d)(%d)", first, second);
    refresh();
    shot();
    first = use_default_colors();
    second = init_pair(2, COLOR_RED, -1);
    clear();
    draw(2);
    mvprintw(20, 0, "(%d)(%d)", first, second);
    refresh();
    shot();
    endwin();
    return 0;
}

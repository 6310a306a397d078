/* Colour pairs. */
#include "shot.h"

int main(void) {
    short foreground = -1, background = -1, pair = -1;
    attr_t attrs = 0;
    initscr();
    start_color();
    mvprintw(0, 0, "colours: %d %d, %d %d", has_colors(), can_change_color(), COLORS, COLOR_PAIRS);
    for (short n = 1; n < 64; n++) init_pair(n, n % 8, n / 8);
    for (short n = 1; n < 64; n++) {
        attron(COLOR_PAIR(n));
        mvprintw(2 + n / 8, n % 8 * 8, "pair %d", n);
        attroff(COLOR_PAIR(n));
    }
    mvaddstr(11, 0, "none");
    refresh();
    shot();
    init_pair(9, COLOR_GREEN, COLOR_BLACK);
    init_pair(10, COLOR_CYAN, COLOR_MAGENTA);
    touchwin(stdscr);
    refresh();
    shot();
    pair_content(9, &foreground, &background);
    mvprintw(12, 0, "pair 9: %d %d", foreground, background);
    mvprintw(13, 0, "refused: %d %d", init_pair(1, 8, 0), init_pair(-1, 0, 0));
    color_set(20, NULL);
    mvaddstr(14, 0, "by color_set");
    wcolor_set(stdscr, 0, NULL);
    attr_set(A_BOLD, 30, NULL);
    mvaddstr(15, 0, "by attr_set");
    attr_get(&attrs, &pair, NULL);
    attr_set(A_NORMAL, 0, NULL);
    mvprintw(16, 0, "they were: %d %d", (attrs & A_BOLD) != 0, pair);
    mvprintw(16, 30, "of the character %d", (int)PAIR_NUMBER(mvinch(15, 0) & A_COLOR));
    mvaddch(17, 0, 'x' | COLOR_PAIR(40) | A_UNDERLINE);
    addch('y');
    mvprintw(18, 0, "number: %d", (int)PAIR_NUMBER(COLOR_PAIR(33)));
    mvaddstr(20, 0, "changed where it stands");
    mvchgat(20, 3, 9, A_REVERSE, 3, NULL);
    mvaddstr(21, 0, "to the end of the line");
    move(21, 5);
    chgat(-1, A_UNDERLINE, 0, NULL);
    WINDOW *win = newwin(2, 30, 22, 40);
    waddstr(win, "and in a window");
    mvwchgat(win, 0, 4, 2, A_UNDERLINE, 5, NULL);
    wmove(win, 0, 7);
    wchgat(win, 1, A_BLINK, 0, NULL);
    look_over_screen(win);
    endwin();
    return 0;
}

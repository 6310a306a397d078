/* Calls about the mouse, where there is none. */
#include <ncurses.h>

#include "shot.h"

static const mmask_t events[] = {
    BUTTON1_RELEASED, BUTTON1_PRESSED, BUTTON1_CLICKED, BUTTON1_DOUBLE_CLICKED, BUTTON1_TRIPLE_CLICKED,
    BUTTON2_RELEASED, BUTTON2_PRESSED, BUTTON2_CLICKED, BUTTON2_DOUBLE_CLICKED, BUTTON2_TRIPLE_CLICKED,
    BUTTON3_RELEASED, BUTTON3_PRESSED, BUTTON3_CLICKED, BUTTON3_DOUBLE_CLICKED, BUTTON3_TRIPLE_CLICKED,
    BUTTON4_RELEASED, BUTTON4_PRESSED, BUTTON4_CLICKED, BUTTON4_DOUBLE_CLICKED, BUTTON4_TRIPLE_CLICKED,
    BUTTON5_RELEASED, BUTTON5_PRESSED, BUTTON5_CLICKED, BUTTON5_DOUBLE_CLICKED, BUTTON5_TRIPLE_CLICKED,
    BUTTON_CTRL, BUTTON_SHIFT, BUTTON_ALT, REPORT_MOUSE_POSITION, NCURSES_MOUSE_MASK(1, 1),
};

int main(void) {
    MEVENT event = {0, 0, 0, 0, 0};
    mmask_t all = 0, before = 9;
    int y = 4, x = 6;
    initscr();
    WINDOW *win = newwin(5, 20, 2, 4);
    for (size_t i = 0; i < sizeof events / sizeof events[0]; i++) all |= events[i];
    mvprintw(10, 0, "all %d, has %d, mask %d", (all & ~REPORT_MOUSE_POSITION) == ALL_MOUSE_EVENTS, has_mouse(), (int)mousemask(all, &before));
    printw(", before %d", (int)before);
    mouseinterval(100);
    printw(", get %d", getmouse(&event));
    printw(", encloses %d %d %d", wenclose(win, 2, 4), wenclose(win, 6, 23), wenclose(win, 7, 23));
    mvprintw(11, 0, "moved %d", wmouse_trafo(win, &y, &x, FALSE));
    printw(" to %d %d", y, x);
    printw(", back %d", wmouse_trafo(win, &y, &x, TRUE));
    printw(" to %d %d", y, x);
    y = 30;
    printw(", outside %d", wmouse_trafo(win, &y, &x, FALSE));
    y = x = 5;
    printw(", of the screen %d", mouse_trafo(&y, &x, TRUE));
    if (has_mouse()) ungetmouse(&event);
    refresh();
    shot();
    endwin();
    return 0;
}

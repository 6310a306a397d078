/* Texts that come to the last place of a window below its scroll region, by all the ways of writing. */
#include "shot.h"

static void look_below(WINDOW *win, int y, const char *what, int answer) {
    mvprintw(y, 40, "%s %d: %d %d", what, answer, getcury(win), getcurx(win));
    wmove(win, getcury(win), getcurx(win));
    wnoutrefresh(stdscr);
    look_over_screen(win);
}

int main(void) {
    initscr();
    for (int scrolls = 0; scrolls < 2; scrolls++) {
        WINDOW *win = newwin(6, 20, 2 + 10 * scrolls, 4);
        fill(win, 'a');
        scrollok(win, scrolls);
        wsetscrreg(win, 1, 3);
        int y = 2 + 10 * scrolls;
        wmove(win, 5, 15);
        look_below(win, y, "text", waddstr(win, "0123456789"));
        wmove(win, 5, 18);
        look_below(win, y + 1, "character", waddch(win, 'x') + waddch(win, 'y'));
        wmove(win, 5, 19);
        look_below(win, y + 2, "bold", waddch(win, 'B' | A_BOLD));
        wmove(win, 5, 16);
        look_below(win, y + 3, "tab", waddstr(win, "\tafter"));
        wmove(win, 5, 10);
        look_below(win, y + 4, "long", waddstr(win, "a text that goes around and around the last line"));
        wmove(win, 5, 10);
        look_below(win, y + 5, "newline", waddstr(win, "a\nb"));
        wmove(win, 4, 15);
        look_below(win, y + 6, "above", waddstr(win, "from the line above"));
        wmove(win, 3, 15);
        look_below(win, y + 7, "region", waddstr(win, "from the region's last line"));
    }
    endwin();
    return 0;
}

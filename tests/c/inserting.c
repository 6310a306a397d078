/* Texts inserted: of each length, with what moves the cursor, over backgrounds and in attributes. */
#include "shot.h"

static WINDOW *win;
static int line;

/* Goes to a line of letters, and says where. */
static void next(int x) {
    mvwaddstr(win, line, 0, "abcdefghijklmnopqrstuvwxy");
    wmove(win, line++, x);
}

static void tell(int answer) { wprintw(stdscr, "%d at %d %d, ", answer, getcury(win), getcurx(win)); }

int main(void) {
    initscr();
    win = newwin(20, 26, 3, 30);
    next(3);
    tell(winsnstr(win, "all of it", 0));
    next(3);
    tell(winsnstr(win, "all of it", -1));
    next(3);
    tell(winsnstr(win, "all of it", -7));
    next(3);
    tell(winsnstr(win, "all of it", 3));
    next(3);
    tell(winsnstr(win, "all of it", 100));
    next(3);
    tell(winsnstr(win, "", 0));
    next(20);
    tell(winsstr(win, "more than what fits"));
    next(6);
    tell(winsstr(win, "a\tb\001c"));
    next(6);
    tell(winsstr(win, "ends\nnew"));
    next(6);
    tell(winsstr(win, "back\b\bover"));
    next(6);
    tell(winsstr(win, "return\rfirst"));
    next(6);
    tell(winsch(win, '\n'));
    next(6);
    tell(winsch(win, '\r'));
    next(6);
    tell(winsch(win, '\b'));
    wattron(win, A_BOLD);
    next(6);
    tell(winsch(win, ' '));
    tell(winsch(win, 'U' | A_UNDERLINE));
    wbkgdset(win, '.' | A_REVERSE);
    next(6);
    tell(winsstr(win, "x y"));
    tell(winsch(win, '\t'));
    next(6);
    tell(winsch(win, ' ' | A_UNDERLINE));
    line = 19;
    next(6);
    tell(winsstr(win, "the last\nline"));
    wmove(win, 0, 0);
    look_over_screen(win);
    scrollok(win, TRUE);
    wmove(win, 19, 8);
    tell(winsstr(win, "scrolls\nnow"));
    look_over_screen(win);
    mvprintw(0, 0, "%d %d", mvinsnstr(1, 0, "screen", 0), mvwinsnstr(win, 40, 0, "x", 0));
    refresh();
    shot();
    endwin();
    return 0;
}

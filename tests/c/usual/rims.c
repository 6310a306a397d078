/* What is written at the ends of windows, and where the cursor is then. */
#include "../shot.h"

static WINDOW *win;

/* Tells an answer and where the cursor is beside the window, and shows both. */
static void tell(const char *what, int answer) {
    static int line;
    int y, x;
    getyx(win, y, x);
    mvprintw(line, 30, "%-24s %2d at %d %2d", what, answer, y, x);
    line = (line + 1) % 24;
    wnoutrefresh(stdscr);
    wnoutrefresh(win);
    doupdate();
    shot();
}

int main(void) {
    static const chtype row[] = {'a', 'b' | A_BOLD, 'c', 'd', 'e', 'f', 'g', 'h', 0};
    initscr();
    win = newwin(5, 16, 3, 4);
    tell("a text of 16", mvwaddstr(win, 0, 0, "0123456789abcdef"));
    tell("one of 20", mvwaddstr(win, 1, 0, "0123456789abcdefghij"));
    tell("one that fills it", mvwaddstr(win, 4, 0, "0123456789ABCDEF"));
    tell("one more", waddch(win, 'Z'));
    tell("a newline there", waddch(win, '\n'));
    tell("clrtoeol", wclrtoeol(win));
    tell("one past the end", mvwaddstr(win, 4, 10, "0123456789"));
    tell("a move outside", wmove(win, 5, 0));
    tell("insstr at the end", mvwinsstr(win, 4, 12, "inserted"));
    tell("insch at the end", mvwinsch(win, 4, 15, '$'));
    tell("addchnstr", (wmove(win, 2, 10), waddchstr(win, row)));
    tell("a tab near the end", mvwaddstr(win, 3, 9, "\tT"));
    scrollok(win, TRUE);
    tell("one that scrolls", mvwaddstr(win, 4, 10, "scrolls here"));
    tell("a newline that scrolls", waddch(win, '\n'));
    wsetscrreg(win, 1, 3);
    tell("in the region's end", mvwaddstr(win, 3, 12, "region"));
    tell("below the region", mvwaddstr(win, 4, 12, "below it"));
    scrollok(win, FALSE);
    tell("a region that stays", mvwaddstr(win, 3, 12, "remains"));
    tell("hline over the end", mvwhline(win, 2, 12, '-', 20));
    tell("delch at the end", mvwdelch(win, 4, 15));
    tell("backspace at column 0", (wmove(win, 2, 0), waddch(win, '\b')));
    endwin();
    return 0;
}

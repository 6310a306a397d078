/* Lines that are typed, edited and scanned: echoed and not, in windows that scroll and that don't, and longer than they may be. */
#include "shot.h"

static int scan(WINDOW *win, bool old, const char *format, ...) {
    va_list arguments;
    va_start(arguments, format);
    int answer = old ? vwscanw(win, format, arguments) : vw_scanw(win, format, arguments);
    va_end(arguments);
    return answer;
}

static char text[3000];

/* Shows a line and the answer, and lets the screen be looked at. */
static void tell(int answer) {
    int y = getcury(stdscr), x = getcurx(stdscr);
    mvprintw(23, 0, "%d \"%.60s\" %d", answer, text, (int)strlen(text));
    clrtoeol();
    move(y, x);
    refresh();
    shot();
    memset(text, 0, sizeof text);
}

static void read_forms(WINDOW *win) {
    addstr("name: ");
    tell(getstr(text));
    tell(getnstr(text, 5));
    tell(mvgetstr(5, 10, text));
    tell(mvgetnstr(6, 70, text, 20));
    tell(wgetstr(win, text));
    tell(wgetnstr(win, text, 30));
    tell(mvwgetstr(win, 1, 3, text));
    tell(mvwgetnstr(win, 2, 0, text, 0));
    noecho();
    tell(mvgetnstr(8, 0, text, -1));
    echo();
}

static void scan_forms(WINDOW *win) {
    int a = 0, b = 0;
    move(10, 0);
    tell(scanw("%d %d", &a, &b));
    mvprintw(11, 0, "%d", a + b);
    tell(mvscanw(12, 3, "%s", text));
    tell(wscanw(win, "%d-%s", &a, text));
    tell(mvwscanw(win, 0, 0, "x%[^,],", text));
    tell(scan(win, true, "%s", text));
    tell(scan(win, false, "%*s %s", text));
    mvprintw(14, 0, "%d", a);
}

int main(void) {
    initscr();
    WINDOW *small = newwin(3, 12, 15, 4), *scrolling = newwin(3, 12, 15, 30);
    scrollok(scrolling, TRUE);
    tell(0);
    read_forms(scrolling);
    scan_forms(scrolling);
    keypad(small, TRUE);
    tell(mvwgetnstr(small, 1, 2, text, 60));
    tell(wgetstr(small, text));
    endwin();
    return 0;
}

/* Where a window ends: characters and texts that don't fit, newlines and tabs there, and what goes on after them. */
#include "shot.h"

static int answers[40], count;

static void note(int answer) { answers[count++] = answer; }

/* Shows a window, where its cursor is, and what was answered since. */
static void tell(WINDOW *win, int y) {
    mvprintw(y, 0, "%d %d:", getcury(win), getcurx(win));
    for (int i = 0; i < count; i++) printw(" %d", answers[i]);
    count = 0;
    look_over_screen(win);
}

static WINDOW *made(int lines, int columns, int y, bool scrolls) {
    WINDOW *win = newwin(lines, columns, y, 40);
    scrollok(win, scrolls);
    return win;
}

static void write_past_end(bool scrolls) {
    WINDOW *win = made(3, 12, 1, scrolls);
    note(waddstr(win, "this text is much longer than the window"));
    note(waddstr(win, "xy"));
    note(waddch(win, 'z'));
    tell(win, 14);
    note(waddch(win, '\n'));
    note(waddstr(win, "\nafter"));
    tell(win, 15);
    note(mvwaddstr(win, 2, 6, "sixsix"));
    if (!scrolls) note(wclrtoeol(win));
    note(wprintw(win, "%d", 12345));
    tell(win, 16);
    note(mvwaddstr(win, 2, 3, "it ends\nhere"));
    note(mvwaddnstr(win, 1, 10, "one more line, or two", 14));
    note(mvwaddnstr(win, 1, 10, "one more line, or two", 13));
    tell(win, 17);
    wmove(win, 0, 0);
    for (int i = 0; i < 40; i++) {
        int answer = waddch(win, (chtype)('a' + i % 26));
        if (i > 32) note(answer);
    }
    tell(win, 18);
    note(mvwaddch(win, 2, 11, 'E' | A_BOLD));
    note(waddch(win, '\r'));
    note(waddch(win, '>' | A_REVERSE));
    note(mvwaddch(win, 2, 11, 'B'));
    note(waddch(win, '\b'));
    note(waddch(win, '<'));
    tell(win, 19);
    delwin(win);
}

static void write_tabs(bool scrolls) {
    WINDOW *win = made(4, 19, 6, scrolls);
    for (int y = 0; y < 4; y++) mvwaddstr(win, y, 0, "..................");
    note(mvwaddstr(win, 0, 3, "\ta"));
    note(waddstr(win, "\tbcdefg\th"));
    note(mvwaddstr(win, 2, 17, "\ti"));
    note(waddch(win, '\t' | A_UNDERLINE));
    note(waddch(win, 'j'));
    tell(win, 20);
    note(mvwaddstr(win, 3, 10, "k\tl"));
    tell(win, 21);
    note(mvwaddstr(win, 3, 0, "\t\t\t\tm"));
    wbkgdset(win, '~' | A_BOLD);
    note(mvwaddstr(win, 1, 4, "\tn\t\to"));
    note(mvwaddstr(win, 3, 12, "control \001\002"));
    note(mvwaddch(win, 3, 18, ' ' | A_UNDERLINE));
    tell(win, 22);
    delwin(win);
}

static void write_in_region(bool scrolls) {
    WINDOW *win = made(5, 10, 11, scrolls);
    for (int y = 0; y < 5; y++) mvwprintw(win, y, 0, "line %d", y);
    note(wsetscrreg(win, 1, 2));
    note(mvwaddstr(win, 1, 0, "these go past its end"));
    tell(win, 14);
    note(mvwaddstr(win, 2, 4, "\nnew\n"));
    note(mvwaddstr(win, 3, 4, "below\n"));
    note(waddstr(win, "last"));
    tell(win, 15);
    delwin(win);
}

int main(void) {
    initscr();
    for (int scrolls = 0; scrolls < 2; scrolls++) {
        erase();
        mvprintw(0, 0, "scrolls: %d", scrolls);
        write_past_end(scrolls);
        write_tabs(scrolls);
        erase();
        write_in_region(scrolls);
    }
    mvaddstr(22, 70, "the last line of the screen");
    mvprintw(20, 0, "%d", mvaddstr(23, 70, "0123456789and more"));
    refresh();
    shot();
    endwin();
    return 0;
}

/* Characters written one by one, in windows that share cells by turns and over one another, and what is read meanwhile. */
#include "shot.h"

/* Writes so many letters, each with the attributes of its turn. */
static void write_letters(WINDOW *win, int count) {
    static const attr_t turns[] = {A_NORMAL, A_BOLD, A_BOLD, A_REVERSE};
    for (int i = 0; i < count; i++) waddch(win, (chtype)('a' + i % 26) | turns[i / 3 % 4]);
}

static void tell_cursor(int y, WINDOW *win) { mvprintw(y, 50, "%d %d", getcury(win), getcurx(win)); }

int main(void) {
    initscr();
    WINDOW *win = newwin(6, 30, 2, 4), *part = derwin(win, 3, 12, 1, 3), *other = newwin(3, 9, 12, 40);
    for (int i = 0; i < 40; i++) {
        mvwaddch(win, i % 3, i % 29, 'a');
        waddch(win, 'b');
        mvwaddch(part, i % 2, i % 9, 'A');
        waddch(part, 'B');
        wmove(other, 0, 0);
        wmove(win, i % 5, 2);
    }
    waddch(win, 'c');
    mvprintw(0, 50, "read %c %c", (char)(mvwinch(win, 1, 3) & A_CHARTEXT), (char)(mvwinch(part, 0, 0) & A_CHARTEXT));
    for (int x = 4; x < 20; x++) mvwaddch(win, 5, x, (chtype)('0' + x % 10));
    tell_cursor(1, win);
    wmove(win, 4, 29);
    waddch(win, 'e');
    mvwaddch(win, 5, 0, 'n');
    wmove(win, 3, 5);
    tell_cursor(2, win);
    wnoutrefresh(stdscr);
    look_at(win);
    scrollok(other, TRUE);
    write_letters(other, 100);
    tell_cursor(3, other);
    wnoutrefresh(stdscr);
    look_at(other);
    WINDOW *pad = newpad(50, 60);
    write_letters(pad, 2400);
    tell_cursor(4, pad);
    wmove(pad, 45, 0);
    write_letters(pad, 130);
    WINDOW *gone = newwin(2, 5, 20, 60);
    write_letters(gone, 3);
    delwin(gone);
    WINDOW *again = newwin(2, 5, 20, 60);
    mvwaddch(again, 1, 1, '+');
    wnoutrefresh(stdscr);
    wnoutrefresh(again);
    prefresh(pad, 20, 0, 10, 0, 23, 30);
    shot();
    prefresh(pad, 36, 0, 10, 0, 23, 30);
    shot();
    endwin();
    return 0;
}

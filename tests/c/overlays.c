/* Copies onto backgrounds with colours and attributes, of pads, and of windows that have nothing of the screen in common. */
#include "shot.h"

static WINDOW *painted(int y, int x, chtype background) {
    WINDOW *win = newwin(6, 30, y, x);
    wbkgdset(win, background);
    werase(win);
    mvwaddstr(win, 2, 1, "what was there before");
    return win;
}

/* Fills a window with words in several attributes and pairs. */
static void write_words(WINDOW *win) {
    static const chtype attrs[] = {A_NORMAL, A_BOLD, A_REVERSE, A_UNDERLINE};
    for (int y = 0; y < getmaxy(win); y++) {
        wattrset(win, (int)(attrs[y % 4] | COLOR_PAIR(y % 3 ? 0 : 3)));
        mvwaddstr(win, y, 0, "some words, and more");
    }
    wattrset(win, A_NORMAL);
}

static void copy_to(chtype background) {
    WINDOW *words = newwin(6, 25, 5, 12), *under = painted(3, 4, background), *over = painted(11, 30, background);
    write_words(words);
    mvprintw(20, 0, "overlay %d", overlay(words, under));
    printw(", copywin %d", copywin(words, over, 0, 2, 1, 3, 4, 20, TRUE));
    wnoutrefresh(stdscr);
    wnoutrefresh(under);
    wnoutrefresh(over);
    doupdate();
    shot();
    mvprintw(21, 0, "overwrite %d", overwrite(words, under));
    printw(", copywin %d", copywin(words, over, 1, 0, 0, 10, 3, 29, FALSE));
    wnoutrefresh(stdscr);
    wnoutrefresh(under);
    wnoutrefresh(over);
    doupdate();
    shot();
    delwin(words);
    delwin(under);
    delwin(over);
}

static void copy_pads(void) {
    WINDOW *pad = newpad(12, 40), *win = painted(2, 5, COLOR_PAIR(2) | ' ');
    erase();
    write_words(pad);
    mvprintw(20, 0, "at the first place: %d %d", overwrite(pad, win), overlay(win, pad));
    look_over_screen(win);
    prefresh(pad, 2, 3, 8, 30, 12, 50);
    shot();
    WINDOW *low = painted(7, 28, COLOR_PAIR(1) | A_BOLD | ' ');
    mvprintw(21, 0, "where it is shown: %d %d", overwrite(pad, low), overlay(pad, win));
    look_over_screen(low);
    WINDOW *part = subpad(pad, 3, 10, 1, 1);
    wattron(part, A_REVERSE);
    mvwaddstr(part, 0, 0, "part");
    mvprintw(22, 0, "a part: %d %d", overwrite(part, low), overwrite(low, part));
    look_over_screen(low);
    prefresh(pad, 0, 0, 8, 0, 18, 38);
    shot();
}

int main(void) {
    initscr();
    start_color();
    init_pair(1, COLOR_YELLOW, COLOR_BLUE);
    init_pair(2, COLOR_WHITE, COLOR_RED);
    init_pair(3, COLOR_GREEN, COLOR_BLACK);
    copy_to(' ');
    copy_to(COLOR_PAIR(1) | ' ');
    copy_to(COLOR_PAIR(2) | A_BOLD | '.');
    copy_to(A_UNDERLINE | ' ');
    copy_pads();
    WINDOW *left = newwin(3, 10, 1, 1), *right = newwin(3, 10, 4, 11);
    erase();
    mvprintw(10, 0, "nothing in common: %d %d", overlay(left, right), overwrite(left, right));
    printw(", of none: %d %d", overwrite(NULL, left), copywin(left, NULL, 0, 0, 0, 0, 1, 1, TRUE));
    printw(", outside: %d", copywin(left, right, 0, 0, 0, 0, 3, 1, TRUE));
    refresh();
    shot();
    endwin();
    return 0;
}

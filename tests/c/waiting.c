/* How long getch waits, what it shows and echoes, and what was put back for it. */
#include "shot.h"

/* Shows some keys, and lets the screen be looked at. */
static void tell(int count) {
    int keys[20];
    for (int i = 0; i < count; i++) keys[i] = getch();
    move(getcury(stdscr) + 1, 0);
    for (int i = 0; i < count; i++) printw("%d ", keys[i]);
    addch('\n');
    refresh();
    shot();
}

/* Where nothing is typed. */
static void wait_in_vain(void) {
    WINDOW *none = NULL;
    nodelay(stdscr, TRUE);
    printw("%d %d %d;", getch(), is_nodelay(stdscr), wgetdelay(stdscr));
    nodelay(stdscr, FALSE);
    timeout(20);
    printw("%d %d %d;", getch(), is_nodelay(stdscr), wgetdelay(stdscr));
    wtimeout(stdscr, -1);
    printw("%d;", wgetdelay(stdscr));
    halfdelay(1);
    printw("%d;", getch());
    cbreak();
    printw("%d %d %d\n", wgetch(none), keypad(none, TRUE), is_keypad(none));
    refresh();
    shot();
}

/* Keys that are put back come first, the last one of all, and are not echoed. */
static void put_back(void) {
    ungetch('x');
    flushinp();
    nodelay(stdscr, TRUE);
    printw("%d ", getch());
    nodelay(stdscr, FALSE);
    ungetch('a');
    ungetch(KEY_UP);
    ungetch('b');
    addstr("shown by getch");
    tell(3);
}

/* A window beside another is shown by its own getch, and its cursor is the terminal's. */
static void read_in_window(void) {
    WINDOW *win = newwin(4, 20, 18, 50), *pad = newpad(3, 3);
    box(win, '|', '-');
    int first = mvwgetch(win, 1, 1), second = mvgetch(20, 3), third = wgetch(pad);
    mvwprintw(win, 2, 1, "%d %d %d", first, second, third);
    wrefresh(win);
    shot();
    delwin(pad);
    delwin(win);
    touchwin(stdscr);
    move(10, 0);
}

/* So is one that isn't wholly on the screen. */
static void read_off_screen(void) {
    WINDOW *low = newwin(4, 20, 22, 30);
    waddstr(low, "it reads ");
    int first = wgetch(low), second = mvwgetch(low, 1, 3);
    wprintw(low, " %d %d", first, second);
    wrefresh(low);
    shot();
    delwin(low);
    touchwin(stdscr);
    move(10, 0);
}

/* A line is edited, and its keys come when it ends. */
static void read_line(void) {
    nocbreak();
    tell(6);
    cbreak();
}

int main(void) {
    initscr();
    wait_in_vain();
    put_back();
    tell(5);
    nonl();
    tell(2);
    nl();
    noecho();
    tell(4);
    meta(stdscr, FALSE);
    tell(2);
    meta(stdscr, TRUE);
    tell(2);
    echo();
    read_in_window();
    read_off_screen();
    read_line();
    halfdelay(200);
    tell(2);
    keypad(stdscr, TRUE);
    tell(4);
    endwin();
    return 0;
}

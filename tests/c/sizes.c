/* The terminal's size changes where nobody calls getch: the next refresh takes it, and where the program catches the
   signal itself, the first refresh after endwin. */
#include "shot.h"

#include <signal.h>
#include <sys/ioctl.h>

/* Waits until the terminal has another size than the screen, and the signal of it has come. Where there is no terminal
   nobody changes it. */
static void wait_for_size(void) {
    struct winsize size;
    while (ioctl(0, TIOCGWINSZ, &size) == 0 && size.ws_row == LINES && size.ws_col == COLS) usleep(1000);
    usleep(50000);
}

/* Tells which size the screen has, and which keys come by it. */
static void tell(const char *when) {
    int first = getch(), second = getch();
    mvprintw(1, 0, "%s: %d by %d, ", when, LINES, COLS);
    printw("stdscr %d by %d, keys %d %d", getmaxy(stdscr), getmaxx(stdscr), first, second);
    mvaddstr(LINES - 1, COLS - 12, "in a corner");
    refresh();
    shot();
}

static void note(int number) { (void)number; }

int main(void) {
    initscr();
    noecho();
    nodelay(stdscr, TRUE);
    WINDOW *win = newwin(4, 30, 10, 20);
    box(win, '|', '-');
    mvaddstr(0, 0, "the first line");
    wnoutrefresh(stdscr);
    wnoutrefresh(win);
    doupdate();
    tell("at first");
    wait_for_size();
    mvaddstr(3, 0, "written before");
    refresh();
    tell("refreshed");
    signal(SIGWINCH, note);
    wait_for_size();
    endwin();
    refresh();
    tell("back");
    endwin();
    refresh();
    tell("back again");
    delwin(win);
    endwin();
    return 0;
}

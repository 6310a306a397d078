/* What is asked about windows, the screen and the terminal. */
#include "shot.h"

/* Counts the cells of a window. */
static int count_cells(WINDOW *win, void *argument) {
    int *calls = argument;
    ++*calls;
    return getmaxy(win) * getmaxx(win);
}

static int is_the_screen(SCREEN *screen, void *argument) { return screen == argument; }

/* Writes all that a window is asked. */
static void tell(int y, const char *name, WINDOW *win) {
    int top = -1, bottom = -1, answer = wgetscrreg(win, &top, &bottom);
    mvprintw(y, 0, "%s: clear %d, idc %d, idl %d, leave %d, pad %d, scroll %d, sub %d", name, is_cleared(win), is_idcok(win), is_idlok(win),
             is_leaveok(win), is_pad(win), is_scrollok(win), is_subwin(win));
    printw(", region %d: %d %d, bold %d", answer, top, bottom, (getattrs(win) & A_BOLD) != 0);
}

int main(void) {
    int calls = 0;
    NCURSES_WINDOW_CB by_window = count_cells;
    NCURSES_SCREEN_CB by_screen = is_the_screen;
    use_env(TRUE);
    SCREEN *screen = newterm(getenv("TERM"), stdout, stdin);
    WINDOW *win = newwin(5, 20, 2, 4), *part = derwin(win, 2, 3, 1, 1), *pad = newpad(3, 30);
    tell(0, "first", win);
    clearok(win, TRUE);
    idcok(win, FALSE);
    idlok(part, FALSE);
    scrollok(win, TRUE);
    wsetscrreg(win, 1, 3);
    wattron(win, A_BOLD);
    tell(1, "changed", win);
    leaveok(part, TRUE);
    wclear(part);
    tell(2, "derived", part);
    wnoutrefresh(part);
    tell(3, "taken", part);
    tell(4, "pad", pad);
    mvprintw(5, 0, "parents: %d %d %d", wgetparent(part) == win, wgetparent(win) == NULL, wgetparent(stdscr) == NULL);
    printw(", %d %d", use_window(win, by_window, &calls), calls);
    printw(", %d %d", use_screen(screen, by_screen, screen), set_term(screen) == screen);
    mvprintw(6, 0, "answers: %d %d %d", has_ic() || TRUE, has_il() || TRUE, (termattrs() & A_REVERSE) != 0);
    printw(" %d %d", strlen(curses_version()) > 7, curses_version()[0] != 0);
    WINDOW *low = newwin(4, 10, 22, 70), *lower = derwin(low, 2, 4, 1, 1), *above = newwin(3, 9, 20, 2);
    new_panel(above);
    wclear(win);
    wresize(win, 4, 18);
    tell(7, "resized", win);
    wclear(above);
    update_panels();
    tell(8, "in a panel", above);
    wclear(low);
    wnoutrefresh(low);
    tell(9, "lies over the edge", low);
    delwin(lower);
    mvprintw(10, 0, "touched %d", is_wintouched(low));
    refresh();
    shot();
    endwin();
    delscreen(screen);
    return 0;
}

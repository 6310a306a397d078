/* The screen's size and that of windows change: what is kept of windows, derived ones, pads, panels and what is touched. */
#include "shot.h"

static int line;

/* Writes where a window is, and how large. */
static void tell(const char *name, WINDOW *win) {
    int top, bottom;
    wgetscrreg(win, &top, &bottom);
    mvprintw(line++, 0, "%s %dx%d, cursor %d %d, region %d %d, touched %d", name, getmaxy(win), getmaxx(win), getcury(win), getcurx(win), top,
             bottom, is_wintouched(win));
}

/* Shows the standard screen, and windows over it. */
static void show(WINDOW *first, WINDOW *second) {
    touchwin(stdscr);
    wnoutrefresh(stdscr);
    touchwin(first);
    wnoutrefresh(first);
    touchwin(second);
    wnoutrefresh(second);
    doupdate();
    shot();
}

/* The screen becomes smaller and larger. */
static void resize_screen(void) {
    WINDOW *full = newwin(0, 0, 0, 0), *middle = newwin(6, 30, 4, 10), *wide = newwin(3, 0, 10, 0), *tall = newwin(0, 9, 0, 40);
    WINDOW *same = derwin(full, 24, 80, 0, 0), *part = derwin(middle, 4, 20, 1, 2), *below = derwin(part, 2, 5, 1, 1);
    WINDOW *pad = newpad(30, 90), *piece = subpad(pad, 5, 20, 3, 3);
    fill(full, 'A');
    wattron(middle, A_BOLD | COLOR_PAIR(1));
    fill(middle, 'a');
    wbkgdset(wide, '.' | A_UNDERLINE | COLOR_PAIR(2));
    werase(wide);
    mvwaddstr(wide, 1, 2, "wide");
    fill(tall, 'K');
    fill(pad, '0');
    mvwaddstr(piece, 1, 1, "piece");
    scrollok(tall, TRUE);
    wsetscrreg(tall, 3, 20);
    wmove(full, 23, 79);
    wmove(below, 1, 4);
    untouchwin(part);
    untouchwin(middle);
    wtouchln(middle, 2, 1, TRUE);
    erase();
    printw("%d %d %d %d", is_term_resized(24, 80), is_term_resized(20, 70), is_term_resized(0, 1), is_term_resized(24, 81));
    printw(", %d %d %d", resize_term(20, 70), LINES, COLS);
    printw(", %d %d", is_term_resized(20, 70), resize_term(0, 70));
    line = 1;
    tell("full", full);
    tell("middle", middle);
    tell("wide", wide);
    tell("tall", tall);
    tell("same", same);
    tell("part", part);
    tell("below", below);
    tell("pad", pad);
    tell("piece", piece);
    mvprintw(line, 0, "touched: %d %d %d %d", is_linetouched(middle, 1), is_linetouched(middle, 2), is_linetouched(full, 0), is_linetouched(tall, 5));
    refresh();
    shot();
    show(full, tall);
    show(wide, middle);
    pnoutrefresh(pad, 2, 2, 12, 20, 18, 60);
    look_at(middle);
    resize_term(24, 80);
    erase();
    line = 12;
    tell("full", full);
    tell("middle", middle);
    tell("wide", wide);
    tell("tall", tall);
    tell("same", same);
    tell("part", part);
    tell("below", below);
    refresh();
    shot();
    show(full, wide);
    mvwaddstr(below, 0, 1, "min");
    wscrl(tall, 1);
    show(tall, middle);
    WINDOW *all[] = {below, part, middle, same, full, wide, tall, piece, pad};
    for (size_t i = 0; i < sizeof all / sizeof all[0]; i++) delwin(all[i]);
}

/* Windows become smaller and larger. */
static void resize_windows(void) {
    WINDOW *win = newwin(8, 30, 2, 4), *part = derwin(win, 4, 10, 2, 15), *pad = newpad(4, 40);
    fill(win, 'a');
    fill(pad, 'A');
    wbkgdset(win, '-');
    wmove(win, 7, 29);
    erase();
    printw("%d %d", wresize(win, 10, 35), wresize(pad, 6, 50));
    line = 12;
    tell("larger", win);
    tell("part", part);
    tell("pad", pad);
    show(win, part);
    printw(" %d %d %d", wresize(win, 5, 20), wresize(win, 0, 3), wresize(part, 9, 9));
    line = 16;
    tell("smaller", win);
    tell("part", part);
    waddch(part, '#');
    printw(" %d", wresize(part, 2, 3));
    tell("part", part);
    waddch(part, '!');
    show(win, part);
    pnoutrefresh(pad, 0, 0, 17, 40, 23, 79);
    look_at(part);
    delwin(part);
    delwin(win);
    delwin(pad);
}

/* Panels keep their order, and hidden ones stay so. */
static void resize_panels(void) {
    WINDOW *wins[5];
    PANEL *panels[5];
    for (int i = 0; i < 5; i++) {
        wins[i] = newwin(6, 20, 2 * i, 8 * i);
        fill(wins[i], (chtype)('a' + 26 * (i % 2) - 32 * (i % 2)));
        box(wins[i], '|', '-');
        panels[i] = new_panel(wins[i]);
        set_panel_userptr(panels[i], "kept");
    }
    del_panel(panels[0]);
    hide_panel(panels[2]);
    top_panel(panels[1]);
    bottom_panel(panels[4]);
    erase();
    resize_term(22, 60);
    update_panels();
    doupdate();
    shot();
    wresize(wins[3], 9, 26);
    mvwaddstr(wins[3], 7, 15, "larger");
    wresize(wins[2], 3, 12);
    mvprintw(21, 0, "%d %d %s", panel_hidden(panels[2]), panel_above(panels[4]) == panels[3], (const char *)panel_userptr(panels[2]));
    update_panels();
    doupdate();
    shot();
    show_panel(panels[2]);
    resize_term(24, 80);
    mvaddstr(23, 0, panel_window(panels[3]) == wins[3] && panel_below(panels[2]) == panels[1] ? "the same" : "others");
    update_panels();
    doupdate();
    shot();
    for (int i = 1; i < 5; i++) del_panel(panels[i]);
    for (int i = 0; i < 5; i++) delwin(wins[i]);
}

/* The standard screen alone becomes smaller and larger, as a window. */
static void resize_standard(void) {
    WINDOW *win = newwin(4, 20, 10, 30);
    PANEL *panel = new_panel(win);
    clear();
    refresh();
    fill(stdscr, 'a');
    printw("%d", wresize(stdscr, 12, 40));
    mvprintw(1, 1, "%dx%d, %dx%d", getmaxy(stdscr), getmaxx(stdscr), LINES, COLS);
    refresh();
    shot();
    box(win, '|', '-');
    mvaddstr(2, 2, "below a panel");
    update_panels();
    doupdate();
    shot();
    mvprintw(3, 1, "%d", wresize(stdscr, 24, 80));
    mvprintw(20, 60, "%dx%d", getmaxy(stdscr), getmaxx(stdscr));
    touchwin(stdscr);
    update_panels();
    doupdate();
    shot();
    del_panel(panel);
    delwin(win);
}

int main(void) {
    initscr();
    noecho();
    start_color();
    init_pair(1, COLOR_RED, COLOR_BLACK);
    init_pair(2, COLOR_YELLOW, COLOR_BLUE);
    resize_screen();
    resize_windows();
    resize_panels();
    resize_standard();
    nodelay(stdscr, TRUE);
    int answer = resizeterm(24, 80);
    erase();
    printw("%d", answer);
    printw(" %d", getch() == KEY_RESIZE);
    printw(" %d", getch() == ERR);
    refresh();
    shot();
    endwin();
    return 0;
}

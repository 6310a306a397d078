/* A map in a pad, of which parts are looked at, with a legend in a part of it. */
#include "../shot.h"

static void fill_map(WINDOW *map) {
    for (int y = 0; y < getmaxy(map); y++)
        for (int x = 0; x < getmaxx(map); x++) {
            int height = (x * x / 9 + y * y + x * y / 5) % 40;
            chtype low = height < 8 ? '~' | COLOR_PAIR(1) : '.' | COLOR_PAIR(2);
            chtype high = height < 36 ? '^' : '#' | A_BOLD;
            mvwaddch(map, y, x, height < 20 ? low : high);
        }
}

int main(void) {
    initscr();
    start_color();
    init_pair(1, COLOR_BLUE, COLOR_BLACK);
    init_pair(2, COLOR_GREEN, COLOR_BLACK);
    init_pair(3, COLOR_YELLOW, COLOR_BLUE);
    WINDOW *map = newpad(100, 200);
    fill_map(map);
    mvaddstr(0, 0, "The map:");
    refresh();
    for (int step = 0; step < 6; step++) {
        mvprintw(0, 10, "%2d %2d", 10 * step, 25 * step);
        wnoutrefresh(stdscr);
        pnoutrefresh(map, 10 * step, 25 * step, 2, 1, 22, 78);
        doupdate();
        shot();
    }
    WINDOW *legend = subpad(map, 5, 30, 52, 130);
    wbkgd(legend, COLOR_PAIR(3) | ' ');
    werase(legend);
    box(legend, 0, 0);
    mvwaddstr(legend, 1, 2, "~ water   . grass");
    mvwaddstr(legend, 2, 2, "^ hills   # rocks");
    prefresh(map, 50, 125, 2, 1, 22, 78);
    shot();
    mvwaddch(map, 55, 140, '@' | A_REVERSE);
    prefresh(map, 50, 125, 2, 1, 22, 78);
    shot();
    prefresh(legend, 0, 0, 10, 40, 14, 69);
    shot();
    prefresh(map, 90, 180, 0, 0, 23, 79);
    shot();
    prefresh(map, -5, -5, 5, 5, 10, 30);
    shot();
    wscrl(map, 1);
    scrollok(map, TRUE);
    wscrl(map, 3);
    prefresh(map, 0, 0, 12, 10, 20, 70);
    shot();
    wmove(map, 3, 3);
    pechochar(map, 'P');
    pechochar(map, 'Q');
    shot();
    wattron(map, A_UNDERLINE);
    mvwprintw(map, 1, 1, "a text in the map");
    wclrtoeol(map);
    prefresh(map, 0, 0, 12, 10, 20, 70);
    shot();
    copywin(map, stdscr, 0, 0, 1, 30, 6, 60, FALSE);
    refresh();
    shot();
    delwin(legend);
    delwin(map);
    touchwin(stdscr);
    refresh();
    shot();
    endwin();
    return 0;
}

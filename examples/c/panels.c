/* Overlapping panels. Arrows move the top one, Tab brings the lowest to the top, h hides the top one, s shows all, q ends. */
#include <curses.h>
#include <panel.h>
#include <stdio.h>

enum { COUNT = 4 };

static PANEL *panels[COUNT];

/* Makes a panel with a frame, a title and some text. */
static PANEL *framed(int lines, int columns, int y, int x, const char *title, const char *text, short pair) {
    WINDOW *win = newwin(lines, columns, y, x);
    wbkgd(win, COLOR_PAIR(pair) | ' ');
    wborder(win, '|', '|', '-', '-', '+', '+', '+', '+');
    wattron(win, A_BOLD);
    mvwprintw(win, 0, 2, " %s ", title);
    wattroff(win, A_BOLD);
    mvwaddstr(win, 2, 2, text);
    wmove(win, 0, 0);
    return new_panel(win);
}

static void make_panels(void) {
    for (int y = 0; y < LINES - 1; y++) mvhline(y, 0, y % 2 ? '.' : ':', COLS);
    attron(A_REVERSE);
    mvprintw(LINES - 1, 0, "%-*.*s", COLS - 1, COLS - 1, " arrows move  Tab next  h hide  s show all  q end");
    attroff(A_REVERSE);
    panels[0] = framed(8, 34, 2, 4, "notes", "A window keeps what is in it,", 1);
    panels[1] = framed(7, 26, 5, 24, "clock", "also where another", 2);
    panels[2] = framed(6, 30, 9, 10, "messages", "one covers it.", 1);
    panels[3] = framed(5, 24, 12, 44, "search", "Tab brings it up.", 3);
}

/* Moves the top panel, as far as the screen goes. */
static void move_top(int down, int right) {
    PANEL *top = panel_below(NULL);
    if (top) move_panel(top, getbegy(panel_window(top)) + down, getbegx(panel_window(top)) + right);
}

/* Does what a key says, and answers whether the program goes on. */
static bool obey(int key) {
    PANEL *top = panel_below(NULL), *lowest = panel_above(NULL);
    switch (key) {
    case KEY_UP: move_top(-1, 0); break;
    case KEY_DOWN: move_top(1, 0); break;
    case KEY_RIGHT: move_top(0, 1); break;
    case KEY_LEFT: move_top(0, -1); break;
    case '\t': if (lowest) top_panel(lowest); break;
    case 'h': if (top) hide_panel(top); break;
    case 's': for (int i = 0; i < COUNT; i++) show_panel(panels[i]); break;
    default: return key != 'q' && key != ERR;
    }
    return true;
}

int main(void) {
    initscr();
    if (LINES < 18 || COLS < 70) {
        endwin();
        fputs("panels: the terminal is smaller than 18 lines by 70 columns\n", stderr);
        return 1;
    }
    start_color();
    init_pair(1, COLOR_YELLOW, COLOR_BLUE);
    init_pair(2, COLOR_WHITE, COLOR_RED);
    init_pair(3, COLOR_BLACK, COLOR_CYAN);
    make_panels();
    noecho();
    keypad(stdscr, TRUE);
    do {
        update_panels();
        doupdate();
    } while (obey(getch()));
    endwin();
    return 0;
}

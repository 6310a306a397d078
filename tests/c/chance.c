/* Calls by chance, on windows that overlap: what they answer, what is in the windows and what is shown. Where
   ncurses is known to do otherwise (curspan(3)), no call is made. */
#include "shot.h"

enum { WINDOWS = 8, ROUNDS = 24, CALLS = 150 };

static WINDOW *windows[WINDOWS];
static int parents[WINDOWS]; /* of a derived window which it derives from, and else -1 */
static unsigned state, sum;

/* A number below n. */
static int below(int n) {
    state = state * 1103515245u + 12345u;
    return n > 0 ? (int)((state >> 16) % (unsigned)n) : 0;
}

static int near(int n) { return below(4) ? below(n) : below(n + 4) - 2; }

static chtype attributes(void) {
    static const chtype single[] = {A_NORMAL, A_NORMAL, A_UNDERLINE, A_REVERSE}; /* others aren't seen on blanks */
    chtype attrs = single[below(4)];
    return below(3) ? attrs : attrs | COLOR_PAIR(1 + below(3));
}

static chtype character(void) {
    static const char others[] = " .\t\n\r\b\001\177";
    chtype ch = below(4) ? (chtype)('a' + below(26)) : (chtype)others[below(8)];
    return below(3) ? ch : ch | attributes();
}

static const char *text(void) {
    static char letters[60];
    int length = below(below(5) ? 12 : 59);
    for (int i = 0; i < length; i++) letters[i] = (char)(below(6) ? 'a' + below(26) : " \t.x"[below(4)]);
    letters[length] = 0;
    return letters;
}

/* Goes to where the cursor is, so that no text has just come to it. */
static int settled(WINDOW *win, int answer) {
    wmove(win, getcury(win), getcurx(win));
    return answer;
}

/* ---- calls on a window that is there */

static int add_character(WINDOW *win) { return settled(win, waddch(win, character())); }
static int insert_character(WINDOW *win) { return winsch(win, 'I' | attributes()); }
static int insert_lines(WINDOW *win) { return winsdelln(win, below(7) - 3); }
static int scroll_lines(WINDOW *win) { return wscrl(win, below(5) - 2); }
static int let_scroll(WINDOW *win) { return scrollok(win, below(2)); }
static int set_attributes(WINDOW *win) { return wattrset(win, (int)attributes()); }
static int add_attributes(WINDOW *win) { return wattron(win, (int)attributes()); }
static int take_attributes(WINDOW *win) { return wattroff(win, (int)attributes()); }
static int change_background(WINDOW *win) { return wbkgd(win, attributes() | ' '); }
static int show(WINDOW *win) { return wrefresh(win); }

static int add_text(WINDOW *win) {
    int n = below(40) - 2;
    return settled(win, waddnstr(win, text(), n));
}

static int insert_text(WINDOW *win) {
    int n = below(9) - 1;
    return winsnstr(win, text(), n);
}

static int go(WINDOW *win) {
    int y = near(getmaxy(win)), x = near(getmaxx(win));
    return wmove(win, y, x);
}

/* Draws a line, a column or a box. */
static int draw(WINDOW *win) {
    chtype attrs = attributes();
    int n = 1 + below(getmaxy(win));
    if (below(2)) return below(2) ? whline(win, '=' | attrs, n) : wvline(win, '!' | attrs, n);
    return wborder(win, '|' | attrs, '|', '-', '-' | attrs, '+', '+', '+', '+');
}

static int set_background(WINDOW *win) {
    wbkgdset(win, attributes() | ' ');
    return OK;
}

static int change_attributes(WINDOW *win) {
    chtype attrs = attributes();
    int n = below(9) - 1;
    return wchgat(win, n, attrs & ~A_COLOR, (short)PAIR_NUMBER(attrs), NULL);
}

static int read_text(WINDOW *win) {
    char found[100];
    int count = winnstr(win, found, below(90));
    for (int i = 0; i < count; i++) sum = sum * 31 + (unsigned char)found[i];
    return count;
}

static int place_of(WINDOW *win) {
    int place = 0;
    while (windows[place] != win) place++;
    return place;
}

/* Copies to a window that has other cells. */
static int copy(WINDOW *win) {
    int place = below(WINDOWS), from = place_of(win);
    if (!windows[place] || place == from || parents[place] >= 0 || parents[from] >= 0) return ERR;
    touchwin(windows[place]);
    return below(2) ? overlay(win, windows[place]) : overwrite(win, windows[place]);
}

/* Makes a window in a place that is free, of its own or of another one. */
static int make(WINDOW *win) {
    int i = 1 + below(WINDOWS - 1), lines = 1 + below(10), columns = 1 + below(35), y = below(below(3) ? 10 : 30), x = below(below(3) ? 40 : 90);
    bool derives = below(3) == 0;
    if (windows[i]) return ERR;
    parents[i] = derives ? place_of(win) : -1;
    windows[i] = derives ? derwin(win, lines / 2, columns / 2, y / 3, x / 8) : newwin(lines, columns, y, x);
    return windows[i] ? i : ERR;
}

static int unmake(WINDOW *win) {
    int place = place_of(win);
    for (int i = 1; i < WINDOWS; i++)
        if (windows[i] && parents[i] == place) return ERR;
    if (place == 0) return ERR;
    windows[place] = NULL;
    return delwin(win);
}

/* Shown before, so that only what is new is touched. */
static int change_size(WINDOW *win) {
    int lines = 1 + below(14), columns = 1 + below(50);
    if (win == stdscr) return ERR;
    wrefresh(win);
    return wresize(win, lines, columns);
}

static int move_window(WINDOW *win) {
    int y = below(26), x = below(82);
    return win == stdscr || parents[place_of(win)] >= 0 ? ERR : mvwin(win, y, x);
}

static int (*const calls[])(WINDOW *) = {
    add_text, add_text, add_text, add_character, add_character, insert_text, insert_character, go, go, insert_lines, scroll_lines,
    let_scroll, set_attributes, add_attributes, take_attributes, set_background, change_background, draw, draw, change_attributes,
    read_text, copy, make, make, unmake, change_size, move_window, show, show, wdelch, wclrtoeol, wclrtobot, touchwin, untouchwin,
};

static void play(unsigned seed) {
    state = seed;
    sum = 0;
    for (int i = 0; i < CALLS; i++) {
        int place = below(WINDOWS);
        if (!windows[place]) place = 0;
        sum = sum * 31 + (unsigned)calls[below((int)(sizeof calls / sizeof calls[0]))](windows[place]);
        if (windows[place]) sum = sum * 31 + (unsigned)(getcury(windows[place]) * 100 + getcurx(windows[place]));
    }
}

int main(void) {
    initscr();
    start_color();
    init_pair(1, COLOR_YELLOW, COLOR_BLUE);
    init_pair(2, COLOR_WHITE, COLOR_RED);
    init_pair(3, COLOR_GREEN, COLOR_BLACK);
    windows[0] = stdscr;
    parents[0] = -1;
    for (unsigned seed = 1; seed <= ROUNDS; seed++) {
        play(seed);
        mvwprintw(stdscr, 23, 60, "%u: %08x", seed, sum);
        refresh();
        shot();
    }
    endwin();
    return 0;
}

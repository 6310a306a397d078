/* Borders and drawn lines, and cells whose rendition is changed where they are. Nothing here is proved. */
#include "inside.h"

static chtype drawn(chtype ch, chtype usual) { return ch & A_CHARTEXT ? ch : ch | usual; }

/* Draws a rectangle of a window, of one character. */
static int draw(const WINDOW *win, int y, int x, int lines, int columns, chtype ch) {
    return curspan_fill_cells(win, y, x, lines, columns, curspan_rendered(win, ch));
}

int whline(WINDOW *win, chtype ch, int n) {
    if (!is_there(win)) return ERR;
    int count = least(n, (int)win->columns - win->x);
    return count < 1 ? OK : curspan_changed(win, draw(win, win->y, win->x, 1, count, drawn(ch, ACS_HLINE)));
}

int wvline(WINDOW *win, chtype ch, int n) {
    if (!is_there(win)) return ERR;
    int count = least(n, (int)win->lines - win->y);
    return count < 1 ? OK : curspan_changed(win, draw(win, win->y, win->x, count, 1, drawn(ch, ACS_VLINE)));
}

/* Draws the first or the last line of a border. In a window of one column it is the right corner. */
static void draw_end(const WINDOW *win, int y, chtype left, chtype line, chtype right) {
    uint32_t row[LONGEST], cell = curspan_rendered(win, line), last = win->columns - 1;
    for (uint32_t x = 1; x < last; x++) row[x] = cell;
    row[0] = curspan_rendered(win, left);
    row[last] = curspan_rendered(win, right);
    curspan_put(SCREEN_AND(win), (uint32_t)y, 0, row, win->columns);
}

int wborder(WINDOW *win, chtype left, chtype right, chtype top, chtype bottom, chtype top_left, chtype top_right,
            chtype bottom_left, chtype bottom_right) {
    if (!is_there(win)) return ERR;
    int lines = (int)win->lines, last_x = (int)win->columns - 1;
    draw(win, 0, 0, lines, 1, drawn(left, ACS_VLINE));
    draw(win, 0, last_x, lines, 1, drawn(right, ACS_VLINE));
    draw_end(win, 0, drawn(top_left, ACS_ULCORNER), drawn(top, ACS_HLINE), drawn(top_right, ACS_URCORNER));
    draw_end(win, lines - 1, drawn(bottom_left, ACS_LLCORNER), drawn(bottom, ACS_HLINE), drawn(bottom_right, ACS_LRCORNER));
    return curspan_changed(win, OK);
}

int wchgat(WINDOW *win, int n, attr_t attrs, short pair, const void *none) {
    chtype cells[LONGEST];
    if (!is_there(win) || none || pair < 0 || pair > LAST_PAIR) return ERR;
    int count = n < -1 ? 0 : curspan_read_cells(win, win->y, win->x, cells, n);
    attrs = (attrs & A_ATTRIBUTES & ~A_COLOR) | COLOR_PAIR(pair);
    for (int i = 0; i < count; i++) cells[i] = (cells[i] & A_CHARTEXT) | attrs;
    return curspan_changed(win, curspan_put_cells(win, win->y, win->x, cells, count));
}

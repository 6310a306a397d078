/* Copies from window to window. Nothing here is proved. */
#include "inside.h"

/* A cell that is laid over a window, in its background's attributes, and its pair if it has one. */
static chtype laid_over(chtype cell, chtype background) {
    chtype pair = background & A_COLOR ? background : cell;
    return (cell & A_CHARTEXT) | (pair & A_COLOR) | ((cell | background) & A_ATTRIBUTES & ~A_COLOR);
}

static bool is_space(uint32_t cell) { return CURSPAN_CHARACTER(cell) == ' '; }

/* Lays n cells of a line over those of another window: each that is no space, and another one. */
static int lay_line(WINDOW *from, int from_y, int from_x, WINDOW *to, int to_y, int to_x, int n) {
    uint32_t over[LONGEST], under[LONGEST];
    int first = from_x, end = from_x + n, right = to_x - from_x;
    curspan_row(SCREEN_AND(from), (uint32_t)from_y, over, (size_t)end);
    while (first < end && is_space(over[first])) first++;
    while (first < end && is_space(over[end - 1])) end--;
    if (first == end) return OK;
    curspan_row(SCREEN_AND(to), (uint32_t)to_y, under, (size_t)(end + right));
    for (int i = first; i < end; i++)
        if (!is_space(over[i]) && over[i] != under[i + right])
            under[i + right] = curspan_written(laid_over(curspan_read(over[i]), to->background));
    first += right, end += right;
    return done(curspan_put(SCREEN_AND(to), (uint32_t)to_y, (uint32_t)first, under + first, (size_t)(end - first)));
}

/* Whether a window has a rectangle that begins at a place, of so many more lines and columns. */
static bool has_rectangle(const WINDOW *win, int y, int x, int lines, int columns) {
    return lines >= 0 && columns >= 0 && y + lines < (int)win->lines && x + columns < (int)win->columns;
}

static int lay(WINDOW *from, int from_y, int from_x, WINDOW *to, int top, int left, int lines, int columns) {
    bool have_it = has_rectangle(from, from_y, from_x, lines, columns) && has_rectangle(to, top, left, lines, columns);
    if (!have_it) return ERR;
    for (int i = 0; i <= lines; i++)
        if (lay_line(from, from_y + i, from_x, to, top + i, left, columns + 1) == ERR) return ERR;
    return OK;
}

static int copy(const WINDOW *from, WINDOW *to, int y, int x, int top, int left, int bottom, int right, bool overlays) {
    if (overlays) return lay((WINDOW *)from, y, x, to, top, left, bottom - top, right - left);
    return done(curspan_copywin(SCREEN_AND(from), to->number, (uint16_t)y, (uint16_t)x, (uint16_t)top, (uint16_t)left,
                                (uint16_t)bottom, (uint16_t)right, overlays));
}

/* As over ncurses, all of the lines that are copied to is touched. */
int copywin(const WINDOW *from, WINDOW *to, int y, int x, int top, int left, int bottom, int right, int overlays) {
    if (!is_there(from) || !is_there(to)) return ERR;
    if (!are_numbers(y, x, top, left) || !are_numbers(bottom, right, 0, 0)) return ERR;
    if (copy(from, to, y, x, top, left, bottom, right, overlays != 0) == ERR) return ERR;
    return touchline(to, top, bottom - top + 1);
}

bool curspan_find_common(const WINDOW *from, const WINDOW *to, curspan_common *common) {
    if (!is_there(from) || !is_there(to)) return false;
    int from_y = getbegy(from), from_x = getbegx(from), to_y = getbegy(to), to_x = getbegx(to);
    int top = most(from_y, to_y), bottom = least(from_y + (int)from->lines, to_y + (int)to->lines);
    int left = most(from_x, to_x), right = least(from_x + (int)from->columns, to_x + (int)to->columns);
    *common = (curspan_common){top - from_y, left - from_x, top - to_y, left - to_x, bottom - top, right - left};
    return top < bottom && left < right;
}

static int copy_common(const WINDOW *from, WINDOW *to, bool overlays) {
    curspan_common of;
    if (!curspan_find_common(from, to, &of)) return ERR;
    int bottom = of.to_y + of.lines - 1, right = of.to_x + of.columns - 1;
    return copywin(from, to, of.from_y, of.from_x, of.to_y, of.to_x, bottom, right, overlays);
}

int overlay(const WINDOW *from, WINDOW *to) { return copy_common(from, to, true); }
int overwrite(const WINDOW *from, WINDOW *to) { return copy_common(from, to, false); }

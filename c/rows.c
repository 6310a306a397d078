/* Rows of cells, put into windows as they are, and read back. Nothing here is proved. */
#include "inside.h"

int curspan_put_cells(WINDOW *win, int y, int x, const chtype *cells, int n) {
    uint32_t row[LONGEST];
    chtype all = 0;
    int count = 0;
    while (count < n && cells[count]) all |= cells[count++];
    bool are_own = all < CURSPAN_CELL(0, 0, 1); /* those without a pair are curspan.h's as they are */
    for (int i = 0; i < count && !are_own; i++) row[i] = curspan_written(cells[i]);
    return done(curspan_put(SCREEN_AND(win), (uint32_t)y, (uint32_t)x, are_own ? cells : row, (size_t)count));
}

/* Reads a line into a row, and answers how many cells of it, up to n where that isn't negative, come from a column on. */
static int read_row(const WINDOW *win, int y, int x, uint32_t row[LONGEST], int n) {
    int room = n < 0 || n > LONGEST - x ? LONGEST : x + n;
    int count = first_of(curspan_row(SCREEN_AND(win), (uint32_t)y, row, (size_t)room));
    return most(least(count, room) - x, 0);
}

int curspan_read_cells(WINDOW *win, int y, int x, chtype *cells, int n) {
    uint32_t row[LONGEST];
    int count = read_row(win, y, x, row, n);
    for (int i = 0; i < count; i++) cells[i] = curspan_read(row[x + i]);
    return count;
}

chtype winch(WINDOW *win) {
    const curspan *screen = curspan_settle();
    if (!win) return (chtype)ERR;
    curspan_answer answer = curspan_cell(screen, win->number, (uint32_t)win->y, (uint32_t)win->x);
    return answer.status == CURSPAN_OK ? curspan_read(answer.first) : (chtype)ERR;
}

int winchnstr(WINDOW *win, chtype *row, int n) {
    if (!is_there(win) || !row) return ERR;
    row[curspan_read_cells(win, win->y, win->x, row, n)] = 0;
    return OK;
}

int winnstr(WINDOW *win, char *text, int n) {
    uint32_t row[LONGEST];
    if (!is_there(win) || !text) return ERR;
    int x = win->x, count = read_row(win, win->y, x, row, n);
    for (int i = 0; i < count; i++) text[i] = (char)CURSPAN_CHARACTER(row[x + i]);
    text[count] = 0;
    return count;
}

int winstr(WINDOW *win, char *text) { return winnstr(win, text, -1) == ERR ? ERR : OK; }

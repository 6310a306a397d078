/* Characters and lines inserted and deleted, and parts cleared. Nothing here is proved. */
#include "inside.h"

/* Sets the rest of a line, from a column on, or of so many lines, to the background. */
static int blank(const WINDOW *win, int y, int x, int lines) {
    return curspan_fill_cells(win, y, x, lines, (int)win->columns - x, curspan_written(win->background));
}

/* Copies whole lines of a window to others. */
static void shift(const WINDOW *win, int y, int to_y, int lines) {
    uint32_t from = (uint32_t)y, top = (uint32_t)to_y, bottom = top + (uint32_t)lines - 1;
    curspan_copywin(SCREEN_AND(win), win->number, from, 0, top, 0, bottom, win->columns - 1, false);
}

/* Puts cells into the cursor's line, from a column up to its end. */
static int put_rest(const WINDOW *win, int x, const uint32_t *cells) {
    return done(curspan_put(SCREEN_AND(win), (uint32_t)win->y, (uint32_t)x, cells, win->columns - (uint32_t)x));
}

/* Reads the first cells of the cursor's line. */
static void read_line(const WINDOW *win, uint32_t *line, int count) {
    curspan_row(SCREEN_AND(win), (uint32_t)win->y, line, (size_t)count);
}

/* ---- inserted characters */

/* Cells on their way into a line, from the cursor's column on and no further than the line goes. */
typedef struct {
    uint32_t cells[LONGEST];
    int from, to, columns;
} row;

static void append(const WINDOW *win, row *row, const char *text, int count, attr_t attrs) {
    for (int i = 0; i < count && row->to < row->columns; i++)
        row->cells[row->to++] = curspan_rendered(win, (uint8_t)text[i] | attrs);
}

/* Appends a byte as it is spelled: a tab as spaces, another control character as ^ and a letter. */
static void append_byte(WINDOW *win, row *row, uint8_t byte, attr_t attrs) {
    const char control[2] = {'^', (char)(byte ^ 64)};
    if (win->begun.count > 0 || byte > 127) {
        curspan_spelling spelling = curspan_spell_part(&win->begun, byte);
        if (byte < ' ' || byte > 126) append(win, row, spelling.text, spelling.count, attrs);
    } else if (byte == '\t') {
        int count = least(curspan_to_stop(row->to), row->columns - row->to);
        while (count-- > 0) append(win, row, " ", 1, attrs);
    } else if (byte >= ' ' && byte != 127) {
        append(win, row, (const char *)&byte, 1, attrs);
    } else {
        append(win, row, control, sizeof control, attrs);
    }
}

/* Inserts a row at the cursor, and leaves the cursor behind it, or in the last column. */
static void insert_row(WINDOW *win, row *row) {
    uint32_t line[LONGEST];
    int from = row->from, to = row->to, columns = row->columns;
    if (to == from) return;
    read_line(win, line, columns);
    memcpy(row->cells + to, line + from, sizeof *line * (size_t)(columns - to));
    put_rest(win, from, row->cells + from);
    curspan_go(win, win->y, least(to, columns - 1));
}

static bool moves_cursor(uint8_t byte) { return byte == '\n' || byte == '\r' || byte == '\b'; }

/* Moves the cursor as a written text does, and answers whether it is still behind a line that the row has filled. */
static bool stays_behind(WINDOW *win, const row *row, uint8_t byte) {
    bool is_behind = row->to == row->columns;
    win->has_ended = is_behind && byte != '\b';
    if (is_behind && byte == '\b') return false;
    return curspan_add(win, byte) == ERR && is_behind;
}

/* Inserts a text, as far as lines go. The cursor comes back in the end. */
static void insert(WINDOW *win, const uint8_t *text, size_t length, attr_t attrs) {
    int y = win->y, x = win->x, columns = (int)win->columns;
    bool is_behind = false, has_ended = win->has_ended;
    for (size_t i = 0; i < length;) {
        int from = is_behind ? columns : win->x;
        row row; /* its cells are not cleared */
        row.from = row.to = from, row.columns = columns;
        for (; i < length && (win->begun.count > 0 || !moves_cursor(text[i])); i++) append_byte(win, &row, text[i], attrs);
        insert_row(win, &row);
        if (i == length) break;
        is_behind = stays_behind(win, &row, text[i++]);
        has_ended = has_ended && win->has_ended;
    }
    curspan_go(win, y, x);
    win->has_ended = has_ended;
    curspan_keep_begun(win);
}

int winsch(WINDOW *win, chtype ch) {
    uint8_t text = ch & A_CHARTEXT;
    if (!is_there(win)) return ERR;
    if (win->begun.count > 0) curspan_check_begun(win);
    insert(win, &text, 1, ch & A_ATTRIBUTES);
    return curspan_changed(win, OK);
}

int winsnstr(WINDOW *win, const char *text, int n) {
    if (!text || !is_there(win)) return ERR;
    size_t length = n <= 0 ? strlen(text) : strnlen(text, (size_t)n);
    win->begun.count = 0;
    insert(win, (const uint8_t *)text, length, A_NORMAL);
    win->begun.count = 0;
    return curspan_changed(win, OK);
}

/* ---- deleted and inserted lines, and what is cleared */

int wdelch(WINDOW *win) {
    uint32_t line[LONGEST + 1];
    if (!is_there(win)) return ERR;
    read_line(win, line, LONGEST);
    line[win->columns] = curspan_written(win->background);
    return curspan_changed(win, put_rest(win, win->x, line + win->x + 1));
}

int curspan_scroll_lines(WINDOW *win, int top, int bottom, int n) {
    int all = bottom - top + 1, up = least(n, all), down = -most(n, -all), rest = all - most(up, down);
    if (up > 0 && rest > 0) shift(win, top + up, top, rest);
    if (down > 0 && rest > 0) shift(win, top, top + down, rest);
    return n == 0 ? OK : blank(win, up > 0 ? top + rest : top, 0, all - rest);
}

int wscrl(WINDOW *win, int n) {
    if (!is_scrollok(win)) return ERR;
    return curspan_changed(win, curspan_scroll_lines(win, win->top, win->bottom, n));
}

int winsdelln(WINDOW *win, int n) {
    if (!is_there(win)) return ERR;
    return curspan_changed(win, curspan_scroll_lines(win, win->y, (int)win->lines - 1, -most(n, -LONGEST)));
}

int winsertln(WINDOW *win) { return winsdelln(win, 1); }
int wdeleteln(WINDOW *win) { return winsdelln(win, -1); }

int werase(WINDOW *win) {
    if (!is_there(win) || blank(win, 0, 0, (int)win->lines) == ERR) return ERR;
    win->has_ended = false;
    curspan_go(win, 0, 0);
    return curspan_changed(win, OK);
}

int wclear(WINDOW *win) { return werase(win) == ERR ? ERR : clearok(win, TRUE); }

/* A character that was just written in the last place isn't to the right of the cursor, which stayed on it. */
int wclrtoeol(WINDOW *win) {
    return !is_there(win) || win->has_ended ? ERR : curspan_changed(win, blank(win, win->y, win->x, 1));
}

int wclrtobot(WINDOW *win) {
    if (!is_there(win)) return ERR;
    int below = (int)win->lines - 1 - win->y;
    if (below > 0) blank(win, win->y + 1, 0, below);
    return curspan_changed(win, blank(win, win->y, win->x, 1));
}

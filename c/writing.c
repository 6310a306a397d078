/* Writing in windows: characters and texts, up to where the window ends. Nothing here is proved. */
#include "inside.h"

int TABSIZE = 8;

int set_tabsize(int columns) {
    if (columns <= 0) return ERR;
    TABSIZE = columns;
    return OK;
}

static int go(WINDOW *win, int y, int x) {
    win->has_ended = false;
    curspan_go(win, y, x);
    return OK;
}

int wmove(WINDOW *win, int y, int x) {
    if (!win || (unsigned)y >= win->lines || (unsigned)x >= win->columns) return ERR;
    win->moved = true;
    return go(win, y, x);
}

/* ---- the end of a line */

/* Goes to the next line, for which the region scrolls where it ends. In one that doesn't scroll that is an error. */
static int leave_line(WINDOW *win) {
    bool is_last = win->y == win->bottom;
    if (is_last && (!win->scrolls || curspan_scroll_lines(win, win->top, win->bottom, 1) == ERR)) return ERR;
    win->left++;
    return go(win, is_last ? win->y : least(win->y + 1, (int)win->lines - 1), 0);
}

/* From now on the cells that are written in a window wait. */
static void begin_to_wait(WINDOW *win) {
    (void)curspan_settle();
    curspan_waiting.win = win;
    curspan_waiting.from = win->x;
    win->is_placed = false;
}

/* Writes a cell at the cursor, which goes on. In the last place it stays, and that is an error. */
static int add_cell(WINDOW *win, uint32_t cell) {
    if (curspan_waiting.win != win) begin_to_wait(win);
    curspan_waiting.cells[win->x] = cell;
    if (win->x + 1 < (int)win->columns) return win->x++, OK;
    curspan_put_waiting((int)win->columns);
    win->has_ended = leave_line(win) == ERR;
    return win->has_ended ? ERR : OK;
}

static int add_drawn(WINDOW *win, chtype ch) { return add_cell(win, curspan_rendered(win, ch)); }

/* Writes n blanks, which are the background's or, with attributes of their own, spaces. */
static int add_blanks(WINDOW *win, int n, attr_t attrs) {
    int answer = OK;
    while (n-- > 0 && answer == OK) answer = add_drawn(win, ' ' | attrs);
    return answer;
}

/* Clears the rest of the line, but not what has ended it, and goes to the next one, if there is one. */
static int end_line(WINDOW *win) {
    wclrtoeol(win);
    return leave_line(win);
}

static int add_tab(WINDOW *win, attr_t attrs) {
    int count = curspan_to_stop(win->x), room = (int)win->columns - win->x;
    bool stops = win->y == win->bottom && !win->scrolls;
    return count < room || stops ? add_blanks(win, count, attrs) : end_line(win);
}

/* ---- characters that are spelled */

void curspan_keep_begun(WINDOW *win) {
    win->begun.y = win->y;
    win->begun.x = win->x;
    win->is_plain = false;
}

void curspan_check_begun(WINDOW *win) {
    if (win->begun.y != win->y || win->begun.x != win->x) win->begun.count = 0;
}

/* Writes what a byte ends. One of two columns is on the next line where one is left on this. */
static int add_part(WINDOW *win, uint8_t byte, attr_t attrs) {
    curspan_spelling spelling = curspan_spell_part(&win->begun, byte);
    int answer = OK;
    curspan_keep_begun(win);
    if (spelling.is_wide && win->columns < 2) return ERR;
    if (spelling.is_wide && win->x + 1 == (int)win->columns) answer = add_blanks(win, 1, A_NORMAL);
    for (int i = 0; i < spelling.count && answer == OK; i++) {
        chtype text = (uint8_t)spelling.text[i];
        answer = spelling.is_wide ? add_cell(win, curspan_rendered(win, attrs) | text) : add_drawn(win, attrs | text);
    }
    return answer;
}

/* Writes a character that isn't printable, or one after a part of another. */
static int add_spelled(WINDOW *win, uint8_t ch, attr_t attrs) {
    if (win->begun.count > 0 || ch > 127) return add_part(win, ch, attrs);
    switch (ch) {
    case '\n': return end_line(win);
    case '\t': return add_tab(win, attrs);
    case '\r': return go(win, win->y, 0);
    case '\b': return go(win, win->y, most(win->x - 1, 0));
    default: return add_drawn(win, '^' | attrs) == ERR ? ERR : add_drawn(win, (chtype)(ch ^ 64) | attrs);
    }
}

/* ---- characters and texts */

/* Notes what plain characters are written as, where they belong to no other. */
static void prepare(WINDOW *win) {
    win->is_plain = !(win->attrs & A_ALTCHARSET) && win->begun.count == 0;
    win->plain = curspan_rendered(win, 0);
    win->blank = curspan_rendered(win, ' ');
    win->other = A_NORMAL;
}

/* Writes a printable character. One of the alternate set may be drawn as another, so that it says nothing of the next. */
static int add_printable(WINDOW *win, chtype ch) {
    uint32_t cell = curspan_rendered(win, ch);
    if (win->is_plain && !(ch & A_ALTCHARSET)) {
        win->other = ch & ~A_CHARTEXT;
        win->in_other = cell & ~A_CHARTEXT;
    }
    return add_cell(win, cell);
}

int curspan_add(WINDOW *win, chtype ch) {
    if (!is_there(win)) return ERR;
    if (win->begun.count > 0) curspan_check_begun(win);
    if (!win->is_plain) prepare(win);
    uint8_t character = curspan_as_drawn(ch | (win->attrs & A_ALTCHARSET)) & A_CHARTEXT;
    if (is_printable(character) && win->begun.count == 0) return add_printable(win, ch);
    return add_spelled(win, character, ch & A_ATTRIBUTES);
}

static inline int add(WINDOW *win, chtype ch) {
    uint32_t *cells = curspan_waiting.cells;
    if (!win || !win->is_plain || !is_printable(ch & A_CHARTEXT)) return curspan_add(win, ch);
    if (curspan_waiting.win != win) begin_to_wait(win);
    if (win->x + 1 >= (int)win->columns) return curspan_add(win, ch);
    if (is_printable(ch)) cells[win->x++] = ch == ' ' ? win->blank : win->plain | ch;
    else if ((ch & ~A_CHARTEXT) == win->other) cells[win->x++] = win->in_other | (ch & A_CHARTEXT);
    else return curspan_add(win, ch);
    return OK;
}

int waddch(WINDOW *win, const chtype ch) { return curspan_changed(win, add(win, ch)); }

/* Writes the printable characters that a text begins with, as far as the line goes but for its last column, and answers
   how many they are. */
static size_t add_plain(WINDOW *win, const char *text, size_t length) {
    if (!win->is_plain) return 0;
    if (curspan_waiting.win != win) begin_to_wait(win);
    uint32_t *cells = curspan_waiting.cells + win->x, plain = win->plain, blank = win->blank;
    size_t i, room = win->columns - 1 - (uint32_t)win->x, count = length < room ? length : room;
    for (i = 0; i < count && is_printable((uint8_t)text[i]); i++)
        cells[i] = text[i] == ' ' ? blank : plain | (uint8_t)text[i];
    win->x += (int)i;
    return i;
}

static int add_text(WINDOW *win, const char *text, size_t length) {
    int answer = is_there(win) ? OK : ERR;
    for (size_t i = 0; i < length && answer == OK; i++) {
        if (length - i > 1) i += add_plain(win, text + i, length - i);
        if (i < length) answer = add(win, (uint8_t)text[i]);
    }
    return curspan_changed(win, answer);
}

int waddstr(WINDOW *win, const char *text) { return text ? add_text(win, text, strlen(text)) : ERR; }

int waddnstr(WINDOW *win, const char *text, int n) {
    if (n < 0) return waddstr(win, text);
    if (n == 0) return is_there(win) ? OK : ERR;
    return text ? add_text(win, text, strnlen(text, (size_t)n)) : ERR;
}

int waddchnstr(WINDOW *win, const chtype *row, int n) {
    if (!is_there(win) || (!row && n != 0)) return ERR;
    int room = (int)win->columns - win->x;
    return curspan_changed(win, curspan_put_cells(win, win->y, win->x, row, n < 0 ? room : least(n, room)));
}

int vw_printw(WINDOW *win, const char *format, va_list arguments) {
    char few[256], *text = few;
    va_list again;
    int answer = ERR;
    if (!format) return ERR;
    if (strcmp(format, "%c") == 0) {
        const char one[] = {(char)va_arg(arguments, int), 0};
        return waddstr(win, one);
    }
    va_copy(again, arguments);
    int length = vsnprintf(few, sizeof few, format, arguments);
    size_t size = (size_t)length + 1;
    if (length >= (int)sizeof few && (text = malloc(size))) vsnprintf(text, size, format, again);
    va_end(again);
    if (length >= 0 && text) answer = waddstr(win, text);
    if (text != few) free(text);
    return answer;
}

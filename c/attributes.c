/* Attributes and backgrounds. Nothing here is proved. */
#include "inside.h"

static inline int set(WINDOW *win, attr_t attrs) {
    win->attrs = attrs & (curspan_has_alternates ? A_ATTRIBUTES : A_ATTRIBUTES & ~A_ALTCHARSET);
    win->is_plain = false;
    return OK;
}

static inline attr_t without(attr_t attrs, attr_t less) { return attrs & ~(less & A_COLOR ? less | A_COLOR : less); }

int wattrset(WINDOW *win, int attrs) { return !is_there(win) ? ERR : set(win, (attr_t)attrs); }

int wattron(WINDOW *win, int attrs) {
    return !is_there(win) ? ERR : set(win, curspan_with(win->attrs, (attr_t)attrs));
}

int wattroff(WINDOW *win, int attrs) {
    return !is_there(win) ? ERR : set(win, without(win->attrs, (attr_t)attrs));
}

int wstandout(WINDOW *win) { return wattron(win, (int)A_STANDOUT); }
int wstandend(WINDOW *win) { return wattrset(win, (int)A_NORMAL); }

int wattr_set(WINDOW *win, attr_t attrs, short pair, void *none) {
    if (none || pair < 0 || pair > LAST_PAIR) return ERR;
    return wattrset(win, (int)((attrs & ~A_COLOR) | COLOR_PAIR(pair)));
}

int wattr_get(WINDOW *win, attr_t *attrs, short *pair, void *none) {
    if (none || !is_there(win)) return ERR;
    if (attrs) *attrs = win->attrs;
    if (pair) *pair = (short)PAIR_NUMBER(win->attrs);
    return OK;
}

int wcolor_set(WINDOW *win, short pair, void *none) {
    return !is_there(win) ? ERR : wattr_set(win, win->attrs, pair, none);
}

/* ---- how characters are written */

uint32_t curspan_own(chtype cell) {
    return (cell & ~(A_COLOR | A_ALTCHARSET)) | (uint32_t)curspan_use_pair(cell) << 16;
}

uint32_t curspan_rendered(const WINDOW *win, chtype ch) {
    bool is_blank = ch == ' ';
    ch = curspan_as_drawn(ch | (win->attrs & A_ALTCHARSET));
    chtype text = (is_blank ? win->background : ch) & A_CHARTEXT;
    chtype pair = ch & A_COLOR ? ch : win->attrs & A_COLOR ? win->attrs : win->background;
    attr_t attrs = (ch | (win->attrs & ~A_ALTCHARSET) | win->background) & A_ATTRIBUTES & ~A_COLOR;
    return curspan_own(text | (pair & A_COLOR) | attrs);
}

/* ---- backgrounds */

static chtype with_character(chtype ch) { return ch & A_CHARTEXT ? ch : ch | ' '; }

/* The window's attributes have those of the background. One whose character is none in ASCII is refused. */
static int change_background(WINDOW *win, chtype ch) {
    ch = curspan_as_drawn(ch);
    if (!is_there(win) || !is_printable(with_character(ch) & A_CHARTEXT)) return ERR;
    attr_t attrs = curspan_with(without(win->attrs, win->background & A_ATTRIBUTES), ch & A_ATTRIBUTES);
    win->background = with_character(ch);
    return set(win, attrs);
}

void wbkgdset(WINDOW *win, chtype ch) { (void)change_background(win, ch); }
chtype getbkgd(WINDOW *win) { return !is_there(win) ? (chtype)ERR : win->background; }

/* A cell under another background: what was background gets the other character, and a pair of its own is kept. */
static chtype on_other(chtype cell, chtype old, chtype new) {
    chtype text = (cell == old ? new : cell) & A_CHARTEXT;
    bool keeps_pair = cell & A_COLOR && (cell & A_COLOR) != (old & A_COLOR);
    return text | ((keeps_pair ? cell : new) & A_COLOR) | (((cell & ~old) | new) & A_ATTRIBUTES & ~A_COLOR);
}

int wbkgd(WINDOW *win, chtype ch) {
    uint32_t row[LONGEST], before = 0, after = 0;
    if (!is_there(win)) return ERR;
    chtype old = win->background;
    ch = curspan_as_drawn(ch);
    if (with_character(ch) == old) return OK;
    if (change_background(win, ch) == ERR || set(win, ch) == ERR) return ERR;
    for (uint32_t y = 0; y < win->lines; y++) {
        uint32_t count = (uint32_t)first_of(curspan_row(SCREEN_AND(win), y, row, LONGEST));
        for (uint32_t x = 0; x < count; row[x++] = after) {
            if (row[x] == before) continue;
            before = row[x], after = curspan_written(on_other(curspan_read(before), old, win->background));
        }
        if (done(curspan_put(SCREEN_AND(win), y, 0, row, count)) == ERR) return ERR;
    }
    return curspan_changed(win, OK);
}

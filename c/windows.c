/* Windows and pads: making and placing them, asking about them, and their options. Nothing here is proved. */
#include "inside.h"
#include "terminal.h"

WINDOW *stdscr, *curscr;

struct curspan_window curspan_windows[MOST];
static WINDOW *numbered[MOST]; /* by their numbers */
static struct curspan_window the_terminal = {.number = NUMBER}; /* it is no window of Curspan */

static void forget(WINDOW *win) {
    *win = (struct curspan_window){.number = NUMBER, .background = ' ', .is_placed = true, .delay = -1};
    win->part[4] = win->part[5] = -1;
}

void curspan_forget_all(void) {
    for (int i = 0; i < MOST; i++) forget(&curspan_windows[i]);
    curspan_forget_colours();
    curspan_forget_panels();
    stdscr = curscr = NULL;
}

WINDOW *curspan_window_of(curspan_answer answer) { return answer.status == CURSPAN_OK ? numbered[answer.first] : NULL; }

void curspan_renumber(WINDOW *win, uint16_t number) {
    win->number = number;
    numbered[number] = win;
}

void curspan_measure(WINDOW *win) {
    curspan_answer size = curspan_getmaxyx(SCREEN_AND(win)), place = curspan_getbegyx(SCREEN_AND(win));
    win->lines = size.first;
    win->columns = size.second;
    win->is_plain = false;
    if (place.status != CURSPAN_OK) return; /* a pad of curspan.h is nowhere */
    win->begin_y = (int)place.first;
    win->begin_x = (int)place.second;
}

/* A derived pad is where copies take its parent to be. A derived window has its parent's attributes and background. */
static void take_after(WINDOW *win, const WINDOW *parent) {
    win->is_pad = parent->is_pad;
    win->begin_y = parent->begin_y + getpary(win);
    win->begin_x = parent->begin_x + getparx(win);
    wbkgdset(win, parent->background);
    wattrset(win, (int)parent->attrs);
}

static WINDOW *made(curspan_answer answer) {
    if (answer.status != CURSPAN_OK) return NULL;
    WINDOW *win = &curspan_windows[answer.first];
    if (win->number != NUMBER) /* another window that changed its number has this place */
        for (win = curspan_windows; win->number != NUMBER; win++) continue;
    forget(win);
    curspan_renumber(win, (uint16_t)answer.first);
    curspan_measure(win);
    win->bottom = (int)win->lines - 1;
    win->parent = curspan_window_of(curspan_wgetparent(SCREEN_AND(win)));
    if (win->parent) take_after(win, win->parent);
    touchwin(win); /* as in System V: a new window covers what is below it */
    return win;
}

void curspan_begin(curspan_answer answer) {
    curspan_forget_all();
    curspan_number_pairs(curspan_settle());
    stdscr = made(answer);
    curscr = &the_terminal;
}

static WINDOW *made_outlying(curspan_answer answer, int y, int x) {
    WINDOW *win = made(answer);
    if (!win) return NULL;
    win->outlies = true;
    win->begin_y = y;
    win->begin_x = x;
    return win;
}

WINDOW *newwin(int lines, int columns, int y, int x) {
    if (!stdscr || !are_numbers(lines, columns, y, x)) return NULL;
    if (lines == 0) lines = curspan_lines() - y;
    if (columns == 0) columns = curspan_columns() - x;
    if (lines < 1 || columns < 1) return NULL;
    uint16_t height = (uint16_t)lines, width = (uint16_t)columns;
    bool fits = curspan_fits(lines, columns, y, x);
    if (!fits) return made_outlying(curspan_newpad(curspan_settle(), height, width), y, x);
    return made(curspan_newwin(curspan_settle(), height, width, (uint16_t)y, (uint16_t)x));
}

static WINDOW *derive_outlying(WINDOW *win, int lines, int columns, int y, int x) {
    if (lines == 0) lines = getmaxy(win) - y;
    if (columns == 0) columns = getmaxx(win) - x;
    if (!are_numbers(lines, columns, y, x)) return NULL;
    uint32_t height = (uint32_t)lines, width = (uint32_t)columns;
    curspan_answer answer = curspan_subpad(SCREEN_AND(win), height, width, (uint32_t)y, (uint32_t)x);
    return made_outlying(answer, win->begin_y + y, win->begin_x + x);
}

WINDOW *subwin(WINDOW *win, int lines, int columns, int y, int x) {
    if (!are_numbers(lines, columns, y, x)) return NULL;
    if (win && win->outlies) return derive_outlying(win, lines, columns, y - win->begin_y, x - win->begin_x);
    return made(curspan_subwin(SCREEN_AND(win), (uint16_t)lines, (uint16_t)columns, (uint16_t)y, (uint16_t)x));
}

WINDOW *derwin(WINDOW *win, int lines, int columns, int y, int x) {
    if (!are_numbers(lines, columns, y, x)) return NULL;
    if (win && win->outlies) return derive_outlying(win, lines, columns, y, x);
    return made(curspan_derwin(SCREEN_AND(win), (uint16_t)lines, (uint16_t)columns, (uint16_t)y, (uint16_t)x));
}

WINDOW *newpad(int lines, int columns) {
    if (!are_numbers(lines, columns, 0, 0)) return NULL;
    WINDOW *pad = made(curspan_newpad(curspan_settle(), (uint16_t)lines, (uint16_t)columns));
    if (pad) pad->is_pad = true;
    return pad;
}

WINDOW *subpad(WINDOW *pad, int lines, int columns, int y, int x) {
    if (!are_numbers(lines, columns, y, x) || (pad && pad->outlies)) return NULL;
    return made(curspan_subpad(SCREEN_AND(pad), (uint16_t)lines, (uint16_t)columns, (uint16_t)y, (uint16_t)x));
}

WINDOW *dupwin(WINDOW *win) {
    int lines = getmaxy(win), columns = getmaxx(win), top, bottom;
    if (wgetscrreg(win, &top, &bottom) == ERR) return NULL;
    WINDOW *copy = is_pad(win) ? newpad(lines, columns) : newwin(lines, columns, getbegy(win), getbegx(win));
    if (!copy) return NULL;
    copywin(win, copy, 0, 0, 0, 0, lines - 1, columns - 1, FALSE);
    wbkgdset(copy, win->background);
    wattrset(copy, (int)win->attrs);
    copy->keypad = win->keypad;
    copy->no_timeout = win->no_timeout;
    copy->delay = win->delay;
    scrollok(copy, is_scrollok(win));
    wsetscrreg(copy, top, bottom);
    wmove(copy, getcury(win), getcurx(win));
    copy->has_ended = win->has_ended;
    copy->begin_y = win->begin_y;
    copy->begin_x = win->begin_x;
    for (int y = 0; y < lines; y++)
        if (!is_linetouched(win, y)) wtouchln(copy, y, 1, FALSE);
    return copy;
}

/* What a derived window covered of its parent is shown anew. */
int delwin(WINDOW *win) {
    WINDOW *parent = is_pad(win) ? NULL : wgetparent(win);
    if (win == stdscr || done(curspan_delwin(SCREEN_AND(win))) == ERR) return ERR;
    if (parent) touchwin(parent);
    forget(win);
    return OK;
}

int mvwin(WINDOW *win, int y, int x) {
    if (!are_numbers(y, x, 0, 0)) return ERR;
    if (win && win->outlies) return curspan_move_inside(win, y, x);
    if (done(curspan_mvwin(SCREEN_AND(win), (uint16_t)y, (uint16_t)x)) == ERR) return ERR;
    win->begin_y = y;
    win->begin_x = x;
    return touchwin(win);
}

/* What is touched of it is so in its ancestors, before it shows another part. */
int mvderwin(WINDOW *win, int y, int x) {
    const WINDOW *parent = wgetparent(win);
    if (!are_numbers(y, x, 0, 0)) return ERR;
    if (parent && y + (int)win->lines <= getmaxy(parent) && x + (int)win->columns <= getmaxx(parent)) wsyncup(win);
    return done(curspan_mvderwin(SCREEN_AND(win), (uint16_t)y, (uint16_t)x));
}

/* The terminal is as large as window 0 of curspan.h, and its cursor is where the last update left it. */
#define OF(win, of_terminal, of_window) (is_terminal(win) ? (of_terminal) : !is_there(win) ? ERR : (of_window))

int getcury(const WINDOW *win) { return OF(win, win->begin_y, win->y); }
int getcurx(const WINDOW *win) { return OF(win, win->begin_x, win->x); }
int getmaxy(const WINDOW *win) { return OF(win, curspan_lines(), (int)win->lines); }
int getmaxx(const WINDOW *win) { return OF(win, curspan_columns(), (int)win->columns); }
int getpary(const WINDOW *win) { return first_of(curspan_getparyx(SCREEN_AND(win))); }
int getparx(const WINDOW *win) { return second_of(curspan_getparyx(SCREEN_AND(win))); }
int getbegy(const WINDOW *win) { return OF(win, 0, win->begin_y); }
int getbegx(const WINDOW *win) { return OF(win, 0, win->begin_x); }

/* ---- options */

int clearok(WINDOW *win, bool flag) {
    if (!is_terminal(win)) return done(curspan_clearok(SCREEN_AND(win), flag));
    if (flag) curspan_invalidate(curspan_settle());
    return OK;
}

int scrollok(WINDOW *win, bool flag) { return SET_OF(win, scrolls, flag); }

int wsetscrreg(WINDOW *win, int top, int bottom) {
    if (!is_there(win) || top < 0 || top > bottom || bottom >= (int)win->lines) return ERR;
    win->top = top;
    win->bottom = bottom;
    return OK;
}

int idlok(WINDOW *win, bool flag) { return SET_OF(win, idlok, flag); }
void idcok(WINDOW *win, bool flag) { (void)SET_OF(win, no_idcok, !flag); }
int leaveok(WINDOW *win, bool flag) { return SET_OF(win, leaveok, flag); }

void immedok(WINDOW *win, bool flag) { (void)SET_OF(win, is_immediate, flag); }
int syncok(WINDOW *win, bool flag) { return SET_OF(win, synchronizes, flag); }

void curspan_follow(WINDOW *win) {
    if (win->is_immediate) wrefresh(win);
    if (win->synchronizes) wsyncup(win);
}

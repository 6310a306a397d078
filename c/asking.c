/* What is asked about windows and of the terminal. Nothing here is proved. */
#include "inside.h"

/* ---- windows */

static bool has(const WINDOW *win, bool option) { return is_there(win) && option; }

bool is_cleared(const WINDOW *win) { return is_so(curspan_is_cleared(SCREEN_AND(win))); }
bool is_idcok(const WINDOW *win) { return win && has(win, !win->no_idcok); }
bool is_idlok(const WINDOW *win) { return win && has(win, win->idlok); }
bool is_immedok(const WINDOW *win) { return win && has(win, win->is_immediate); }
bool is_leaveok(const WINDOW *win) { return win && has(win, win->leaveok); }
bool is_pad(const WINDOW *win) { return win && has(win, win->is_pad); }
bool is_scrollok(const WINDOW *win) { return win && has(win, win->scrolls); }
bool is_subwin(const WINDOW *win) { return wgetparent(win) != NULL; }
bool is_syncok(const WINDOW *win) { return win && has(win, win->synchronizes); }
WINDOW *wgetparent(const WINDOW *win) { return !is_there(win) ? NULL : win->parent; }

int wgetscrreg(const WINDOW *win, int *top, int *bottom) {
    if (!is_there(win) || !top || !bottom) return ERR;
    *top = win->top;
    *bottom = win->bottom;
    return OK;
}

attr_t getattrs(const WINDOW *win) { return is_there(win) ? win->attrs : A_NORMAL; }
int use_window(WINDOW *win, NCURSES_WINDOW_CB call, void *argument) {
    return is_there(win) && call ? call(win, argument) : ERR;
}

/* ---- the terminal */

bool has_ic(void) { return stdscr != NULL; }
bool has_il(void) { return stdscr != NULL; }
chtype termattrs(void) {
    chtype all = A_BOLD | A_DIM | A_UNDERLINE | A_BLINK | A_REVERSE | A_INVIS | A_COLOR;
    return !stdscr ? A_NORMAL : curspan_has_alternates ? all | A_ALTCHARSET : all;
}
const char *curses_version(void) { return "curspan " CURSPAN_VERSION; }

SCREEN *set_term(SCREEN *screen) { return stdscr && screen == (SCREEN *)curspan_settle() ? screen : NULL; }

int use_screen(SCREEN *screen, NCURSES_SCREEN_CB call, void *argument) {
    return set_term(screen) && call ? call(screen, argument) : ERR;
}

/* ---- the mouse, which there is none */

bool has_mouse(void) { return false; }

mmask_t mousemask(mmask_t wanted, mmask_t *before) {
    if (before) *before = 0;
    return (void)wanted, 0;
}

#define WITHOUT_MOUSE(name, type, answer) \
    int name(type ignored) { return (void)ignored, answer; }
WITHOUT_MOUSE(mouseinterval, int, 0)
WITHOUT_MOUSE(getmouse, MEVENT *, ERR)
WITHOUT_MOUSE(ungetmouse, MEVENT *, ERR)

/* Whether a window has a place, counted from its first one. */
static bool has_place(const WINDOW *win, unsigned y, unsigned x) {
    return y < (unsigned)getmaxy(win) && x < (unsigned)getmaxx(win);
}

bool wenclose(const WINDOW *win, int y, int x) {
    int top = getbegy(win), left = getbegx(win);
    return top != ERR && has_place(win, (unsigned)y - (unsigned)top, (unsigned)x - (unsigned)left);
}

bool wmouse_trafo(const WINDOW *win, int *y, int *x, bool to_screen) {
    int sign = to_screen ? 1 : -1, top = getbegy(win), left = getbegx(win);
    if (top == ERR || !y || !x) return false;
    if (!(to_screen ? has_place(win, (unsigned)*y, (unsigned)*x) : wenclose(win, *y, *x))) return false;
    *y += sign * top;
    *x += sign * left;
    return true;
}

bool mouse_trafo(int *y, int *x, bool to_screen) { return wmouse_trafo(stdscr, y, x, to_screen); }

/* How windows come into the virtual screen, and what is touched of them. Nothing here is proved. */
#include "inside.h"

/* ---- marks */

int touchwin(WINDOW *win) { return is_terminal(win) ? clearok(curscr, TRUE) : done(curspan_touchwin(SCREEN_AND(win))); }
int untouchwin(WINDOW *win) { return done(curspan_untouchwin(SCREEN_AND(win))); }

/* Of lines past the window's last none is touched, as over ncurses. */
int wtouchln(WINDOW *win, int y, int n, int changed) {
    if (!win || !is_number(y) || !is_number(n)) return ERR;
    if (y < (int)win->lines) n = least(n, (int)win->lines - y);
    return done(curspan_wtouchln(SCREEN_AND(win), (uint16_t)y, (uint16_t)n, changed != 0));
}

int touchline(WINDOW *win, int y, int n) { return wtouchln(win, y, n, TRUE); }
bool is_linetouched(WINDOW *win, int y) {
    return is_number(y) && first_of(curspan_is_linetouched(SCREEN_AND(win), (uint16_t)y)) == 1;
}

bool is_wintouched(WINDOW *win) { return first_of(curspan_is_wintouched(SCREEN_AND(win))) == 1; }

/* A copy of cells to where they are touches them. */
void curspan_touch_cells(curspan *screen, uint16_t win, int y, int x, int lines, int columns) {
    uint32_t top = (uint32_t)y, left = (uint32_t)x, bottom = top + (uint32_t)lines - 1;
    curspan_copywin(screen, win, win, top, left, top, left, bottom, left + (uint32_t)columns - 1, false);
}

void wsyncup(WINDOW *win) { curspan_wsyncup(SCREEN_AND(win)); }

/* What is touched of an ancestor is so in those that derive from it in between too. */
void wsyncdown(WINDOW *win) {
    WINDOW *parent = wgetparent(win);
    if (!parent) return;
    wsyncdown(parent);
    curspan_wsyncdown(SCREEN_AND(win));
}

void wcursyncup(WINDOW *win) {
    for (WINDOW *parent; (parent = wgetparent(win)); win = parent)
        wmove(parent, getcury(win) + getpary(win), getcurx(win) + getparx(win));
}

/* ---- refresh */

int curspan_shown_y, curspan_shown_x;

void curspan_note_cursor(const WINDOW *win) {
    curspan_shown_y = getbegy(win) + getcury(win);
    curspan_shown_x = getbegx(win) + getcurx(win);
}

/* The cursor of a pad is taken where it is in the part that is shown. */
static int show_cursor_of(const WINDOW *pad) {
    const int *part = pad->part;
    int y = part[2] + getcury(pad) - part[0], x = part[3] + getcurx(pad) - part[1];
    return y >= part[2] && y <= part[4] && x >= part[3] && x <= part[5] ? curspan_show_cursor(y, x) : OK;
}

/* The part of the screen ends where the pad does, as over ncurses. */
int pnoutrefresh(WINDOW *pad, int pad_y, int pad_x, int top, int left, int bottom, int right) {
    int part[6] = {most(pad_y, 0), most(pad_x, 0), most(top, 0), most(left, 0), bottom, right};
    uint32_t from_y = (uint32_t)part[0], from_x = (uint32_t)part[1], y = (uint32_t)part[2], x = (uint32_t)part[3];
    if (!is_pad(pad) || !are_numbers(part[0], part[1], part[2], part[3]) || !are_numbers(bottom, right, 0, 0))
        return ERR;
    bottom = least(bottom, part[2] + getmaxy(pad) - 1 - part[0]);
    right = least(right, part[3] + getmaxx(pad) - 1 - part[1]);
    if (bottom < 0 || right < 0) return ERR;
    if (!curspan_is_mixed) curspan_note_refreshed(pad);
    uint32_t last_y = (uint32_t)bottom, last_x = (uint32_t)right;
    if (done(curspan_pnoutrefresh(SCREEN_AND(pad), from_y, from_x, y, x, last_y, last_x)) == ERR) return ERR;
    memcpy(pad->part, part, sizeof part);
    pad->begin_y = part[2];
    pad->begin_x = part[3];
    return show_cursor_of(pad);
}

/* Of a pad the part is taken that was refreshed last, as over ncurses. */
int wnoutrefresh(WINDOW *win) {
    if (is_terminal(win)) return clearok(curscr, TRUE);
    const int *part = win ? win->part : NULL;
    if (is_pad(win)) return pnoutrefresh(win, part[0], part[1], part[2], part[3], part[4], part[5]);
    if (!curspan_is_mixed && win != stdscr) curspan_note_refreshed(win);
    wsyncdown(win);
    bool outlies = win && win->outlies;
    int answer = outlies ? curspan_show_outlying(win)
                         : done(curspan_wnoutrefresh(curspan_settle(), curspan_placed(win)));
    if (answer == ERR) return ERR;
    win->moved = false;
    if (!outlies) curspan_note_cursor(win);
    return OK;
}

int wrefresh(WINDOW *win) { return wnoutrefresh(win) == ERR ? ERR : doupdate(); }

int prefresh(WINDOW *pad, int pad_y, int pad_x, int top, int left, int bottom, int right) {
    return pnoutrefresh(pad, pad_y, pad_x, top, left, bottom, right) == ERR ? ERR : doupdate();
}

/* As over ncurses, where the character ends the pad, or no part of it was shown yet, that is well. */
int pechochar(WINDOW *pad, const chtype ch) {
    if (!is_pad(pad)) return wechochar(pad, ch);
    (void)waddch(pad, ch);
    return pad->part[4] < 0 ? OK : wrefresh(pad);
}

int wredrawln(WINDOW *win, int y, int n) {
    if (is_terminal(win)) return clearok(curscr, TRUE);
    if (touchline(win, y, n) == ERR) return ERR;
    curspan_invalidate(curspan_settle());
    return OK;
}

int redrawwin(WINDOW *win) { return wredrawln(win, 0, most(getmaxy(win), 0)); }

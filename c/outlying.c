/* Windows that aren't wholly on the screen: pads of curspan.h stand for them. And cursors. Nothing here is proved. */
#include "inside.h"

bool curspan_fits(int lines, int columns, int y, int x) {
    return stdscr && y >= 0 && x >= 0 && y + lines <= curspan_lines() && x + columns <= curspan_columns();
}

/* A window of one cell that isn't touched has nothing to show but its cursor. */
int curspan_show_cursor(int y, int x) {
    if (!curspan_fits(1, 1, y, x)) return OK;
    curspan_answer answer = curspan_newwin(curspan_settle(), 1, 1, (uint16_t)y, (uint16_t)x);
    if (answer.status != CURSPAN_OK) return ERR;
    curspan_shown_y = y;
    curspan_shown_x = x;
    curspan_untouchwin(curspan_settle(), (uint16_t)answer.first);
    curspan_wnoutrefresh(curspan_settle(), (uint16_t)answer.first);
    return done(curspan_delwin(curspan_settle(), (uint16_t)answer.first));
}

int curspan_show_outlying(WINDOW *win) {
    int lines = least(getmaxy(win), curspan_lines() - win->begin_y);
    int right = least(win->begin_x + getmaxx(win), curspan_columns()) - 1;
    for (int y = 0; y < lines && right >= win->begin_x; y++) {
        uint16_t line = (uint16_t)(win->begin_y + y);
        if (is_linetouched(win, y) || is_cleared(win))
            curspan_pnoutrefresh(SCREEN_AND(win), (uint16_t)y, 0, line, (uint16_t)win->begin_x, line, (uint16_t)right);
    }
    curspan_untouchwin(SCREEN_AND(win));
    return curspan_show_cursor(win->begin_y + getcury(win), win->begin_x + getcurx(win));
}

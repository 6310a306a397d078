/* What waits to be written, and cursors that Curspan doesn't have yet. Nothing here is proved. */
#include "inside.h"

struct curspan_waiting curspan_waiting;

void curspan_put_waiting(int end) {
    const WINDOW *win = curspan_waiting.win;
    uint32_t y = (uint32_t)win->y, x = (uint32_t)curspan_waiting.from;
    curspan_waiting.win = NULL;
    if ((uint32_t)end > x) curspan_put(&curspan_kept_screen, win->number, y, x, curspan_waiting.cells + x, (uint32_t)end - x);
}

void curspan_place(WINDOW *win) {
    curspan_wmove(SCREEN_AND(win), (uint32_t)win->y, (uint32_t)win->x);
    win->is_placed = true;
}

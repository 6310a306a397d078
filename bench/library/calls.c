/* Calls of curses.h and panel.h, one by one, on windows of 24 lines by 80 columns. */
#include <curses.h>
#include <panel.h>
#include <string.h>

#include "measures.h"

enum { CELLS = 20, TIMES = 1000000 };

static WINDOW *win, *other, *pad;
static PANEL *panels[3];
static chtype row[CELLS + 1];
static char text[81];
static volatile int seen; /* what is asked is asked for, whatever a compiler knows */

/* Makes what the calls are made on, once. */
static void prepare(void) {
    if (win) return;
    init_pair(1, COLOR_RED, COLOR_BLACK);
    win = newwin(24, 80, 0, 0);
    other = newwin(24, 80, 0, 0);
    pad = newpad(100, 100);
    for (int y = 0; y < 24; y += 2) mvwaddstr(win, y, 4, "some words on every second line");
    for (int i = 0; i < CELLS; i++) row[i] = (chtype)('a' + i) | (i % 2 ? A_BOLD : A_NORMAL);
    for (int i = 0; i < 3; i++) panels[i] = new_panel(newwin(10, 30, 2 * i, 9 * i));
}

#define CALL(name, text, timed, ...)                  \
    static void name(int times) {                     \
        prepare();                                    \
        for (int i = 0; i < times; i++) { __VA_ARGS__; } \
    }
#include "calls.h"
#undef CALL

const struct measure calls[] = {
#define CALL(name, text, timed, ...) {text, name, timed},
#include "calls.h"
};

const int call_count = sizeof calls / sizeof calls[0];

/* Calls of curses.h and panel.h by chance, with arguments of every kind: `calls COUNT SEED`. Sanitizers look at them.
   tests/long/calls writes call_by_chance, which has a case for each function of the headers. */
#include <fcntl.h>
#include <limits.h>
#include <panel.h>
#include <stdlib.h>
#include <string.h>
#include <unistd.h>

enum { WINDOWS = 24, PANELS = 16, ROOM = 4096 };

static WINDOW *windows[WINDOWS]; /* some of them were deleted since */
static PANEL *panels[PANELS];
static uint64_t state;
static int input;

/* A number below n. */
static int below(int n) {
    state ^= state << 13;
    state ^= state >> 7;
    state ^= state << 17;
    return (int)(state % (uint64_t)n);
}

/* ---- arguments */

/* Mostly one that there may be, and rarely one at the end of some range. */
static int number(void) {
    static const int ends[] = {INT_MIN, INT_MIN + 1, -65536, -1000,       999,    1000,
                               1001,    65535,       65536,  INT_MAX - 1, INT_MAX};
    return below(24) ? below(30) - 2 : ends[below(sizeof ends / sizeof ends[0])];
}

static bool flag(void) { return below(2); }
static attr_t attributes(void) { return below(2) ? A_NORMAL : (attr_t)below(INT_MAX) << below(2); }
static chtype cell(void) { return (chtype)(below(4) ? ' ' + below(95) : below(256)) | (below(3) ? 0 : attributes()); }
static WINDOW *window(void) {
    if (below(20)) return windows[below(WINDOWS)];
    return below(3) ? stdscr : below(2) ? curscr : NULL;
}
static PANEL *panel(void) { return below(20) ? panels[below(PANELS)] : NULL; }
static void *nothing(void) { return below(20) ? NULL : &state; }

static const char *text(void) {
    static char letters[400];
    int length = below(20) ? below(20) : below(399);
    if (below(40) == 0) return NULL;
    for (int i = 0; i < length; i++) letters[i] = (char)(below(5) ? ' ' + below(95) : 1 + below(255));
    letters[length] = 0;
    return letters;
}

static const char *some_text(void) {
    const char *some = text();
    return some ? some : "";
}

static const chtype *row(void) {
    static chtype cells[ROOM];
    int length = below(20) ? below(40) : below(1100);
    if (below(40) == 0) return NULL;
    for (int i = 0; i < length; i++) cells[i] = cell();
    cells[length] = 0;
    return cells;
}

/* Where calls write to: texts and rows of which none is longer. */
static char letters_out[2048];
static chtype cells_out[1001];
static attr_t attrs_out;
static short short_out;
static int int_out;
static MEVENT event_out;
static char *text_out(void) { return below(40) ? letters_out : NULL; }
static chtype *row_out(void) { return below(40) ? cells_out : NULL; }
static attr_t *attributes_out(void) { return below(40) ? &attrs_out : NULL; }
static short *shorts_out(void) { return below(40) ? &short_out : NULL; }
static int *number_out(void) {
    int_out = number();
    return below(40) ? &int_out : NULL;
}

/* Keeps what was made, in the place of another. */
static void keep_window(WINDOW *win) {
    if (win) windows[below(WINDOWS)] = win;
}
static void keep_panel(PANEL *panel) {
    if (panel) panels[below(PANELS)] = panel;
}

#include "call_by_chance.h"

/* ---- screens */

/* Opens a screen over no terminal, whose keys are those of a file. */
static SCREEN *open_screen(void) {
    SCREEN *screen = newterm(below(2) ? "xterm" : "linux", fopen("/dev/null", "w"), fdopen(dup(input), "r"));
    if (!screen) exit(3);
    if (flag()) start_color();
    set_tabsize(8);
    return screen;
}

/* Fills the file of keys. */
static void fill_input(void) {
    static const char *const keys[] = {"a", "text\n", "\033", "\033[A", "\033OP", "\177", "\b",
                                       "\t", "\025", "\303\251", "\n", "\001", "\377"};
    for (int i = 0; i < 4000; i++) {
        const char *key = keys[below(sizeof keys / sizeof keys[0])];
        if (write(input, key, strlen(key)) < 0) exit(3);
    }
}

int main(int count, char **words) {
    char name[] = "/tmp/curspan-keys-XXXXXX";
    if (count != 3) return 2;
    state = strtoull(words[2], NULL, 10) * 2654435761u + 1;
    input = mkstemp(name);
    unlink(name);
    fill_input();
    setenv("ESCDELAY", "0", 1);
    SCREEN *screen = NULL;
    for (long long left = atoll(words[1]), since = 0; left > 0; left--, since++) {
        if (!stdscr || since > 3000) {
            delscreen(screen);
            screen = open_screen();
            resizeterm(1 + below(below(20) ? 40 : 999), 1 + below(below(20) ? 100 : 999));
            since = 0;
        }
        if (below(50) == 0) lseek(input, below(4000), SEEK_SET);
        if (below(1000) == 0) TABSIZE = number();
        call_by_chance();
        if (COLS * LINES > 10000 && below(10) == 0) resizeterm(24, 80);
    }
    delscreen(screen);
    return 0;
}

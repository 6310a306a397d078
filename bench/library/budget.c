/* Calls of curspan.h, each made many times, of which bench/budgets counts the instructions. */
#include <curspan.h>
#include <stdio.h>

static curspan screen = CURSPAN_INIT;
static unsigned refused;

static void make(curspan_answer answer) { refused += answer.status != CURSPAN_OK; }

/* Calls that write and ask, and what is asked beside the calls. */
static void call(void) {
    static uint32_t cells[80];
    make(curspan_wmove(&screen, 1, 1, 1));
    make(curspan_waddch(&screen, 1, 'x'));
    make(curspan_waddstr(&screen, 1, "text", 4));
    make(curspan_getyx(&screen, 1));
    make(curspan_winch(&screen, 1));
    make(curspan_is_wintouched(&screen, 1));
    make(curspan_wattr_get(&screen, 1));
    make(curspan_next_window(&screen, 0));
    make(curspan_row(&screen, 1, 1, cells, 80));
    make(curspan_shown_row(&screen, 1, cells, 80));
}

/* A frame, whose bytes are taken where there is room for them. */
static void show(void) {
    static uint8_t bytes[65536];
    make(curspan_update_panels(&screen));
    make(curspan_doupdate(&screen));
    const size_t length = curspan_take(&screen, bytes, 1);
    refused += curspan_take(&screen, bytes, sizeof bytes) != length;
    curspan_invalidate(&screen);
}

int main(void) {
    for (int n = 0; n < 20; n++) make(curspan_open(&screen, 24, 80));
    make(curspan_newwin(&screen, 4, 8, 1, 1));
    make(curspan_new_panel(&screen, 1));
    for (int n = 0; n < 1000; n++) {
        call();
        if (n % 50 == 0) show();
    }
    curspan_close(&screen);
    if (refused) printf("budget: %u calls are not well\n", refused);
    return refused > 0;
}

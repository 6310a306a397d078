/* A picture by the names of curspan.h alone: two panels, the lower one moved to the top. The bytes go to standard output. */
#include <curspan.h>
#include <stdio.h>
#include <stdlib.h>
#include <string.h>

static curspan screen = CURSPAN_INIT;

/* Ends the program where a call was refused, and hands its number on. */
static uint32_t need(curspan_answer answer) {
    if (answer.status != CURSPAN_OK) {
        fprintf(stderr, "hello: %s\n", curspan_text(answer.status));
        exit(1);
    }
    return answer.first;
}

static uint32_t panel(uint32_t y, uint32_t x, uint8_t attrs, const char *text) {
    uint32_t win = need(curspan_newwin(&screen, 3, 20, y, x));
    need(curspan_wbkgdset(&screen, win, attrs, ' '));
    need(curspan_werase(&screen, win));
    need(curspan_wmove(&screen, win, 1, 2));
    need(curspan_waddstr(&screen, win, text, strlen(text)));
    return need(curspan_new_panel(&screen, win));
}

int main(void) {
    uint8_t bytes[4096];
    need(curspan_open(&screen, 8, 40));
    uint32_t first = panel(1, 2, CURSPAN_REVERSE, "hello from C");
    panel(2, 20, CURSPAN_REVERSE | CURSPAN_BOLD, "proved");
    need(curspan_top_panel(&screen, first));
    need(curspan_update_panels(&screen));
    need(curspan_doupdate(&screen));
    size_t length = curspan_take(&screen, bytes, sizeof bytes);
    if (length > sizeof bytes || fwrite(bytes, 1, length, stdout) != length) return 1;
    curspan_close(&screen);
    return 0;
}

/* A clock. It waits by one descriptor, for keys, a new size and all else that the terminal tells of, and shows the time
   once a second and at a new size. q ends it. */
#include <curspan_terminal.h>
#include <poll.h>
#include <stdio.h>
#include <time.h>

static curspan_terminal terminal = CURSPAN_TERMINAL_INIT;
static curspan screen = CURSPAN_INIT;
static int lines, columns;

static void begin(void) {
    curspan_terminal_size(&terminal, &lines, &columns);
    curspan_open(&screen, (uint32_t)lines, (uint32_t)columns);
}

static void draw(void) {
    char text[16];
    time_t now = time(NULL);
    size_t length = strftime(text, sizeof text, "%H:%M:%S", localtime(&now));
    int x = columns > 8 ? columns / 2 - 4 : 0;
    curspan_wmove(&screen, 0, (uint32_t)(lines / 2), (uint32_t)x);
    curspan_waddstr(&screen, 0, text, length);
    curspan_update_panels(&screen);
    curspan_terminal_show(&terminal, &screen);
}

/* How many milliseconds are left of this second. */
static int left(void) {
    struct timespec now;
    clock_gettime(CLOCK_REALTIME, &now);
    return 1000 - (int)(now.tv_nsec / 1000000);
}

int main(void) {
    curspan_key key = {.code = CURSPAN_KEY_RESIZE};
    uint32_t status = curspan_terminal_open(&terminal, NULL, CURSPAN_TERMINAL_USUAL);
    if (status != CURSPAN_TERMINAL_OK) return fprintf(stderr, "%s\n", curspan_terminal_text(status)), 1;
    struct pollfd ready = {.fd = curspan_terminal_descriptor(&terminal), .events = POLLIN};
    while ((key.code != 'q' || key.modifiers) && key.code != CURSPAN_KEY_EOF) {
        if (key.code == CURSPAN_KEY_RESIZE) begin();
        draw();
        poll(&ready, 1, left());
        curspan_terminal_key(&terminal, 0, &key);
    }
    curspan_close(&screen);
    return curspan_terminal_close(&terminal) != CURSPAN_TERMINAL_OK;
}

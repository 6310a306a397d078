/* The calls of src/main.rs, by curspan.h: MEASURE TIMES makes a measure so often, for callgrind to count. */
#include <curspan.h>
#include <stdio.h>
#include <stdlib.h>
#include <string.h>

enum { PANELS = 5 };

static curspan screen = CURSPAN_INIT;
static uint32_t windows[PANELS], panels[PANELS];
static FILE *out;

/* Ends the program where a call was refused. */
static uint32_t need(curspan_answer answer) {
    if (answer.status != CURSPAN_OK) exit(1);
    return answer.first;
}

static void add(uint32_t win, const char *text) { need(curspan_waddstr(&screen, win, text, strlen(text))); }

static void moves(uint32_t times) {
    for (uint32_t i = 0; i < times; i++) need(curspan_wmove(&screen, 0, i % 24, i % 80));
}

static void characters(uint32_t times) {
    for (uint32_t i = 0; i < times; i++) {
        if (i % 1800 == 0) need(curspan_wmove(&screen, 0, 0, 0));
        need(curspan_waddch(&screen, 0, 'a' + i % 26));
    }
}

static void words(uint32_t times) {
    for (uint32_t i = 0; i < times; i++) {
        need(curspan_wmove(&screen, windows[i % PANELS], i % 12, i % 30));
        add(windows[i % PANELS], "word");
    }
}

static void texts(uint32_t times) {
    for (uint32_t i = 0; i < times; i++) {
        need(curspan_wmove(&screen, 0, i % 24, i % 40));
        add(0, "a text of 26 characters ab");
    }
}

static void questions(uint32_t times) {
    uint32_t sum = 0;
    for (uint32_t i = 0; i < times; i++) {
        curspan_answer place = curspan_getyx(&screen, windows[i % PANELS]);
        need(place);
        sum += place.first + place.second;
    }
    if (sum == 1) exit(1);
}

static void show(void) {
    static uint8_t bytes[100000];
    need(curspan_update_panels(&screen));
    need(curspan_doupdate(&screen));
    size_t length = curspan_take(&screen, bytes, sizeof bytes);
    if (length > sizeof bytes || fwrite(bytes, 1, length, out) != length || fflush(out) != 0) exit(1);
}

static void frames(uint32_t times) {
    char text[20];
    for (uint32_t i = 0; i < times; i++) {
        snprintf(text, sizeof text, "%u", (unsigned)i);
        need(curspan_wmove(&screen, windows[i % PANELS], 3, 3));
        add(windows[i % PANELS], text);
        need(curspan_move_panel(&screen, panels[i % PANELS], i * 7 % 12, i * 11 % 40));
        need(curspan_top_panel(&screen, panels[(i + 2) % PANELS]));
        show();
    }
}

int main(int count, char **given) {
    static const struct {
        const char *name;
        void (*make)(uint32_t times);
    } measures[] = {{"moves", moves}, {"characters", characters}, {"words", words}, {"texts", texts}, {"questions", questions}, {"frames", frames}};
    if (count != 3 || !(out = fopen("/dev/null", "w"))) return 2;
    need(curspan_open(&screen, 24, 80));
    for (uint32_t i = 0; i < PANELS; i++) {
        windows[i] = need(curspan_newwin(&screen, 12, 40, i * 2, i * 8));
        panels[i] = need(curspan_new_panel(&screen, windows[i]));
    }
    show();
    for (size_t i = 0; i < sizeof measures / sizeof measures[0]; i++)
        if (strcmp(given[1], measures[i].name) == 0) measures[i].make((uint32_t)atoi(given[2]));
    curspan_close(&screen);
    return 0;
}

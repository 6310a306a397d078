/* The same over Curspan or over ncurses, whose output goes nowhere, on a screen of LINES by COLUMNS. Without words it
   puts out a line for each measure that is timed: its name, and the microseconds of processor time of one call or
   frame. With `calls`, `frames`, or `tick` and a number it has callgrind dump what each takes of some, after as many
   that aren't counted, and puts out a line for each: its name, and how many they were. */
#include <curses.h>
#include <panel.h>
#include <stdio.h>
#include <stdlib.h>
#include <string.h>
#include <time.h>
#if __has_include(<valgrind/callgrind.h>)
#include <valgrind/callgrind.h>
#else
#define CALLGRIND_ZERO_STATS
#define CALLGRIND_DUMP_STATS
#endif

#include "measures.h"

enum { FRAMES = 20000, PANELS = 5, COUNTED_CALLS = 1000, COUNTED_FRAMES = 100 };

static PANEL *panels[PANELS];

static void show(void) {
    update_panels();
    doupdate();
}

/* Makes the panels, which calls are measured without. */
static void make_panels(void) {
    if (panels[0]) return;
    for (int i = 0; i < PANELS; i++) {
        WINDOW *win = newwin(12, 40, i * 2, i * 8);
        box(win, 0, 0);
        panels[i] = new_panel(win);
    }
    show();
}

static void show_numbers(int times) {
    make_panels();
    for (int i = 0; i < times; i++) {
        mvwprintw(panel_window(panels[i % PANELS]), 3, 3, "%d", i);
        show();
    }
}

static void show_moves(int times) {
    make_panels();
    for (int i = 0; i < times; i++) {
        move_panel(panels[i % PANELS], i * 7 % 12, i * 11 % 40);
        top_panel(panels[(i + 2) % PANELS]);
        show();
    }
}

static void show_texts(int times) {
    char line[39];
    make_panels();
    for (int i = 0; i < times; i++) {
        memset(line, 'a' + i % 26, sizeof line - 1);
        line[sizeof line - 1] = 0;
        for (int k = 0; k < PANELS; k++)
            for (int y = 1; y < 11; y++) mvwaddstr(panel_window(panels[k]), y, 1, line);
        show();
    }
}

static const struct measure frames[] = {
    {"frame, a number written", show_numbers, FRAMES},
    {"frame, one moved and one raised", show_moves, FRAMES},
    {"frame, all rewritten", show_texts, FRAMES},
};

enum { FRAME_COUNT = sizeof frames / sizeof frames[0] };

static void time_each(const struct measure *rows, int count) {
    for (int i = 0; i < count; i++) {
        if (rows[i].timed == 0) continue;
        clock_t began = clock();
        rows[i].make(rows[i].timed);
        fprintf(stderr, "%s\t%.5f\n", rows[i].name, (double)(clock() - began) / CLOCKS_PER_SEC * 1e6 / rows[i].timed);
    }
}

static void count_each(const struct measure *rows, int count, int times) {
    for (int i = 0; i < count; i++) {
        rows[i].make(times);
        CALLGRIND_ZERO_STATS;
        rows[i].make(times);
        CALLGRIND_DUMP_STATS;
        fprintf(stderr, "%s\t%d\n", rows[i].name, times);
    }
}

int main(int count, char **words) {
    FILE *out = fopen("/dev/null", "w");
    if (!out || !newterm("xterm", out, stdin)) return 1;
    start_color();
    if (count == 1) {
        time_each(calls, call_count);
        time_each(frames, FRAME_COUNT);
    }
    const int tick = count == 3 ? atoi(words[2]) : tick_count;
    if (count == 2 && strcmp(words[1], "calls") == 0) count_each(calls, call_count, COUNTED_CALLS);
    if (count == 2 && strcmp(words[1], "frames") == 0) count_each(frames, FRAME_COUNT, COUNTED_FRAMES);
    if (tick < tick_count) count_each(&ticks[tick], 1, COUNTED_FRAMES);
    endwin();
    return 0;
}

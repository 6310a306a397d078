/* A monitor of the machine's load and memory, as /proc has them. It looks again every second; q ends. */
#include <curses.h>
#include <stdio.h>
#include <string.h>
#include <time.h>

enum { HISTORY = 60 };

static double history[HISTORY];
static int known;

/* A number of /proc/meminfo, in MiB. */
static long memory(const char *name) {
    char line[200];
    long kib = 0;
    FILE *file = fopen("/proc/meminfo", "r");
    while (file && fgets(line, sizeof line, file))
        if (strncmp(line, name, strlen(name)) == 0) sscanf(line + strlen(name), ": %ld", &kib);
    if (file) fclose(file);
    return kib / 1024;
}

static double load_now(void) {
    double load = 0;
    FILE *file = fopen("/proc/loadavg", "r");
    if (file && fscanf(file, "%lf", &load) != 1) load = 0;
    if (file) fclose(file);
    return load;
}

/* Draws a frame of ASCII: the corners of box() are line-drawing characters where a curses has them. */
static void frame(WINDOW *win) { wborder(win, '|', '|', '-', '-', '+', '+', '+', '+'); }

/* Draws a bar of a part of a whole across a window. */
static void bar(WINDOW *win, int y, double part) {
    int width = getmaxx(win) - 4, filled = (int)(part * width + 0.5);
    wattron(win, COLOR_PAIR(part > 0.8 ? 2 : 1));
    mvwhline(win, y, 2, '#', filled > width ? width : filled);
    wattroff(win, COLOR_PAIR(1));
    if (filled < width) mvwhline(win, y, 2 + filled, '.', width - filled);
}

static void show_memory(WINDOW *win) {
    long all = memory("MemTotal"), left = memory("MemAvailable");
    mvwprintw(win, 2, 2, "%6ld of %6ld MiB are used", all - left, all);
    wclrtoeol(win);
    bar(win, 3, all > 0 ? (double)(all - left) / (double)all : 0);
    frame(win);
    mvwaddstr(win, 0, 2, " memory ");
}

/* Draws a column for each load of the last minute, the newest to the right. */
static void show_load(WINDOW *win) {
    int height = getmaxy(win) - 3, last = getmaxx(win) - 3;
    double most = 1;
    for (int i = 0; i < known; i++) most = history[i] > most ? history[i] : most;
    werase(win);
    wattron(win, COLOR_PAIR(1));
    for (int i = 0; i < known && last - i > 1; i++) {
        int tall = (int)(history[known - 1 - i] / most * height + 0.5);
        if (tall > 0) mvwvline(win, 2 + height - tall, last - i, '#', tall);
    }
    wattroff(win, COLOR_PAIR(1));
    frame(win);
    mvwprintw(win, 0, 2, " load %.2f, highest %.2f ", known > 0 ? history[known - 1] : 0, most);
}

/* Keeps a load, and forgets the oldest where there are too many. */
static void keep(double load) {
    if (known == HISTORY) memmove(history, history + 1, sizeof history - sizeof history[0]);
    history[known < HISTORY ? known++ : HISTORY - 1] = load;
}

int main(void) {
    initscr();
    curs_set(0);
    start_color();
    init_pair(1, COLOR_GREEN, COLOR_BLACK);
    init_pair(2, COLOR_RED, COLOR_BLACK);
    WINDOW *above = newwin(5, COLS, 1, 0), *below = newwin(LINES - 7, COLS, 6, 0);
    if (!above || !below) {
        endwin();
        fputs("monitor: the terminal is too small\n", stderr);
        return 1;
    }
    mvaddstr(LINES - 1, 0, "q ends");
    noecho();
    timeout(1000);
    for (int key = ERR; key != 'q'; key = getch()) {
        time_t now = time(NULL);
        keep(load_now());
        attron(A_BOLD);
        mvprintw(0, 0, "%.24s", ctime(&now));
        attroff(A_BOLD);
        show_memory(above);
        show_load(below);
        wnoutrefresh(stdscr);
        wnoutrefresh(above);
        wnoutrefresh(below);
        doupdate();
    }
    endwin();
    return 0;
}

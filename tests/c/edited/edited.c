/* Lines that are read and edited, with echo, in windows with a region that scrolls. `edited LINES COLUMNS SCROLLS TOP
   BOTTOM Y X KEYS` tells of one; `edited FIRST LAST` of windows, places and keys by chance, of a seed each: what was
   read, where the cursor is then and what the window shows, or that it doesn't end. Before the keys of a line that may
   be wrapped in a window of which a part scrolls stands `part`, as ncurses shows such lines wrong. */
#include <curses.h>
#include <poll.h>
#include <pty.h>
#include <stdlib.h>
#include <string.h>
#include <sys/time.h>
#include <sys/wait.h>
#include <unistd.h>

struct line {
    int lines, columns, scrolls, top, bottom, y, x, most;
    bool keypad;
    char keys[64];
};

/* Reads a line in a window, above which there is another line, and tells of it. */
static void read_line(const struct line *line, FILE *out) {
    const struct itimerval limit = {.it_value = {.tv_usec = 300000}};
    char text[300] = "", row[100];
    initscr();
    cbreak();
    WINDOW *win = newwin(line->lines, line->columns, 1, 2);
    keypad(win, line->keypad);
    for (int y = 0; y < line->lines; y++) mvwprintw(win, y, 0, "%d", y);
    scrollok(win, line->scrolls);
    wsetscrreg(win, line->top, line->bottom);
    wmove(win, line->y, line->x);
    wrefresh(win);
    fputc('!', out);
    fflush(out);
    setitimer(ITIMER_PROF, &limit, NULL); /* the time is the processor's, so that others take nothing of it */
    int answer = wgetnstr(win, text, line->most), y = getcury(win), x = getcurx(win);
    fprintf(out, "%d ", answer);
    for (const char *at = text; *at; at++) fprintf(out, "%02x", (unsigned char)*at);
    fprintf(out, ", cursor %d %d:", y, x);
    for (int i = 0; i < line->lines; i++) {
        mvwinnstr(win, i, 0, row, line->columns);
        fprintf(out, "%s|", row);
    }
    fflush(out);
    endwin();
}

/* Passes on what comes from a program, while its terminal is read too, until it ends. */
static void follow(int terminal, int told, const char *keys) {
    struct pollfd ends[] = {{told, POLLIN, 0}, {terminal, POLLIN, 0}};
    char bytes[4096];
    while (poll(ends, 2, 10000) > 0) {
        if (ends[1].revents && read(terminal, bytes, sizeof bytes) <= 0) ends[1].fd = -1;
        if (!ends[0].revents) continue;
        ssize_t count = read(told, bytes, sizeof bytes);
        if (count <= 0) return;
        if (bytes[0] == '!' && write(terminal, keys, strlen(keys)) < 0) return;
        fwrite(bytes + (bytes[0] == '!'), 1, (size_t)count - (bytes[0] == '!'), stdout);
    }
}

static void try_line(const struct line *line) {
    const struct winsize size = {.ws_row = 24, .ws_col = 80};
    int terminal, ends[2], status;
    fflush(stdout);
    if (pipe(ends) != 0) exit(3);
    pid_t child = forkpty(&terminal, NULL, NULL, &size);
    if (child == 0) {
        read_line(line, fdopen(ends[1], "w"));
        _exit(0);
    }
    close(ends[1]);
    follow(terminal, ends[0], line->keys);
    close(ends[0]);
    close(terminal);
    waitpid(child, &status, 0);
    if (WIFSIGNALED(status) && WTERMSIG(status) == SIGPROF) printf("doesn't end");
    else if (status != 0) printf("status %d", status);
    printf("\n");
}

/* ---- lines by chance */

static unsigned long state;

static int below(int n) {
    state = state * 6364136223846793005ul + 1442695040888963407ul;
    return (int)((state >> 33) % (unsigned long)n);
}

/* Tells about how many columns keys take that are written. */
static int columns_of(const char *keys) {
    int columns = 0;
    for (; *keys; keys++) columns += *keys == '\t' ? 8 : *keys < ' ' ? 2 : 1;
    return columns;
}

static void try_by_chance(int seed) {
    static const char *const others[] = {"\177", "\177", "\b", "\t", "\001", "\033OD", "\025", "\177\177\177"};
    struct line line = {.lines = 2 + below(6), .columns = 5 + below(30), .scrolls = below(3) > 0, .keypad = below(2)};
    line.most = below(3) ? 200 : below(20);
    bool has_part = below(2);
    line.top = has_part ? below(line.lines - 1) : 0; /* a region of one line is none over ncurses */
    line.bottom = has_part ? line.top + 1 + below(line.lines - 1 - line.top) : line.lines - 1;
    line.y = below(3) ? line.lines - 1 : below(line.lines);
    line.x = below(3) ? 0 : below(line.columns);
    int count = below(3) ? below(9) : below(50);
    for (int i = 0; i < count && strlen(line.keys) < sizeof line.keys - 8; i++) {
        const char letter[] = {(char)('a' + i % 26), 0};
        strcat(line.keys, below(4) ? letter : others[below(8)]);
    }
    bool may_wrap = line.x + columns_of(line.keys) >= line.columns;
    bool is_part = line.top > 0 || line.bottom < line.lines - 1;
    strcat(line.keys, "\n");
    printf("%d%s: ", seed, may_wrap && is_part ? " part" : "");
    try_line(&line);
}

int main(int count, char **words) {
    setenv("TERM", "xterm-256color", 1);
    if (count == 9) {
        struct line line = {.most = 200};
        int *const numbers[] = {&line.lines, &line.columns, &line.scrolls, &line.top, &line.bottom, &line.y, &line.x};
        for (int i = 0; i < 7; i++) *numbers[i] = atoi(words[i + 1]);
        snprintf(line.keys, sizeof line.keys, "%s\n", words[8]);
        try_line(&line);
    } else if (count == 3) {
        for (int seed = atoi(words[1]); seed <= atoi(words[2]); seed++) {
            state = (unsigned long)seed * 7919;
            try_by_chance(seed);
        }
    }
    return 0;
}

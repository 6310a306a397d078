// Makes the calls of a Curspan script through ncurses and its panels, so that what both send can be compared.
//     ncurses_run LINES COLUMNS OUT [FRAMES] < SCRIPT
// What the terminal gets goes to the file OUT. FRAMES takes a line for the start and for each doupdate: how many bytes had been sent then. The type of
// the terminal is that of TERM. A line that isn't known, or that ncurses refuses, ends it with status 1; only a text that ends in a
// window's last cell is refused and written all the same.
#define NCURSES_NOMACROS 1
#define _XOPEN_SOURCE 700
#include <curses.h>
#include <fcntl.h>
#include <panel.h>
#include <stdio.h>
#include <stdlib.h>
#include <string.h>
#include <unistd.h>

enum { MOST = 1001, WORDS = 10, ROOM = 600 };

// What ncurses doesn't keep apart as Curspan does: a window's attributes and those of its background.
struct window {
    WINDOW *handle;
    int attributes, pair;
    int background, background_attributes, background_pair;
};

static struct window windows[MOST];
static PANEL *panels[MOST];
static unsigned long number;
static int arguments[WORDS];
static char *words[WORDS + 1];
static char text[ROOM];
static FILE *frames;
static int out;

static void fail(const char *what) {
    fprintf(stderr, "ncurses_run: line %lu: %s\n", number, what);
    exit(1);
}

static void check(int answer, const char *what) {
    if (answer == ERR) fail(what);
}

static attr_t attributes_of(int bits) {
    static const attr_t each[] = {A_BOLD, A_DIM, A_UNDERLINE, A_BLINK, A_REVERSE, A_INVIS};
    attr_t all = A_NORMAL;
    for (int i = 0; i < 6; i++)
        if (bits >> i & 1) all |= each[i];
    return all;
}

static struct window *window(int which) {
    if (which < 0 || which >= MOST || !windows[which].handle) fail("no such window");
    return &windows[which];
}

static PANEL *panel(int which) {
    if (which < 1 || which >= MOST || !panels[which]) fail("no such panel");
    return panels[which];
}

// Gives a window its attributes, which a new background changes.
static void set_attributes(struct window *w) { check(wattr_set(w->handle, attributes_of(w->attributes), (short)w->pair, NULL), "attributes"); }

static void set_background(struct window *w) {
    wbkgdset(w->handle, (chtype)w->background | attributes_of(w->background_attributes) | COLOR_PAIR(w->background_pair));
    set_attributes(w);
}

static void keep_window(WINDOW *handle) {
    int which = 1;
    if (!handle) fail("no window");
    while (windows[which].handle) which++;
    windows[which] = (struct window){.handle = handle, .background = ' '};
}

static void keep_panel(WINDOW *handle) {
    int which = 1;
    while (panels[which]) which++;
    panels[which] = new_panel(handle);
    if (!panels[which]) fail("no panel");
}

static int digit(char c) { return c >= 'a' ? c - 'a' + 10 : c - '0'; }

// Leaves in `text` what a text means.
static void read_text(const char *from) {
    char *to = text;
    for (; *from; from++) {
        if (*from != '\\') *to++ = *from;
        else switch (*++from) {
            case 'n': *to++ = '\n'; break;
            case 'r': *to++ = '\r'; break;
            case 'b': *to++ = '\b'; break;
            case 'x': *to++ = (char)(digit(from[1]) * 16 + digit(from[2])); from += 2; break;
            default: *to++ = *from;
        }
    }
    *to = 0;
}

// A text that ends in the last cell of a window is written, and answered with an error.
static void write_text(WINDOW *handle) {
    int last = getmaxy(handle) - 1;
    if (waddstr(handle, text) == ERR && getcury(handle) != last) fail("addstr");
}

static void tell_sent(void) {
    if (frames) fprintf(frames, "%ld\n", (long)lseek(out, 0, SEEK_CUR));
}

// Before the first panel is made, ncurses' panels don't look at the standard screen.
static void take_picture(void) {
    if (!panel_above(NULL)) wnoutrefresh(stdscr);
    update_panels();
}

static int is(const char *word) { return strcmp(words[0], word) == 0; }

static int make_or_place(void) {
    int *a = arguments;
    if (is("newwin")) keep_window(newwin(a[0], a[1], a[2], a[3]));
    else if (is("subwin")) keep_window(subwin(window(a[0])->handle, a[1], a[2], a[3], a[4]));
    else if (is("derwin")) keep_window(derwin(window(a[0])->handle, a[1], a[2], a[3], a[4]));
    else if (is("newpad")) keep_window(newpad(a[0], a[1]));
    else if (is("subpad")) keep_window(subpad(window(a[0])->handle, a[1], a[2], a[3], a[4]));
    else if (is("delwin")) check(delwin(window(a[0])->handle), "delwin"), windows[a[0]].handle = NULL;
    else if (is("mvwin")) check(mvwin(window(a[0])->handle, a[1], a[2]), "mvwin");
    else return 0;
    return 1;
}

static int write_cells(void) {
    int *a = arguments;
    if (is("move")) check(wmove(window(a[0])->handle, a[1], a[2]), "move");
    else if (is("addstr") || is("addch")) write_text(window(a[0])->handle);
    else if (is("insch")) check(winsch(window(a[0])->handle, (unsigned char)text[0]), "insch");
    else if (is("delch")) check(wdelch(window(a[0])->handle), "delch");
    else if (is("insertln")) check(winsertln(window(a[0])->handle), "insertln");
    else if (is("deleteln")) check(wdeleteln(window(a[0])->handle), "deleteln");
    else if (is("erase")) check(werase(window(a[0])->handle), "erase");
    else if (is("clear")) check(wclear(window(a[0])->handle), "clear");
    else if (is("clrtoeol")) check(wclrtoeol(window(a[0])->handle), "clrtoeol");
    else if (is("clrtobot")) check(wclrtobot(window(a[0])->handle), "clrtobot");
    else if (is("scrl")) check(wscrl(window(a[0])->handle, a[1]), "scrl");
    else return 0;
    return 1;
}

static int set_window(void) {
    int *a = arguments;
    if (is("setscrreg")) check(wsetscrreg(window(a[0])->handle, a[1], a[2]), "setscrreg");
    else if (is("scrollok")) check(scrollok(window(a[0])->handle, a[1] != 0), "scrollok");
    else if (is("clearok")) check(clearok(window(a[0])->handle, a[1] != 0), "clearok");
    else if (is("init_pair")) check(init_pair((short)a[0], (short)a[1], (short)a[2]), "init_pair");
    else if (is("attrset")) window(a[0])->attributes = a[1], set_attributes(window(a[0]));
    else if (is("attron")) window(a[0])->attributes |= a[1], set_attributes(window(a[0]));
    else if (is("attroff")) window(a[0])->attributes &= ~a[1], set_attributes(window(a[0]));
    else if (is("color_set")) window(a[0])->pair = a[1], set_attributes(window(a[0]));
    else if (is("bkgdpair")) window(a[0])->background_pair = a[1], set_background(window(a[0]));
    else if (is("bkgdset")) {
        struct window *w = window(a[0]);
        w->background_attributes = a[1], w->background = text[0], w->background_pair = 0;
        set_background(w);
    } else return 0;
    return 1;
}

static int copy_or_touch(void) {
    int *a = arguments;
    if (is("overlay")) check(overlay(window(a[0])->handle, window(a[1])->handle), "overlay");
    else if (is("overwrite")) check(overwrite(window(a[0])->handle, window(a[1])->handle), "overwrite");
    else if (is("copywin"))
        check(copywin(window(a[0])->handle, window(a[1])->handle, a[2], a[3], a[4], a[5], a[6], a[7], a[8]), "copywin");
    else if (is("touchwin")) check(touchwin(window(a[0])->handle), "touchwin");
    else if (is("untouchwin")) check(untouchwin(window(a[0])->handle), "untouchwin");
    else if (is("syncup")) wsyncup(window(a[0])->handle);
    else return 0;
    return 1;
}

static int stack_panels(void) {
    int *a = arguments;
    if (is("new_panel")) keep_panel(window(a[0])->handle);
    else if (is("del_panel")) check(del_panel(panel(a[0])), "del_panel"), panels[a[0]] = NULL;
    else if (is("show_panel")) check(show_panel(panel(a[0])), "show_panel");
    else if (is("hide_panel")) check(hide_panel(panel(a[0])), "hide_panel");
    else if (is("top_panel")) check(top_panel(panel(a[0])), "top_panel");
    else if (is("bottom_panel")) check(bottom_panel(panel(a[0])), "bottom_panel");
    else if (is("move_panel")) check(move_panel(panel(a[0]), a[1], a[2]), "move_panel");
    else if (is("replace_panel")) check(replace_panel(panel(a[0]), window(a[1])->handle), "replace_panel");
    else return 0;
    return 1;
}

static int refresh_screen(void) {
    int *a = arguments;
    if (is("update_panels")) take_picture();
    else if (is("doupdate")) check(doupdate(), "doupdate"), tell_sent();
    else if (is("noutrefresh")) check(wnoutrefresh(window(a[0])->handle), "noutrefresh");
    else if (is("pnoutrefresh")) check(pnoutrefresh(window(a[0])->handle, a[1], a[2], a[3], a[4], a[5], a[6]), "pnoutrefresh");
    else return 0;
    return 1;
}

// How many words are before the text that ends a call's line, or 0 if there is none.
static int words_before_text(const char *line) {
    if (strncmp(line, "bkgdset ", 8) == 0) return 3;
    return strncmp(line, "addstr ", 7) == 0 || strncmp(line, "addch ", 6) == 0 || strncmp(line, "insch ", 6) == 0 ? 2 : 0;
}

static int argument(const char *call, int at, const char *word) {
    if (strcmp(word, "on") == 0) return 1;
    if (at == 1 && (strncmp(call, "attr", 4) == 0 || strcmp(call, "bkgdset") == 0)) return (int)strtol(word, NULL, 16);
    return atoi(word);
}

// Cuts a line at its spaces, and reads its arguments.
static void cut(char *line) {
    int before = words_before_text(line), count = 0;
    memset(arguments, 0, sizeof arguments);
    words[count++] = line;
    for (char *space = strchr(line, ' '); space; space = strchr(space, ' ')) {
        *space++ = 0;
        if (count == before) {
            read_text(space);
            break;
        }
        if (count > WORDS) fail("too many words");
        words[count++] = space;
    }
    for (int i = 1; i < count; i++) arguments[i - 1] = argument(line, i - 1, words[i]);
}

int main(int count, char **given) {
    char line[ROOM];
    if (count < 4) return 2;
    setenv("LINES", given[1], 1);
    setenv("COLUMNS", given[2], 1);
    FILE *terminal = fopen(given[3], "w");
    if (!terminal) return perror(given[3]), 1;
    out = fileno(terminal);
    if (count > 4 && !(frames = fopen(given[4], "w"))) return perror(given[4]), 1;
    FILE *keyboard = fopen("/dev/null", "r");
    if (!newterm(NULL, terminal, keyboard)) fail("no such terminal");
    if (LINES != atoi(given[1]) || COLS != atoi(given[2])) fail("another size");
    typeahead(-1);
    start_color();
    use_default_colors();
    delay_output(0); // sends what was gathered so far
    tell_sent();
    windows[0] = (struct window){.handle = stdscr, .background = ' '};
    while (fgets(line, sizeof line, stdin)) {
        number++;
        line[strcspn(line, "\n")] = 0;
        if (!line[0] || line[0] == '#') continue;
        cut(line);
        if (!(make_or_place() || write_cells() || set_window() || copy_or_touch() || stack_panels() || refresh_screen())) fail("not known");
    }
    if (frames && fclose(frames)) return 1;
    _exit(0);
}

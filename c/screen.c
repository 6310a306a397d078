/* The one screen: its size, its beginning and its end. Nothing here is proved. */
#include "inside.h"
#include "terminal.h"

#include <errno.h>
#include <time.h>

int LINES, COLS;
int COLORS = 8, COLOR_PAIRS = LAST_OWN + 1;
curspan curspan_kept_screen = CURSPAN_INIT;

/* The names as configure scripts look for them, without the header. */
#ifdef __GNUC__
#define OF(name) __attribute__((alias("curses_h_is_of_curspan_but_not_the_library_" name)))
WINDOW *curspan_plain_initscr(void) __asm__("initscr") OF("initscr");
SCREEN *curspan_plain_newterm(const char *type, FILE *out, FILE *in) __asm__("newterm") OF("newterm");
#endif

/* Of the system's terminfo library, where the program has it. */
int setupterm(const char *type, int out, int *error) __attribute__((weak));

static bool ignores_environment;

void use_env(bool flag) { ignores_environment = !flag; }

static int size_in(const char *variable) {
    int size = ignores_environment ? ERR : curspan_number_in(variable);
    return size == ERR || size > CURSPAN_LARGEST_SCREEN ? 0 : size;
}

void curspan_find_screen_size(int *lines, int *columns) {
    *lines = size_in("LINES");
    *columns = size_in("COLUMNS");
    curspan_find_size(&curspan_the_tty, lines, columns);
}

void curspan_tell_size(int lines) {
    const char *set = curspan_has_alternates ? CURSPAN_PLAIN_SET : "";
    snprintf(curspan_the_tty.leave, sizeof curspan_the_tty.leave, "%s" CURSPAN_LEAVE, set, lines);
}

/* What a list has of the terminal stays. Where another one owns the signals it owns none. */
static bool begin_tty(int in, int out) {
    struct curspan_tty *tty = &curspan_the_tty;
    tty->in = in;
    tty->line = -1;
    tty->page = PAGE_LEFT;
    tty->is_ended = tty->was_away = tty->is_keypad = false;
    snprintf(tty->enter, sizeof tty->enter, CURSPAN_ENTER);
    curspan_set_output(tty, out);
    enum curspan_entry entry = curspan_attend(tty, true);
    if (entry == CURSPAN_OWNED_ALREADY) entry = curspan_attend(tty, false);
    return entry == CURSPAN_ENTERED;
}

SCREEN *newterm(const char *type, FILE *out, FILE *in) {
    int from = in ? fileno(in) : -1, to = out ? fileno(out) : -1;
    if (!out || stdscr || to < 0 || fflush(out) != 0) return NULL;
    bool is_begun = begin_tty(from, to);
    curspan_stream = out;
    curspan_find_screen_size(&LINES, &COLS);
    curspan_answer answer = curspan_open(curspan_settle(), (uint16_t)LINES, (uint16_t)COLS);
    if (!is_begun || answer.status != CURSPAN_OK) {
        curspan_close(curspan_settle());
        curspan_abandon(&curspan_the_tty);
        return NULL;
    }
    curspan_begin(answer);
    curspan_forget_keys(type);
    curspan_begin_map();
    curspan_tell_size(LINES);
    curspan_forget_input();
    curspan_begin_modes();
    int error;
    if (setupterm) setupterm(type, to, &error);
    return (SCREEN *)curspan_settle();
}

WINDOW *initscr(void) {
    if (!stdscr && !newterm(NULL, stdout, stdin)) {
        fputs("initscr: there is no memory for the screen\n", stderr);
        exit(1);
    }
    return stdscr;
}

int endwin(void) {
    if (!stdscr) return ERR;
    curspan_hold_stop(&curspan_the_tty);
    bool is_done = curspan_give_back(&curspan_the_tty, -1);
    curspan_let_stop(&curspan_the_tty);
    return is_done ? OK : ERR;
}

bool isendwin(void) { return stdscr && curspan_the_tty.is_ended; }

void delscreen(SCREEN *screen) {
    if (!screen || screen != (SCREEN *)curspan_settle()) return;
    if (curspan_is_owed(&curspan_the_tty)) endwin();
    curspan_abandon(&curspan_the_tty);
    curspan_close(curspan_settle());
    curspan_forget_all();
    curspan_forget_output();
    curspan_forget_keys(NULL);
}

int napms(int milliseconds) {
    struct timespec rest = {milliseconds / 1000, milliseconds % 1000 * 1000000L};
    if (milliseconds < 0) return ERR;
    while (nanosleep(&rest, &rest) != 0 && errno == EINTR) curspan_redraw_after_stop();
    return OK;
}

int delay_output(int milliseconds) { return stdscr ? napms(milliseconds) : ERR; }

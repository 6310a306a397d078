/* Terminals, below curses.h and curspan_terminal.h: what is written, their modes, pages and sizes. Nothing here is
   proved. */
#include "terminal.h"
#include "curspan_terminal.h"

#include <errno.h>
#include <fcntl.h>
#include <poll.h>
#include <sys/ioctl.h>
#include <time.h>
#include <unistd.h>

/* ---- time */

long curspan_now(void) {
    struct timespec time;
    clock_gettime(CLOCK_MONOTONIC, &time);
    return (long)time.tv_sec * 1000 + time.tv_nsec / 1000000;
}

int curspan_left_until(int milliseconds, long end) {
    if (milliseconds <= 0) return milliseconds < 0 ? -1 : 0;
    long left = end - curspan_now();
    return left > 0 ? (int)left : 0;
}

/* ---- what is written */

/* Bytes that a pipe takes at once where it is ready, and those that switch the keypad. */
enum { PIPED = 512, KEYPAD = 7 };

int curspan_open_anew(int descriptor) {
    char path[32];
    snprintf(path, sizeof path, "/proc/self/fd/%d", descriptor);
    return isatty(descriptor) ? open(path, O_RDWR | O_NOCTTY | O_NONBLOCK | O_CLOEXEC) : -1;
}

void curspan_set_output(struct curspan_tty *tty, int out) {
    tty->out = out;
    tty->own = curspan_open_anew(out);
    tty->most = isatty(out) ? 1 : PIPED;
}

/* Whether the terminal takes bytes within some time, or at once. */
static bool is_ready(const struct curspan_tty *tty, int milliseconds) {
    struct pollfd ready = {tty->out, POLLOUT, 0};
    return poll(&ready, 1, milliseconds) > 0;
}

static ssize_t write_now(const struct curspan_tty *tty, const uint8_t *bytes, size_t length) {
    if (tty->own >= 0) return write(tty->own, bytes, length);
    if (is_ready(tty, 0)) return write(tty->out, bytes, length < tty->most ? length : tty->most);
    errno = EAGAIN;
    return -1;
}

/* Writes all but what is done already. */
static __attribute__((noinline)) ssize_t write_on(const struct curspan_tty *tty, const uint8_t *bytes, size_t length,
                                                  size_t done, int milliseconds) {
    long end = milliseconds > 0 ? curspan_now() + milliseconds : 0;
    while (done < length) {
        const uint8_t *next = bytes + done;
        size_t left = length - done;
        ssize_t count = milliseconds < 0 ? write(tty->out, next, left) : write_now(tty, next, left);
        if (count > 0) {
            done += (size_t)count;
        } else if (count < 0 && errno == EAGAIN) {
            int time = curspan_left_until(milliseconds, end);
            if (time == 0) break;
            if (!is_ready(tty, time) && errno != EAGAIN && errno != EINTR) return -1;
        } else if (count == 0 || errno != EINTR) {
            return -1;
        }
    }
    return (ssize_t)done;
}

/* Mostly one call does. */
ssize_t curspan_write(const struct curspan_tty *tty, const void *bytes, size_t length, int milliseconds) {
    ssize_t count = milliseconds < 0 ? write(tty->out, bytes, length) : 0;
    if (count == (ssize_t)length) return count;
    return write_on(tty, bytes, length, count > 0 ? (size_t)count : 0, milliseconds);
}

bool curspan_flush(struct curspan_tty *tty, int milliseconds) {
    if (tty->kept_count == 0) return true;
    ssize_t count = curspan_write(tty, tty->kept, tty->kept_count, milliseconds);
    if (count < 0) return false;
    memmove(tty->kept, tty->kept + count, tty->kept_count -= (size_t)count);
    return true;
}

bool curspan_send(struct curspan_tty *tty, const void *bytes, size_t length) {
    if (!tty->keeps) return curspan_write(tty, bytes, length, -1) == (ssize_t)length;
    if (!curspan_flush(tty, 0)) return false;
    ssize_t count = tty->kept_count > 0 ? 0 : curspan_write(tty, bytes, length, 0);
    if (count < 0 || (size_t)count == length) return count >= 0;
    uint8_t *more = realloc(tty->kept, tty->kept_count + length - (size_t)count);
    if (!more) return false;
    memcpy(more + tty->kept_count, (const uint8_t *)bytes + count, length - (size_t)count);
    tty->kept = more;
    tty->kept_count += length - (size_t)count;
    return true;
}

bool curspan_send_text(struct curspan_tty *tty, const char *text) { return curspan_send(tty, text, strlen(text)); }

/* ---- modes and pages */

static bool write_text(const struct curspan_tty *tty, const char *text, int milliseconds) {
    size_t length = strlen(text);
    return curspan_write(tty, text, length, milliseconds) == (ssize_t)length;
}

bool curspan_switch_keypad(struct curspan_tty *tty, bool flag, int milliseconds) {
    CURSPAN_SET(tty->is_keypad, flag);
    return curspan_write(tty, flag ? "\033[?1h\033=" : "\033[?1l\033>", KEYPAD, milliseconds) == KEYPAD;
}

bool curspan_set_modes(const struct curspan_tty *tty, const struct termios *modes, int when) {
    if (tty->line < 0) return false;
    while (tcsetattr(tty->line, when, modes) != 0)
        if (errno != EINTR) return false;
    return true;
}

/* How modes are set where a terminal is waited for, or isn't. */
static int when_of(bool waits) { return waits ? TCSADRAIN : TCSANOW; }

bool curspan_come_back(struct curspan_tty *tty) {
    if (curspan_is_shown(tty)) return true;
    if (CURSPAN_LOOK(tty->is_ended)) {
        CURSPAN_SET(tty->is_ended, false);
        curspan_set_modes(tty, &tty->program, when_of(!tty->keeps));
    }
    CURSPAN_SET(tty->page, PAGE_ENTERING);
    if (!curspan_send_text(tty, tty->enter)) return false;
    CURSPAN_SET(tty->page, PAGE_ENTERED);
    return true;
}

/* Leaves the page. Who doesn't wait drops what the terminal didn't take yet where there is no room for it. */
static bool leave(const struct curspan_tty *tty, int milliseconds) {
    if (write_text(tty, tty->leave, milliseconds)) return true;
    return milliseconds == 0 && tcflush(tty->out, TCOFLUSH) == 0 && write_text(tty, tty->leave, 0);
}

/* What is owed stays so until all is done: a signal may come in between. */
bool curspan_give_back(struct curspan_tty *tty, int milliseconds) {
    bool is_done = CURSPAN_LOOK(tty->page) == PAGE_LEFT || leave(tty, milliseconds);
    CURSPAN_SET(tty->page, is_done ? PAGE_LEFT : PAGE_ENTERING);
    if (CURSPAN_LOOK(tty->is_keypad) && !curspan_switch_keypad(tty, false, milliseconds)) is_done = false;
    if (tty->line >= 0 && !curspan_set_modes(tty, &tty->shell, when_of(milliseconds != 0))) is_done = false;
    CURSPAN_SET(tty->was_away, true);
    CURSPAN_SET(tty->is_ended, true);
    return is_done;
}

void curspan_read_at_once(struct termios *modes) {
    modes->c_cc[VMIN] = 1;
    modes->c_cc[VTIME] = 0;
}

void curspan_make_raw(struct termios *modes) {
    modes->c_lflag &= ~(tcflag_t)(ICANON | ISIG | IEXTEN);
    modes->c_iflag &= ~(tcflag_t)CURSPAN_INPUT_FLAGS;
    curspan_read_at_once(modes);
}

/* ---- sizes */

int curspan_number_in(const char *variable) {
    const char *text = getenv(variable);
    char *end;
    if (!text || *text < '0' || *text > '9') return -1;
    long number = strtol(text, &end, 10);
    return *end == 0 && number <= 32767 ? (int)number : -1;
}

static int size_of(int wanted, int found, int other) {
    int size = wanted > 0 ? wanted : found > 0 ? found : other;
    return size < CURSPAN_LARGEST_SCREEN ? size : CURSPAN_LARGEST_SCREEN;
}

bool curspan_find_size(const struct curspan_tty *tty, int *lines, int *columns) {
    struct winsize found = {0, 0, 0, 0};
    bool is_there = ioctl(tty->out, TIOCGWINSZ, &found) == 0;
    *lines = size_of(*lines, is_there ? found.ws_row : 0, 24);
    *columns = size_of(*columns, is_there ? found.ws_col : 0, 80);
    return is_there;
}

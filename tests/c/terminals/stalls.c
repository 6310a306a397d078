/* Looks at terminals that take no bytes, as where a link is down or Ctrl-S was typed: what ends a program does so and
   gives back what can be, nothing waits that says so, and the flags of descriptors stay. */
#define PART "stalls"
#include "../pseudoterminal.h"

#include <curspan_terminal.h>
#include <sys/resource.h>
#include <time.h>

static curspan_terminal terminal, other;
static curspan screen;

/* ---- programs */

/* Writes until the terminal takes no more, and on. */
static void fill(void) {
    static char text[1 << 20];
    memset(text, 'x', sizeof text);
    if (curspan_terminal_open(&terminal, NULL, CURSPAN_TERMINAL_USUAL) != CURSPAN_TERMINAL_OK) _exit(9);
    curspan_terminal_write(&terminal, "filling", 7);
    curspan_terminal_write(&terminal, text, sizeof text);
}

/* Another terminal of the program takes nothing, and stands before this one where all are given back. */
static void fill_other(void) {
    static char text[1 << 20];
    int ends[2] = {posix_openpt(O_RDWR | O_NOCTTY), -1};
    if (ends[0] < 0 || grantpt(ends[0]) != 0 || unlockpt(ends[0]) != 0) _exit(9);
    ends[1] = open(ptsname(ends[0]), O_RDWR | O_NOCTTY);
    if (curspan_terminal_open(&terminal, NULL, CURSPAN_TERMINAL_USUAL) != CURSPAN_TERMINAL_OK) _exit(8);
    uint32_t options = CURSPAN_TERMINAL_PAGE | CURSPAN_TERMINAL_KEEP;
    if (curspan_terminal_use(&other, ends[1], ends[1], options) != CURSPAN_TERMINAL_OK) _exit(7);
    if (curspan_terminal_write(&other, text, sizeof text) != CURSPAN_TERMINAL_OK) _exit(6);
    curspan_terminal_write(&terminal, "filling", 7);
    for (;;) pause();
}

static void exit_over_other(void) {
    signal(SIGALRM, exit);
    alarm(1);
    fill_other();
}

/* ---- what ends them */

static void ends(const char *name, void (*program)(void), int number, bool is_read) {
    struct timespec begin, now;
    pid_t shell = start(program);
    want(comes(0, "filling"), name, "it begins");
    usleep(200000);
    clock_gettime(CLOCK_MONOTONIC, &begin);
    if (number != SIGALRM) kill(-tcgetpgrp(master), number);
    int status = -1;
    struct pollfd ready = {statuses, POLLIN, 0};
    want(poll(&ready, 1, 3000) > 0 && read(statuses, &status, sizeof status) == sizeof status, name, "it ends");
    clock_gettime(CLOCK_MONOTONIC, &now);
    bool is_so = number == SIGALRM ? WIFEXITED(status) : WIFSIGNALED(status) && WTERMSIG(status) == number;
    want(is_so && now.tv_sec - begin.tv_sec <= 2, name, "it ends so, at once");
    while (is_read && read_some(50)) continue;
    if (number != SIGKILL) want(has_modes_again(), name, "its modes are as before");
    if (is_read) want(left_page(0), name, "its page is left");
    want((fcntl(slave, F_GETFL) & O_NONBLOCK) == 0, name, "the flags of its descriptors are as before");
    finish(shell);
}

static void wait_for_keys(void) {
    curspan_key key;
    if (curspan_terminal_open(&terminal, NULL, CURSPAN_TERMINAL_USUAL) != CURSPAN_TERMINAL_OK) _exit(9);
    curspan_terminal_write(&terminal, "filling", 7);
    curspan_terminal_key(&terminal, -1, &key);
}

static void ends_while_stopped(void) {
    const char *name = "SIGTERM after Ctrl-S";
    pid_t shell = start(wait_for_keys);
    want(comes(0, "filling"), name, "it begins");
    type("\023");
    usleep(100000);
    kill(-tcgetpgrp(master), SIGTERM);
    want(WIFSIGNALED(status_of_program()) && has_modes_again(), name, "it ends, and its modes are as before");
    finish(shell);
}

static void two_signals_end_it(void) {
    const char *name = "two signals";
    pid_t shell = start(fill);
    want(comes(0, "filling"), name, "it begins");
    usleep(200000);
    pid_t job = tcgetpgrp(master);
    kill(-job, SIGHUP);
    kill(-job, SIGTERM);
    want(WIFSIGNALED(status_of_program()) && has_modes_again(), name, "it ends, and its modes are as before");
    finish(shell);
}

/* ---- bytes that are kept */

static size_t kept_after(int milliseconds) {
    size_t kept = 99;
    want(curspan_terminal_flush(&terminal, milliseconds, &kept) == CURSPAN_TERMINAL_OK, "flush", "it is done");
    return kept;
}

/* What is kept once the system has moved what it took. */
static size_t kept_for_long(void) {
    size_t kept = kept_after(0), now;
    while ((now = kept_after(50)) < kept) kept = now;
    return kept;
}

static bool takes_bytes(void) {
    struct pollfd ready = {curspan_terminal_output(&terminal), POLLOUT, 0};
    return poll(&ready, 1, 0) > 0;
}

static void bytes_are_kept(void) {
    static char text[100000];
    uint32_t options = CURSPAN_TERMINAL_PAGE | CURSPAN_TERMINAL_KEEP;
    memset(text, 'x', sizeof text);
    make_terminal(24, 80);
    curspan_open(&screen, 24, 80);
    curspan_waddstr(&screen, 0, "a picture", 9);
    curspan_wnoutrefresh(&screen, 0);
    want(curspan_terminal_use(&terminal, slave, slave, options) == CURSPAN_TERMINAL_OK, "keep", "it is opened");
    want(kept_after(0) == 0 && takes_bytes(), "keep", "nothing is kept");
    want(curspan_terminal_write(&terminal, text, sizeof text) == CURSPAN_TERMINAL_OK, "keep", "it doesn't wait");
    size_t kept = kept_for_long();
    want(kept > 0 && kept < sizeof text && !takes_bytes() && kept_after(50) == kept, "keep", "it tells what is kept");
    want(curspan_terminal_show(&terminal, &screen) == CURSPAN_TERMINAL_OK && kept_after(0) == kept,
         "a picture", "it isn't drawn yet");
    while (kept_after(0) > 0) read_some(20);
    want(curspan_terminal_show(&terminal, &screen) == CURSPAN_TERMINAL_OK && kept_after(0) == 0,
         "a picture", "it is drawn then");
    want(comes(sizeof text, "a picture"), "a picture", "it comes after what was kept");
    length = 0;
    want(curspan_terminal_write(&terminal, text, sizeof text) == CURSPAN_TERMINAL_OK, "keep", "it doesn't wait");
    want(curspan_terminal_suspend(&terminal) == CURSPAN_TERMINAL_OK && has_modes_again(), "suspend", "it doesn't wait");
    want(kept_after(0) > 0, "suspend", "what leaves the page is kept");
    while (kept_after(0) > 0) read_some(20);
    while (read_some(50)) continue;
    want(left_page(0), "suspend", "the page is left then");
    curspan_terminal_show(&terminal, &screen);
    want(curspan_terminal_write(&terminal, text, sizeof text) == CURSPAN_TERMINAL_OK, "keep", "it doesn't wait");
    want(curspan_terminal_close(&terminal) == CURSPAN_TERMINAL_OK && has_modes_again(), "close", "it doesn't wait");
    close(master);
    close(slave);
    curspan_close(&screen);
}

/* ---- a system that interrupts */

static int interrupted_at, calls;

/* In place of the C library's, as on a line whose output waits: one call is interrupted. */
int tcsetattr(int descriptor, int when, const struct termios *modes) {
    static const unsigned long requests[] = {[TCSANOW] = 0x5402, [TCSADRAIN] = 0x5403, [TCSAFLUSH] = 0x5404};
    struct {
        tcflag_t flags[4];
        cc_t line, characters[19];
    } kernel;
    if (++calls == interrupted_at) return errno = EINTR, -1;
    memcpy(&kernel, modes, sizeof kernel);
    return ioctl(descriptor, requests[when], &kernel);
}

static void modes_are_set_again(void) {
    make_terminal(24, 80);
    for (interrupted_at = 1; interrupted_at < 4; interrupted_at++) {
        calls = 0;
        want(curspan_terminal_use(&terminal, slave, slave, 0) == CURSPAN_TERMINAL_OK, "EINTR", "it is opened");
        want(!has_modes_again(), "EINTR", "it has its modes");
        want(curspan_terminal_close(&terminal) == CURSPAN_TERMINAL_OK, "EINTR", "it is closed");
        want(has_modes_again(), "EINTR", "its modes are as before");
    }
    interrupted_at = 0;
    close(master);
    close(slave);
}

int main(void) {
    struct rlimit none = {0, 0};
    setrlimit(RLIMIT_CORE, &none);
    setenv("TERM", "xterm", 1);
    ends("SIGTERM", fill, SIGTERM, true);
    ends("SIGINT", fill, SIGINT, true);
    ends("SIGHUP", fill, SIGHUP, false);
    ends("SIGUSR1", fill, SIGUSR1, false);
    ends("SIGKILL", fill, SIGKILL, false);
#ifndef __SANITIZE_ADDRESS__
    ends("SIGSEGV", fill, SIGSEGV, false);
#endif
    ends("SIGTERM beside a stalled terminal", fill_other, SIGTERM, true);
    ends("exit beside a stalled terminal", exit_over_other, SIGALRM, true);
    two_signals_end_it();
    ends_while_stopped();
    bytes_are_kept();
    modes_are_set_again();
    if (wrong == 0) puts("stalls: all is so");
    return wrong != 0;
}

/* A pseudoterminal and a shell, for programs that look themselves at what others do in one. PART is the name of the program that looks. */
#include <errno.h>
#include <fcntl.h>
#include <poll.h>
#include <signal.h>
#include <stdbool.h>
#include <stdio.h>
#include <stdlib.h>
#include <string.h>
#include <sys/ioctl.h>
#include <sys/wait.h>
#include <termios.h>
#include <unistd.h>

static int wrong;

static void want(bool holds, const char *name, const char *what) {
    if (holds) return;
    printf(PART ": %s: not so: %s\n", name, what);
    wrong++;
}

/* ---- the terminal and the shell */

static int master, slave, statuses;         /* the terminal's ends, and where the shell tells how its program stopped or ended */
static struct termios before;               /* the modes before the program began */
static char bytes[200000];                  /* what the program wrote */
static size_t length;

/* Makes a terminal of a size. */
static void make_terminal(int lines, int columns) {
    struct winsize size = {.ws_row = (unsigned short)lines, .ws_col = (unsigned short)columns};
    master = posix_openpt(O_RDWR | O_NOCTTY);
    if (master < 0 || grantpt(master) != 0 || unlockpt(master) != 0) exit(3);
    slave = open(ptsname(master), O_RDWR | O_NOCTTY);
    ioctl(slave, TIOCSWINSZ, &size);
    tcgetattr(slave, &before);
    length = 0;
}

/* Starts a program in a terminal of its own, below a shell that waits for it and continues it. */
static pid_t start(void (*program)(void)) {
    int ends[2];
    make_terminal(24, 80);
    if (pipe(ends) != 0) exit(3);
    statuses = ends[0];
    fflush(stdout);
    pid_t shell = fork();
    if (shell != 0) {
        close(ends[1]);
        return shell;
    }
    setsid();
    int terminal = open(ptsname(master), O_RDWR);
    signal(SIGTTOU, SIG_IGN);
    close(master);
    close(slave);
    pid_t job = fork();
    if (job == 0) {
        setpgid(0, 0);
        tcsetpgrp(terminal, getpid());
        signal(SIGTTOU, SIG_DFL);
        for (int i = 0; i < 3; i++) dup2(terminal, i);
        program();
        _exit(0);
    }
    setpgid(job, job);
    for (int status; waitpid(job, &status, WUNTRACED) == job;) {
        tcsetpgrp(terminal, getpgrp());
        if (write(ends[1], &status, sizeof status) < 0 || !WIFSTOPPED(status)) break;
        raise(SIGSTOP);
        tcsetpgrp(terminal, job);
        kill(-job, SIGCONT);
    }
    _exit(0);
}

/* Reads some of what the program writes, if it comes in time. */
static bool read_some(int milliseconds) {
    struct pollfd ready = {master, POLLIN, 0};
    if (poll(&ready, 1, milliseconds) <= 0) return false;
    ssize_t count = read(master, bytes + length, sizeof bytes - 1 - length);
    if (count > 0) length += (size_t)count;
    bytes[length] = 0;
    return count > 0;
}

/* Reads what the program writes until a text comes after some byte. */
static bool comes(size_t from, const char *text) {
    while (from > length || !memmem(bytes + from, length - from, text, strlen(text)))
        if (!read_some(3000)) return false;
    return true;
}

static void type(const char *keys) {
    if (write(master, keys, strlen(keys)) < 0) wrong++;
}

/* How the program stopped or ended. */
static int status_of_program(void) {
    int status = -1;
    struct pollfd ready = {statuses, POLLIN, 0};
    if (poll(&ready, 1, 5000) <= 0 || read(statuses, &status, sizeof status) != sizeof status) return -1;
    while (read_some(20)) continue;
    return status;
}

/* Whether the terminal has the modes again that it had before. */
static bool has_modes_again(void) {
    struct termios now;
    tcgetattr(slave, &now);
    return now.c_iflag == before.c_iflag && now.c_oflag == before.c_oflag && now.c_lflag == before.c_lflag && now.c_cflag == before.c_cflag &&
           memcmp(now.c_cc, before.c_cc, sizeof now.c_cc) == 0;
}

/* Whether what was written ends on the page where it began, with the keypad off. */
static bool left_page(size_t from) {
    const char *entered = NULL, *left = NULL;
    for (const char *at = bytes + from; (at = strstr(at, "\033[?1049")); at++) *(at[7] == 'h' ? &entered : &left) = at;
    return !entered || (left && left > entered);
}

static void finish(pid_t shell) {
    kill(shell, SIGKILL);
    waitpid(shell, NULL, 0);
    close(master);
    close(slave);
    close(statuses);
}

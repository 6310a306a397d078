/* Keys from a pipe, a file, and a terminal that vanishes or isn't there; signals that come while getch waits; and sizes that are none. It
   looks at all of it itself, and tells what is wrong. */
#include <curses.h>
#include <errno.h>
#include <fcntl.h>
#include <signal.h>
#include <stdlib.h>
#include <string.h>
#include <sys/time.h>
#include <sys/wait.h>
#include <termios.h>
#include <time.h>
#include <unistd.h>

static int wrong;

static void want(bool holds, const char *what) {
    if (holds) return;
    printf("inputs: not so: %s\n", what);
    wrong++;
}

/* A screen whose keys come from a descriptor, and whose bytes nobody reads. */
static SCREEN *open_over(int in) {
    SCREEN *screen = newterm("xterm", fopen("/dev/null", "w"), fdopen(in, "r"));
    if (!screen) exit(3);
    keypad(stdscr, TRUE);
    return screen;
}

/* Whether some keys come, of which the last is -2. */
static bool come(const int *keys) {
    for (; *keys != -2; keys++) {
        int key = getch();
        if (key != *keys) printf("inputs: %d in place of %d\n", key, *keys);
        if (key != *keys) return false;
    }
    return true;
}

static double seconds(void) {
    struct timespec now;
    clock_gettime(CLOCK_MONOTONIC, &now);
    return (double)now.tv_sec + (double)now.tv_nsec / 1e9;
}

/* The end that is read of a pipe that another process writes, slowly or at once. */
static int writer(const char *text, bool slowly, pid_t *process) {
    int ends[2];
    if (pipe(ends) != 0) exit(3);
    *process = fork();
    if (*process != 0) {
        close(ends[1]);
        return ends[0];
    }
    for (; *text; text++) {
        if (write(ends[1], text, 1) < 0) _exit(1);
        if (slowly) usleep(20000);
    }
    _exit(0);
}

static void read_pipe(void) {
    static const int keys[] = {'a', KEY_UP, 'b', 27, '[', 'x', 195, 169, '\n', ERR, ERR, -2};
    for (int slowly = 0; slowly < 2; slowly++) {
        pid_t process;
        SCREEN *screen = open_over(writer("a\033[Ab\033[x\303\251\n", slowly, &process));
        want(come(keys), slowly ? "keys come from a pipe that is slow" : "keys come from a pipe");
        delscreen(screen);
        waitpid(process, NULL, 0);
    }
}

static void read_file(void) {
    static const int keys[] = {KEY_F(5), 'x', 27, ERR, -2};
    FILE *file = tmpfile();
    fputs("\033[15~x\033", file);
    fflush(file);
    int in = dup(fileno(file));
    lseek(in, 0, SEEK_SET);
    SCREEN *screen = open_over(in);
    want(come(keys), "keys come from a file, and ERR at its end");
    timeout(5000);
    double begun = seconds();
    want(getch() == ERR && seconds() - begun < 1, "ERR comes at once at the end, also with a time");
    char text[10] = "x";
    want(getnstr(text, 9) == ERR && *text == 0, "a line at the end is ERR, and empty");
    delscreen(screen);
    fclose(file);
}

/* What getch doesn't need stays for others, as for a child that reads on. */
static void share_pipe(void) {
    pid_t process;
    char byte = 0;
    int in = writer("abc", false, &process);
    waitpid(process, NULL, 0);
    SCREEN *screen = open_over(in);
    want(getch() == 'a' && read(in, &byte, 1) == 1 && byte == 'b' && getch() == 'c', "getch takes no more than it answers");
    delscreen(screen);
}

/* A pseudoterminal's end for a program; the other end is for whoever types. */
static int open_terminal(int *master) {
    *master = posix_openpt(O_RDWR | O_NOCTTY);
    if (*master < 0 || grantpt(*master) != 0 || unlockpt(*master) != 0) exit(3);
    return open(ptsname(*master), O_RDWR | O_NOCTTY);
}

/* Where the input is no terminal the modes are those of the output's. */
static void read_beside_terminal(void) {
    int master, slave = open_terminal(&master), ends[2];
    struct termios before, during, after;
    if (pipe(ends) != 0 || write(ends[1], "k\n", 2) != 2) exit(3);
    tcgetattr(slave, &before);
    SCREEN *screen = newterm("xterm", fdopen(dup(slave), "w"), fdopen(ends[0], "r"));
    tcgetattr(slave, &during);
    want(before.c_lflag & ECHO && !(during.c_lflag & (ECHO | ICANON)), "the output's terminal has the modes");
    want(getch() == 'k' && nocbreak() == OK && getch() == '\n', "keys come from the pipe, also after nocbreak");
    delscreen(screen);
    tcgetattr(slave, &after);
    want(after.c_lflag == before.c_lflag && after.c_iflag == before.c_iflag && after.c_oflag == before.c_oflag, "they are as before in the end");
    close(ends[1]);
    close(slave);
    close(master);
}

/* The other end of the terminal is closed. */
static void lose_terminal(void) {
    int master, slave = open_terminal(&master);
    SCREEN *screen = newterm("xterm", fdopen(slave, "w"), fdopen(dup(slave), "r"));
    cbreak();
    if (write(master, "ab", 2) < 0) exit(3);
    want(refresh() == OK && getch() == 'a', "the terminal is there");
    close(master);
    double begun = seconds();
    for (int i = 0; i < 10; i++) getch();
    want(getch() == ERR && seconds() - begun < 1, "a terminal that vanished answers ERR");
    addstr("more");
    want(refresh() == ERR && cbreak() == ERR && endwin() == ERR, "and so do a refresh, a mode and endwin");
    delscreen(screen);
}

static volatile sig_atomic_t alarms;

static void count(int number) {
    (void)number;
    alarms++;
}

/* A handler that lets calls go on, and one that ends them. */
static void be_interrupted(void) {
    pid_t process;
    struct itimerval soon = {{0, 0}, {0, 20000}};
    struct sigaction action = {.sa_handler = count, .sa_flags = SA_RESTART};
    SCREEN *screen = open_over(writer(".....x", true, &process));
    for (int i = 0; i < 5; i++) getch();
    sigaction(SIGALRM, &action, NULL);
    setitimer(ITIMER_REAL, &soon, NULL);
    want(getch() == 'x' , "getch goes on where a handler restarts calls");
    delscreen(screen);
    waitpid(process, NULL, 0);
    int ends[2];
    if (pipe(ends) != 0) exit(3);
    action.sa_flags = 0;
    sigaction(SIGALRM, &action, NULL);
    screen = open_over(ends[0]);
    alarms = 0;
    setitimer(ITIMER_REAL, &soon, NULL);
    want(getch() == ERR && alarms == 1, "getch is ERR where a handler ends calls");
    delscreen(screen);
    close(ends[1]);
}

/* Without an input, and after it was closed. */
static void have_none(void) {
    SCREEN *screen = newterm("xterm", fopen("/dev/null", "w"), NULL);
    want(screen && getch() == ERR && cbreak() == ERR && noecho() == OK && flushinp() == OK, "without an input getch is ERR");
    delscreen(screen);
    want(getch() == ERR && ungetch('a') == ERR && noecho() == ERR && cbreak() == ERR && savetty() == ERR, "without a screen there are no keys");
    want(define_key("x", 300) == ERR && key_defined("x") == ERR && !has_key(KEY_UP) && keypad(stdscr, TRUE) == ERR, "nor names of them");
    want(halfdelay(1) == ERR && flushinp() == ERR && typeahead(0) == ERR && erasechar() == (char)ERR && baudrate() == ERR, "nor modes");
}

/* As many keys as there is room for, and one more. */
static void put_back_many(void) {
    int ends[2], count = 0;
    if (pipe(ends) != 0) exit(3);
    SCREEN *screen = open_over(ends[0]);
    close(ends[1]);
    while (count < 10000 && ungetch(count) == OK) count++;
    want(count >= 100 && count < 10000, "there is room for some keys, and an end to it");
    for (int key = count - 1; key >= 0; key--)
        if (getch() != key) exit(4);
    want(getch() == ERR, "they come back, and no more");
    delscreen(screen);
}

static void size_is(const char *lines, const char *columns, int wanted_lines, int wanted_columns) {
    setenv("LINES", lines, 1);
    setenv("COLUMNS", columns, 1);
    SCREEN *screen = newterm("xterm", fopen("/dev/null", "w"), stdin);
    if (LINES != wanted_lines || COLS != wanted_columns) printf("inputs: %s by %s is %d by %d\n", lines, columns, LINES, COLS);
    want(screen && LINES == wanted_lines && COLS == wanted_columns, "the size of the environment is one, or 24 by 80");
    delscreen(screen);
}

static void delay_is(const char *delay, int wanted) {
    ESCDELAY = 1000;
    setenv("ESCDELAY", delay, 1);
    SCREEN *screen = newterm("xterm", fopen("/dev/null", "w"), stdin);
    want(screen && ESCDELAY == wanted, "the time for an escape is that of the environment, or 1000");
    delscreen(screen);
    unsetenv("ESCDELAY");
}

int main(void) {
    read_pipe();
    read_file();
    share_pipe();
    read_beside_terminal();
    lose_terminal();
    be_interrupted();
    have_none();
    put_back_many();
    size_is("30", "100", 30, 100);
    size_is("4294967320", "18446744073709551696", 24, 80);
    size_is("-5", "0", 24, 80);
    size_is("7x", "", 24, 80);
    size_is(" 9", "+9", 24, 80);
    size_is("999", "1000", 999, 80);
    delay_is("25", 25);
    delay_is("0", 0);
    delay_is("-1", 1000);
    delay_is("9999999999999", 1000);
    want(set_escdelay(-1) == ERR && set_escdelay(7) == OK && ESCDELAY == 7, "a time is not negative");
    printf("inputs: %d times wrong\n", wrong);
    return wrong > 0;
}

/* Whatever ends or stops a program gives the terminal back: its modes are as before, and its page is left. It is shell and terminal itself: a
   program runs in a pseudoterminal, keys are typed and signals sent, and it looks at what the program wrote and left. */
#define PART "signals"
#include "../pseudoterminal.h"

#include <curses.h>
#include <sys/syscall.h>

/* ---- the programs */

static void begin(void) {
    initscr();
    noecho();
    keypad(stdscr, TRUE);
    mvaddstr(3, 4, "the picture");
    refresh();
}

static void read_keys(void) {
    begin();
    for (int key; (key = getch()) != 'q';) {
        mvprintw(5, 4, "key %d.", key);
        refresh();
    }
    endwin();
}

/* A signal that comes right before the next wait for a key. */
static int signal_before_wait;

static void raise_before_wait(void) {
    int number = signal_before_wait;
    signal_before_wait = 0;
    if (number) raise(number);
}

/* In place of the calls of the C library by which keys are waited for. */
ssize_t read(int descriptor, void *to, size_t count) {
    if (descriptor == 0) raise_before_wait();
    return syscall(SYS_read, descriptor, to, count);
}

int poll(struct pollfd *waited, nfds_t count, int milliseconds) {
    raise_before_wait();
    return (int)syscall(SYS_poll, waited, count, milliseconds);
}

static void stop_before_wait(void) {
    signal_before_wait = SIGTSTP;
    read_keys();
}

/* The signal of the new size itself is dropped. */
static void resize_before_wait(void) {
    struct winsize size = {.ws_row = 30, .ws_col = 70};
    struct sigaction handler;
    begin();
    sigaction(SIGWINCH, NULL, &handler);
    signal(SIGWINCH, SIG_IGN);
    ioctl(0, TIOCSWINSZ, &size);
    sigaction(SIGWINCH, &handler, NULL);
    signal_before_wait = SIGWINCH;
    int key = getch();
    mvprintw(5, 4, "key %d, %d lines.", key, LINES);
    refresh();
    getch();
    endwin();
}

static void read_by_itself(void) {
    char byte = 0;
    begin();
    while (byte != 'q')
        if (read(0, &byte, 1) != 1) _exit(9);
    endwin();
}

static void note(int number) {
    (void)number;
    mvaddstr(7, 4, "noted");
    refresh();
}

/* Handlers of one signal that let calls go on, and then end them. */
static volatile int alarms;

static void count_alarm(int number) {
    (void)number;
    alarms = alarms + 1;
    alarm(1);
}

static void read_among_alarms(void) {
    struct sigaction action;
    memset(&action, 0, sizeof action);
    action.sa_handler = count_alarm;
    action.sa_flags = SA_RESTART;
    sigaction(SIGALRM, &action, NULL);
    begin();
    alarm(1);
    int key = getch(), before_key = alarms;
    action.sa_flags = 0;
    sigaction(SIGALRM, &action, NULL);
    alarms = 0;
    int other = getch();
    mvprintw(5, 4, "key %d after %s, and %d after %d.", key, before_key > 0 ? "some" : "none", other, alarms);
    refresh();
    getch();
    endwin();
}

static void read_with_own_handlers(void) {
    signal(SIGINT, note);
    signal(SIGTERM, SIG_IGN);
    read_keys();
}

static void read_with_later_handlers(void) {
    initscr();
    signal(SIGINT, note);
    delscreen(NULL);
    read_keys();
}

static void exit_early(void) {
    begin();
    exit(5);
}

static void fork_and_exit(void) {
    begin();
    if (fork() == 0) exit(0);
    wait(NULL);
    mvaddstr(5, 4, "the parent goes on");
    refresh();
    getch();
    endwin();
}

static void delete_screen(void) {
    SCREEN *screen = newterm(NULL, stdout, stdin);
    raw();
    refresh();
    delscreen(screen);
}

/* The output takes nothing: no page is entered, and the modes are those of the input's terminal. */
static void fail_at_once(void) {
    SCREEN *screen = newterm(NULL, fopen("/dev/full", "w"), stdin);
    raw();
    if (refresh() != ERR) _exit(1);
    endwin();
    delscreen(screen);
}

static void call_shell(void) {
    begin();
    getch();
    def_prog_mode();
    endwin();
    if (system("stty -a | grep -q ' icanon.* echo ' && echo as outside") != 0) exit(1);
    refresh();
    read_keys();
}

/* ---- what ends them */

static void end_by(const char *name, void (*program)(void), const char *keys, int number) {
    pid_t shell = start(program);
    want(comes(0, "the picture"), name, "it draws");
    if (keys) type(keys);
    else kill(-tcgetpgrp(master), number);
    int status = status_of_program();
    want(number ? WIFSIGNALED(status) && WTERMSIG(status) == number : WIFEXITED(status), name, "it ends by the signal");
    want(has_modes_again(), name, "the modes are as before");
    want(left_page(0), name, "the page is left");
    want(comes(0, "\033[?1l\033>"), name, "the keypad is off");
    finish(shell);
}

static void end_without_picture(const char *name, void (*program)(void)) {
    pid_t shell = start(program);
    int status = status_of_program();
    want(WIFEXITED(status) && (WEXITSTATUS(status) == 0 || WEXITSTATUS(status) == 5), name, "it ends well");
    want(has_modes_again(), name, "the modes are as before");
    want(left_page(0), name, "the page is left");
    finish(shell);
}

/* A program is stopped by a key, and continued. */
static void stop_and_continue(void) {
    const char *name = "Ctrl-Z";
    pid_t shell = start(read_keys);
    want(comes(0, "the picture"), name, "it draws");
    type("a");
    want(comes(0, "key 97."), name, "it answers a key");
    type("\032");
    int status = status_of_program();
    want(WIFSTOPPED(status) && WSTOPSIG(status) == SIGTSTP, name, "it stops");
    want(has_modes_again(), name, "the modes are as before");
    want(left_page(0), name, "the page is left");
    size_t continued = length;
    kill(shell, SIGCONT);
    want(comes(continued, "\033[?1049h"), name, "it comes back to its page");
    want(comes(continued, "the picture") && comes(continued, "key 97."), name, "the whole picture comes again");
    want(comes(continued, "\033[?1h\033="), name, "the keypad is on again");
    type("\033OA");
    want(comes(continued, "259."), name, "it answers keys again");
    type("\032");
    want(WIFSTOPPED(status_of_program()), name, "it stops again");
    kill(shell, SIGCONT);
    want(comes(length, "key 259."), name, "and comes again");
    type("q");
    want(WIFEXITED(status_of_program()), name, "it ends");
    want(has_modes_again() && left_page(0), name, "the terminal is as before");
    finish(shell);
}

/* The terminal gets another size while a program is stopped, of which no signal tells it. */
static void resize_while_stopped(void) {
    const char *name = "a new size after Ctrl-Z";
    const struct winsize size = {.ws_row = 30, .ws_col = 70};
    pid_t shell = start(read_keys);
    want(comes(0, "the picture"), name, "it draws");
    type("\032");
    want(WIFSTOPPED(status_of_program()), name, "it stops");
    ioctl(slave, TIOCSWINSZ, &size);
    size_t continued = length;
    kill(shell, SIGCONT);
    want(comes(continued, "the picture"), name, "the whole picture comes again");
    want(comes(continued, "key 410."), name, "it is answered at once");
    type("q");
    want(WIFEXITED(status_of_program()), name, "it ends");
    want(has_modes_again() && left_page(0) && strstr(bytes + continued, "\033[30;1H"), name, "the cursor is in the last line");
    finish(shell);
}

/* The state of a process, as Linux tells it. */
static char state_of(pid_t process) {
    char name[40], state = '?';
    snprintf(name, sizeof name, "/proc/%d/stat", (int)process);
    FILE *file = fopen(name, "r");
    if (file && fscanf(file, "%*d %*s %c", &state) != 1) state = '?';
    if (file) fclose(file);
    return state;
}

/* A stopped program ends without a terminal that listens to it. */
static void end_while_stopped(void) {
    const char *name = "SIGTERM after Ctrl-Z";
    pid_t shell = start(read_keys);
    want(comes(0, "the picture"), name, "it draws");
    pid_t job = tcgetpgrp(master);
    type("\032");
    want(WIFSTOPPED(status_of_program()) && has_modes_again(), name, "it stops, and the modes are as before");
    kill(-job, SIGTERM);
    kill(-job, SIGCONT);
    for (int tries = 0; tries < 200 && state_of(job) != 'Z'; tries++) usleep(10000);
    want(state_of(job) == 'Z', name, "it ends");
    want(has_modes_again() && left_page(0), name, "the terminal is as before");
    finish(shell);
}

/* A program that reads by itself isn't interrupted. */
static void stop_while_it_reads(void) {
    const char *name = "Ctrl-Z while the program reads";
    pid_t shell = start(read_by_itself);
    want(comes(0, "the picture"), name, "it draws");
    type("\032");
    want(WIFSTOPPED(status_of_program()) && has_modes_again(), name, "it stops, and the modes are as before");
    kill(shell, SIGCONT);
    type("q");
    int status = status_of_program();
    want(WIFEXITED(status) && WEXITSTATUS(status) == 0, name, "it reads on");
    want(has_modes_again() && left_page(0), name, "the terminal is as before");
    finish(shell);
}

/* A signal that comes right before a wait for a key ends that wait. */
static void signals_before_wait(void) {
    const char *name = "Ctrl-Z right before a wait";
    pid_t shell = start(stop_before_wait);
    want(WIFSTOPPED(status_of_program()) && has_modes_again(), name, "it stops, and the modes are as before");
    size_t continued = length;
    kill(shell, SIGCONT);
    want(comes(continued, "the picture"), name, "the whole picture comes again");
    type("q");
    want(WIFEXITED(status_of_program()) && has_modes_again(), name, "the terminal is as before");
    finish(shell);
    name = "a new size right before a wait";
    shell = start(resize_before_wait);
    want(comes(0, "key 410, 30 lines."), name, "it is answered at once");
    type("x");
    want(WIFEXITED(status_of_program()) && has_modes_again(), name, "the terminal is as before");
    finish(shell);
}

/* A wait goes on after a handler that lets calls go on, and ends after another. */
static void wait_among_alarms(void) {
    const char *name = "handlers that restart calls";
    pid_t shell = start(read_among_alarms);
    want(comes(0, "the picture"), name, "it draws");
    usleep(1300000);
    type("a");
    want(comes(0, "key 97 after some, and -1 after 1."), name, "the wait goes on, and with others ends");
    type("q");
    want(WIFEXITED(status_of_program()) && has_modes_again(), name, "the terminal is as before");
    finish(shell);
}

/* A program's own handlers are left alone. */
static void own_handlers(void (*program)(void), const char *name) {
    pid_t shell = start(program);
    want(comes(0, "the picture"), name, "it draws");
    type("\003");
    want(comes(0, "noted"), name, "its own handler is called");
    type("q");
    want(WIFEXITED(status_of_program()), name, "it ends by itself");
    want(has_modes_again() && left_page(0), name, "the terminal is as before");
    finish(shell);
}

static void shell_between(void) {
    const char *name = "system";
    pid_t shell = start(call_shell);
    want(comes(0, "the picture"), name, "it draws");
    type("x");
    want(comes(0, "as outside"), name, "the shell has the terminal as it was");
    if (!strstr(bytes, "as outside")) return finish(shell);
    size_t returned = (size_t)(strstr(bytes, "as outside") - bytes);
    want(comes(returned, "the picture"), name, "a refresh brings the picture back");
    type("\033OB");
    want(comes(returned, "key 258."), name, "and the keys");
    type("q");
    want(WIFEXITED(status_of_program()), name, "it ends");
    want(has_modes_again() && left_page(0), name, "the terminal is as before");
    finish(shell);
}

static void fork_between(void) {
    const char *name = "a child that exits";
    pid_t shell = start(fork_and_exit);
    want(comes(0, "the parent goes on"), name, "the parent goes on");
    want(!left_page(0), name, "the child leaves the page to its parent");
    type("x");
    want(WIFEXITED(status_of_program()) && has_modes_again(), name, "the parent gives the terminal back");
    finish(shell);
}

int main(void) {
    unsetenv("LINES");
    unsetenv("COLUMNS");
    end_by("SIGINT", read_keys, "\003", SIGINT);
    end_by("SIGTERM", read_keys, NULL, SIGTERM);
    end_by("SIGQUIT", read_keys, "\034", SIGQUIT);
    end_by("q", read_keys, "q", 0);
    end_without_picture("exit", exit_early);
    end_without_picture("delscreen", delete_screen);
    end_without_picture("a first write that fails", fail_at_once);
    stop_and_continue();
    resize_while_stopped();
    stop_while_it_reads();
    signals_before_wait();
    wait_among_alarms();
    end_while_stopped();
    own_handlers(read_with_own_handlers, "handlers from before");
    own_handlers(read_with_later_handlers, "handlers from later");
    shell_between();
    fork_between();
    printf("signals: %d times wrong\n", wrong);
    return wrong > 0;
}

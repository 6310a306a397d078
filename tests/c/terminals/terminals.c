/* Looks itself at what the calls of curspan_terminal.h do: it is shell and terminal, and programs run in
   pseudoterminals, one or two, while it types, sends signals, and looks at what they wrote and at the modes that they
   left. */
#define PART "terminals"
#include "../pseudoterminal.h"

#include <curspan_terminal.h>
#include <pthread.h>
#include <sys/resource.h>

static void drop_terminal(void) {
    close(master);
    close(slave);
}

/* ---- programs */

static curspan_terminal terminal;
static curspan screen;

static void say(const char *text) {
    if (write(2, text, strlen(text)) < 0) _exit(4);
}

/* Opens the terminal and shows a picture on it. */
static void begin_with(uint32_t options) {
    int lines, columns;
    if (curspan_terminal_open(&terminal, NULL, options) != CURSPAN_TERMINAL_OK) _exit(9);
    curspan_terminal_size(&terminal, &lines, &columns);
    curspan_open(&screen, (uint32_t)lines, (uint32_t)columns);
    curspan_waddstr(&screen, 0, "a picture", 9);
    curspan_wnoutrefresh(&screen, 0);
    if (curspan_terminal_show(&terminal, &screen) != CURSPAN_TERMINAL_OK) _exit(8);
}

static void begin(void) { begin_with(CURSPAN_TERMINAL_USUAL); }

/* Says the name of each key, and draws again where that is wanted; q ends it. */
static void tell_keys(void) {
    curspan_key key = {.code = 0};
    char name[64];
    while (key.code != 'q' && key.code != CURSPAN_KEY_EOF) {
        if (curspan_terminal_key(&terminal, 5000, &key) != CURSPAN_TERMINAL_OK) _exit(7);
        if (key.code == CURSPAN_KEY_RESIZE) curspan_terminal_show(&terminal, &screen);
        curspan_key_name(&key, name, sizeof name);
        say("<");
        say(name);
        if (key.code == CURSPAN_KEY_PASTE && write(2, key.text, key.length) < 0) _exit(4);
        say(">");
    }
    curspan_terminal_close(&terminal);
    curspan_close(&screen);
}

static void wait_for_keys(void) {
    begin();
    tell_keys();
}

static void wait_raw(void) {
    begin_with(CURSPAN_TERMINAL_USUAL | CURSPAN_TERMINAL_RAW);
    tell_keys();
}

static void exit_at_once(void) {
    begin();
    exit(5);
}

static void write_nowhere(void) {
    begin();
    *(volatile int *)8 = 1;
}

static int sum_of(int depth) {
    volatile char room[4000] = {0};
    return depth == 0 ? room[7] : sum_of(depth - 1) + room[depth % 4000];
}

static void want_more_stack(void) {
    struct rlimit limit = {1 << 20, 1 << 20};
    setrlimit(RLIMIT_STACK, &limit);
    begin();
    sum_of(1000000000);
}

static void divide_by_nothing(void) {
    begin();
    raise(SIGFPE);
}

static void abort_itself(void) {
    begin();
    abort();
}

static void suspend_it(void) {
    begin();
    if (curspan_terminal_suspend(&terminal) != CURSPAN_TERMINAL_OK) _exit(6);
    say("outside");
    if (curspan_terminal_resume(&terminal) != CURSPAN_TERMINAL_OK) _exit(5);
    curspan_terminal_show(&terminal, &screen);
    tell_keys();
}

/* ---- what ends them */

static void ends_by(const char *name, void (*program)(void), int number, const char *keys) {
    pid_t shell = start(program);
    want(comes(0, "a picture"), name, "the picture is shown");
    want(strstr(bytes, "\033[?1049h") != NULL, name, "it has a page of its own");
    if (keys) type(keys);
    else kill(-tcgetpgrp(master), number);
    int status = status_of_program();
    want(number ? WIFSIGNALED(status) && WTERMSIG(status) == number : WIFEXITED(status), name, "it ends so");
    want(left_page(0) && strstr(bytes, "\033[?25h") != NULL, name, "the page is left, with its cursor");
    want(has_modes_again(), name, "the modes are as before");
    finish(shell);
}

static void faults_end_it(void) {
    static const struct {
        const char *name;
        void (*program)(void);
        int number;
    } rows[] = {{"a write to nowhere", write_nowhere, SIGSEGV}, {"too deep a recursion", want_more_stack, SIGSEGV},
                {"a division", divide_by_nothing, SIGFPE}, {"abort", abort_itself, SIGABRT}};
    for (size_t i = 0; i < sizeof rows / sizeof rows[0]; i++) {
#ifdef __SANITIZE_ADDRESS__
        if (rows[i].program == want_more_stack) continue;
#endif
        pid_t shell = start(rows[i].program);
        int status = status_of_program();
#ifdef __SANITIZE_ADDRESS__
        want(WIFSIGNALED(status) || WIFEXITED(status), rows[i].name, "it ends");
#else
        want(WIFSIGNALED(status) && WTERMSIG(status) == rows[i].number, rows[i].name, "it ends by its signal");
#endif
        want(strstr(bytes, "a picture") && left_page(0), rows[i].name, "the page is left");
        want(has_modes_again(), rows[i].name, "the modes are as before");
        finish(shell);
    }
}

static void stop_it(void) {
    const char *name = "Ctrl-Z";
    pid_t shell = start(wait_for_keys);
    want(comes(0, "a picture"), name, "the picture is shown");
    type("\032");
    want(WIFSTOPPED(status_of_program()), name, "it stops");
    want(left_page(0) && has_modes_again(), name, "the terminal is given back");
    size_t from = length;
    kill(shell, SIGCONT);
    want(comes(from, "<resize>") && comes(from, "a picture"), name, "the picture is there again");
    type("q");
    int status = status_of_program();
    want(WIFEXITED(status) && WEXITSTATUS(status) == 0 && has_modes_again() && left_page(0), name, "it ends well");
    finish(shell);
}

/* ---- keys */

static void types(const char *name, void (*program)(void), const char *keys, const char *wanted) {
    pid_t shell = start(program);
    want(comes(0, "a picture"), name, "the picture is shown");
    size_t from = length;
    type(keys);
    want(comes(from, wanted), name, wanted);
    type("q");
    want(status_of_program() == 0 && has_modes_again(), name, "q ends it");
    finish(shell);
}

static void sizes_change(void) {
    struct winsize size = {.ws_row = 30, .ws_col = 100};
    pid_t shell = start(wait_for_keys);
    want(comes(0, "a picture"), "a new size", "the picture is shown");
    size_t from = length;
    ioctl(master, TIOCSWINSZ, &size);
    want(comes(from, "<resize>"), "a new size", "a key tells of it");
    type("q");
    want(status_of_program() == 0, "a new size", "q ends it");
    finish(shell);
}

static void terminal_goes(void) {
    int status = -1;
    pid_t shell = start(wait_for_keys);
    want(comes(0, "a picture"), "a terminal that goes", "the picture is shown");
    close(master);
    struct pollfd ready = {statuses, POLLIN, 0};
    while (poll(&ready, 1, 3000) > 0 && read(statuses, &status, sizeof status) == sizeof status) continue;
    want(poll(&ready, 1, 0) > 0,
         "a terminal that goes", "the program ends, and its shell"); /* nobody has the other end */
    master = -1;
    finish(shell);
}

/* ---- what is refused, with the terminal as it was */

static void *open_elsewhere(void *status) {
    curspan_key key;
    *(uint32_t *)status = curspan_terminal_key(&terminal, 0, &key);
    return NULL;
}

static bool is_untouched(void) { return !read_some(20) && has_modes_again(); }

static void refuses(void) {
    curspan_terminal other = CURSPAN_TERMINAL_INIT, third = CURSPAN_TERMINAL_INIT;
    pthread_t thread;
    uint32_t status = 0;
    int ends[2], lines, columns, state;
    setenv("TERM", "dumb", 1);
    make_terminal(24, 80);
    want(curspan_terminal_use(&terminal, slave, slave, 0) == CURSPAN_TERMINAL_DUMB && is_untouched(),
         "dumb", "it is refused");
    setenv("TERM", "xterm", 1);
    if (pipe(ends) != 0) exit(3);
    want(curspan_terminal_use(&terminal, ends[0], slave, 0) == CURSPAN_TERMINAL_NONE && is_untouched(),
         "a pipe", "it is refused");
    want(curspan_terminal_open(&terminal, "/nowhere/at/all", 0) == CURSPAN_TERMINAL_FAILED && errno == ENOENT,
         "no file", "the system says why");
    want(curspan_terminal_close(&terminal) == CURSPAN_TERMINAL_CLOSED, "a closed one", "it is closed");
    want(curspan_terminal_use(&terminal, slave, slave, CURSPAN_TERMINAL_SIGNALS) == CURSPAN_TERMINAL_OK,
         "a terminal", "it is opened");
    want(curspan_terminal_use(&terminal, slave, slave, 0) == CURSPAN_TERMINAL_OPEN, "the same again", "it is refused");
    want(curspan_terminal_open(&other, ptsname(master), 0) == CURSPAN_TERMINAL_OPEN,
         "the same by its name", "it is refused");
    int first = master, first_slave = slave;
    struct termios first_before = before;
    make_terminal(0, 2000);
    want(curspan_terminal_use(&other, slave, slave, CURSPAN_TERMINAL_SIGNALS) == CURSPAN_TERMINAL_SIGNALS_TAKEN &&
             is_untouched(),
         "signals", "they are taken");
    want(curspan_terminal_use(&other, slave, slave, 0) == CURSPAN_TERMINAL_OK, "another one", "it is opened beside");
    want(curspan_terminal_size(&other, &lines, &columns) == CURSPAN_TERMINAL_OK && lines == 24 && columns == 999,
         "sizes", "none is 24, and more are 999");
    want(curspan_terminal_init_pair(&other, &screen, 64, 1, -1) == CURSPAN_TERMINAL_REFUSED,
         "a pair", "there is no such one");
    pthread_create(&thread, NULL, open_elsewhere, &status);
    pthread_join(thread, NULL);
    want(status == CURSPAN_TERMINAL_OTHER_THREAD, "another thread", "it is refused");
    fflush(stdout);
    pid_t child = fork();
    if (child == 0) {
        curspan_key key;
        bool is_refused = curspan_terminal_key(&terminal, 0, &key) == CURSPAN_TERMINAL_FORKED &&
                          curspan_terminal_close(&terminal) == CURSPAN_TERMINAL_FORKED;
        exit(is_refused ? 0 : 1);
    }
    waitpid(child, &state, 0);
    want(state == 0 && is_untouched() == false, "a forked child", "it is refused, and leaves the terminal alone");
    want(curspan_terminal_close(&other) == CURSPAN_TERMINAL_OK && has_modes_again(), "the other", "it is given back");
    drop_terminal();
    master = first, slave = first_slave, before = first_before;
    want(curspan_terminal_use(&third, ends[0], ends[1], 0) == CURSPAN_TERMINAL_NONE, "two pipes", "they are refused");
    want(curspan_terminal_close(&terminal) == CURSPAN_TERMINAL_OK && has_modes_again(),
         "a terminal", "it is given back");
    for (uint32_t i = 0; i <= CURSPAN_TERMINAL_FAILED; i++)
        want(strlen(curspan_terminal_text(i)) > 3, "a status", "it has words");
    drop_terminal();
    close(ends[0]);
    close(ends[1]);
}

/* ---- two at once, colours, and a slow terminal */

/* Takes the bytes that a terminal got. */
static bool got(int from, const char *text) {
    master = from;
    length = 0;
    return comes(0, text);
}

static void two_at_once(void) {
    curspan_terminal both[2] = {CURSPAN_TERMINAL_INIT, CURSPAN_TERMINAL_INIT};
    curspan screens[2] = {CURSPAN_INIT, CURSPAN_INIT};
    const char *texts[2] = {"the first", "the other"};
    int masters[2], slaves[2];
    curspan_key key;
    for (int i = 0; i < 2; i++) {
        make_terminal(10 + i, 40 + i);
        masters[i] = master;
        slaves[i] = slave;
        want(curspan_terminal_use(&both[i], slave, slave, CURSPAN_TERMINAL_PAGE) == CURSPAN_TERMINAL_OK,
             "two at once", "each is opened");
        curspan_open(&screens[i], (uint32_t)(10 + i), (uint32_t)(40 + i));
        curspan_terminal_init_pair(&both[i], &screens[i], 1, 1 + i, -1);
        curspan_wcolor_set(&screens[i], 0, 1);
        curspan_waddstr(&screens[i], 0, texts[i], 9);
        curspan_wnoutrefresh(&screens[i], 0);
        want(curspan_terminal_show(&both[i], &screens[i]) == CURSPAN_TERMINAL_OK, "two at once", "each is shown");
    }
    want(write(masters[0], "a", 1) == 1 && write(masters[1], "\033[1;5C", 6) == 6, "two at once", "keys are typed");
    want(curspan_terminal_key(&both[1], 2000, &key) == CURSPAN_TERMINAL_OK && key.code == CURSPAN_KEY_RIGHT &&
             key.modifiers == CURSPAN_CTRL,
         "two at once", "the other reads its key");
    want(curspan_terminal_key(&both[0], 2000, &key) == CURSPAN_TERMINAL_OK && key.code == 'a' && key.length == 1,
         "two at once", "the first reads its key");
    want(got(masters[0], ";31;49mthe first"),
         "two at once", "the first shows its screen, on the background of the terminal");
    want(got(masters[1], ";32;49mthe other"), "two at once", "the other shows its own");
    curspan_terminal_init_pair(&both[0], &screens[0], 1, -1, 4);
    curspan_terminal_show(&both[0], &screens[0]);
    want(got(masters[0], ";39;44mthe first"), "colours", "what is shown gets others");
    for (int i = 0; i < 2; i++) {
        curspan_terminal_close(&both[i]);
        curspan_close(&screens[i]);
        close(masters[i]);
        close(slaves[i]);
    }
}

static void *read_slowly(void *none) {
    static char part[3000];
    for (size_t all = 0; all < 300000;) {
        poll(NULL, 0, 1);
        ssize_t count = read(master, part, sizeof part);
        if (count <= 0) break;
        all += (size_t)count;
    }
    return none;
}

static void slow_terminal(void) {
    static char text[300000];
    pthread_t reader;
    memset(text, 'x', sizeof text);
    make_terminal(24, 80);
    fcntl(slave, F_SETFL, fcntl(slave, F_GETFL) | O_NONBLOCK);
    want(curspan_terminal_use(&terminal, slave, slave, 0) == CURSPAN_TERMINAL_OK, "a slow terminal", "it is opened");
    pthread_create(&reader, NULL, read_slowly, NULL);
    want(curspan_terminal_write(&terminal, text, sizeof text) == CURSPAN_TERMINAL_OK,
         "a slow terminal", "all is written");
    pthread_join(reader, NULL);
    curspan_terminal_close(&terminal);
    drop_terminal();
}

static void texts_are_plain(void) {
    char out[32];
    const char text[] = "r\303\251sum\303\251\t\346\227\245\377.\n", plain[] = "resume?? ?.\n";
    size_t count = curspan_plain_text(text, sizeof text - 1, out);
    want(count == sizeof plain - 1 && memcmp(out, plain, count) == 0, "a text", "it is plain");
}

int main(void) {
    const int numbers[] = {SIGINT, SIGTERM, SIGQUIT, SIGHUP, SIGPIPE, SIGALRM, SIGUSR1, SIGUSR2, SIGVTALRM, SIGPROF,
                           SIGXCPU, SIGXFSZ, SIGSYS, SIGTRAP, SIGIO, SIGPWR, SIGSTKFLT, SIGRTMIN, SIGRTMAX,
                           SIGSEGV, SIGBUS, SIGFPE, SIGILL, SIGABRT};
    struct rlimit none = {0, 0};
    setrlimit(RLIMIT_CORE, &none);
    setenv("TERM", "xterm", 1);
#ifdef __SANITIZE_ADDRESS__
    size_t count = sizeof numbers / sizeof numbers[0] - 5; /* the sanitizer has its own way with faults */
#else
    size_t count = sizeof numbers / sizeof numbers[0];
#endif
    for (size_t i = 0; i < count; i++) ends_by(strsignal(numbers[i]), wait_for_keys, numbers[i], NULL);
    ends_by("Ctrl-C", wait_for_keys, SIGINT, "\003");
    ends_by("exit", exit_at_once, 0, "");
    ends_by("a key", wait_for_keys, 0, "q");
    faults_end_it();
    stop_it();
    types("Ctrl-C in raw mode", wait_raw, "\003", "<ctrl+c>");
    types("keys", wait_for_keys, "a\303\251\r\t\177\033[A\033[1;5D\033[1;2P\033OS\033[3~\033x",
          "<a><\303\251><enter><tab><backspace><up><ctrl+left><shift+f1><f4><delete><alt+x>");
    types("an escape", wait_for_keys, "\033", "<escape>");
    types("what is no key", wait_for_keys, "\033[9zx\377", "<unknown><x><unknown>");
    types("a text that is pasted", wait_for_keys, "\033[200~two\rlines\033[A\033[201~x",
          "<pastetwo\r\nlines\033[A><x>");
    types("suspend", suspend_it, "x", "<x>");
    sizes_change();
    terminal_goes();
    refuses();
    two_at_once();
    slow_terminal();
    texts_are_plain();
    if (wrong == 0) puts("terminals: all is so");
    return wrong != 0;
}

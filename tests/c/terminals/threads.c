/* Eight threads open, show, read keys, suspend and close terminals of their own by chance, for some seconds. One of
   them may own the signals, and another thread sends some, and gives all back. */
#include <curspan_terminal.h>
#include <poll.h>
#include <pthread.h>
#include <pty.h>
#include <signal.h>
#include <stdio.h>
#include <stdlib.h>
#include <string.h>
#include <time.h>
#include <unistd.h>

enum { THREADS = 8 };

static time_t end;

/* A pseudoterminal whose other end is read and typed at. */
struct line {
    unsigned seed;
    int master, slave, is_over;
};

static void *drain(void *of) {
    struct line *line = of;
    char drained[4096];
    struct pollfd ready = {line->master, POLLIN, 0};
    while (!__atomic_load_n(&line->is_over, __ATOMIC_SEQ_CST))
        if (poll(&ready, 1, 20) > 0 && read(line->master, drained, sizeof drained) < 0) usleep(1000);
    return NULL;
}

static void type_some(struct line *line) {
    static const char *const texts[] = {"a", "\033[A", "\033", "\033[200~text\033[201~", "\364\220\200\204"};
    const char *text = texts[rand_r(&line->seed) % 5];
    if (write(line->master, text, strlen(text)) < 0) abort();
}

static void use_terminal(struct line *line, curspan_terminal *terminal, curspan *screen) {
    struct winsize size = {.ws_row = (unsigned short)(10 + rand_r(&line->seed) % 20), .ws_col = 60};
    curspan_key key;
    size_t kept;
    switch (rand_r(&line->seed) % 10) {
    case 0: curspan_terminal_suspend(terminal); break;
    case 1: curspan_terminal_resume(terminal); break;
    case 2: ioctl(line->master, TIOCSWINSZ, &size); break;
    case 3: curspan_terminal_flush(terminal, 1, &kept); break;
    case 4: type_some(line); break;
    case 5:
    case 6:
        curspan_waddstr(screen, 0, "some text, ", 11);
        curspan_wnoutrefresh(screen, 0);
        curspan_terminal_show(terminal, screen);
        break;
    default: curspan_terminal_key(terminal, rand_r(&line->seed) % 3, &key);
    }
}

static void *run(void *of) {
    struct line *line = of;
    pthread_t drainer;
    curspan screen = CURSPAN_INIT;
    pthread_create(&drainer, NULL, drain, line);
    while (time(NULL) < end) {
        curspan_terminal terminal = CURSPAN_TERMINAL_INIT;
        uint32_t options = (unsigned)rand_r(&line->seed) % 64;
        uint32_t status = curspan_terminal_use(&terminal, line->slave, line->slave, options);
        if (status == CURSPAN_TERMINAL_SIGNALS_TAKEN) continue;
        if (status != CURSPAN_TERMINAL_OK) abort();
        if (curspan_open(&screen, 10, 40).status != CURSPAN_OK) abort();
        for (int i = rand_r(&line->seed) % 20; i > 0; i--) use_terminal(line, &terminal, &screen);
        if (curspan_terminal_close(&terminal) != CURSPAN_TERMINAL_OK) abort();
    }
    curspan_close(&screen);
    __atomic_store_n(&line->is_over, 1, __ATOMIC_SEQ_CST);
    pthread_join(drainer, NULL);
    return NULL;
}

/* threads [SECONDS [SEED]] */
int main(int count, char **words) {
    struct line lines[THREADS];
    pthread_t threads[THREADS];
    struct termios before, now;
    struct winsize size = {.ws_row = 24, .ws_col = 80};
    int wrong = 0;
    unsigned seed = count > 2 ? (unsigned)atoi(words[2]) : 1;
    end = time(NULL) + (count > 1 ? atoi(words[1]) : 3);
    setenv("TERM", "xterm", 1);
    signal(SIGWINCH, SIG_IGN); /* until a terminal owns the signals */
    for (unsigned i = 0; i < THREADS; i++) {
        lines[i] = (struct line){.seed = seed * THREADS + i};
        if (openpty(&lines[i].master, &lines[i].slave, NULL, NULL, &size) != 0) abort();
        tcgetattr(lines[i].slave, &before);
        pthread_create(&threads[i], NULL, run, &lines[i]);
    }
    while (time(NULL) < end) {
        kill(getpid(), SIGWINCH);
        if (rand_r(&seed) % 8 == 0) curspan_terminal_give_back();
        usleep(2000);
    }
    for (int i = 0; i < THREADS; i++) {
        pthread_join(threads[i], NULL);
        wrong += tcgetattr(lines[i].slave, &now) != 0 || now.c_lflag != before.c_lflag;
    }
    printf("threads: %d terminals were not given back\n", wrong);
    return wrong != 0;
}

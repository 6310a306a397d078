/* Loaded before a program, so that each run of it has the same time and chance. */
#define _GNU_SOURCE
#include <dlfcn.h>
#include <poll.h>
#include <signal.h>
#include <stdlib.h>
#include <sys/syscall.h>
#include <sys/time.h>
#include <time.h>
#include <unistd.h>

enum { NOON = 1700000000 };

static unsigned state = 1;

time_t time(time_t *now) {
    if (now) *now = NOON;
    return NOON;
}

int gettimeofday(struct timeval *restrict now, void *restrict zone) {
    const struct timeval noon = {NOON, 0};
    (void)zone;
    *now = noon;
    return 0;
}

/* The seeds that programs give change nothing. */
void srand(unsigned seed) { (void)seed; }
void srandom(unsigned seed) { (void)seed; }
void srand48(long seed) { (void)seed; }

int rand(void) {
    state = state * 1103515245u + 12345u;
    return (int)(state >> 1);
}

long random(void) { return rand(); }
long lrand48(void) { return rand(); }
double drand48(void) { return rand() / 2147483648.0; }

/* ---- a program that moves by itself makes so many moves at first and after each key, and then waits for the next one */

enum { MOVES = 20 };

static int left = MOVES;
static int reads_keys; /* or else a pause takes the key that ended it */
static struct itimerval interval;
static void (*move)(int);

/* Stands for a pause. */
static int pause_once(void) {
    struct pollfd input = {0, POLLIN, 0};
    char key;
    if (left-- > 0) return 0;
    left = MOVES;
    while (poll(&input, 1, -1) < 0) continue;
    if (!reads_keys) (void)!syscall(SYS_read, 0, &key, 1);
    return 0;
}

int napms(int milliseconds) { return (void)milliseconds, pause_once(); }
int usleep(useconds_t microseconds) { return (void)microseconds, pause_once(); }

static int set_timer(const struct itimerval *value) { return (int)syscall(SYS_setitimer, ITIMER_REAL, value, NULL); }

static void move_once(int number) {
    const struct itimerval none = {{0, 0}, {0, 0}};
    if (left-- > 0) move(number);
    else set_timer(&none);
}

int setitimer(__itimer_which_t which, const struct itimerval *restrict value, struct itimerval *restrict before) {
    (void)which;
    (void)before;
    interval = *value;
    return set_timer(value);
}

int sigaction(int number, const struct sigaction *restrict action, struct sigaction *restrict before) {
    int (*other)(int, const struct sigaction *, struct sigaction *) = dlsym(RTLD_NEXT, "sigaction");
    if (number != SIGALRM || !action) return other(number, action, before);
    struct sigaction counted = *action;
    move = action->sa_handler;
    counted.sa_handler = move_once;
    return other(number, &counted, before);
}

ssize_t read(int file, void *bytes, size_t count) {
    ssize_t found = syscall(SYS_read, file, bytes, count);
    reads_keys |= file == 0;
    if (file == 0 && found > 0 && move) {
        left = MOVES;
        set_timer(&interval);
    }
    return found;
}

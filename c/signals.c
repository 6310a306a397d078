/* Signals: terminals are given back before one ends or stops the program, and at its exit. Handlers call only what the
   standard allows in them, and wait for nothing. Nothing here is proved. */
#include "terminal.h"
#include "curspan_terminal.h"

#include <errno.h>
#include <pthread.h>
#include <sched.h>
#include <sys/eventfd.h>
#include <sys/ioctl.h>
#include <unistd.h>

static const int faults[] = {SIGSEGV, SIGBUS, SIGFPE, SIGILL, SIGABRT};

enum { FAULTS = sizeof faults / sizeof faults[0], LAST_SIGNAL = 64, STACK = 32768 };

/* The terminals of this process. Those that were closed stay in the list, to be entered again, since a handler may walk
   it at any time, which takes no lock. */
static struct {
    pthread_mutex_t lock;
    struct curspan_tty *first;
    struct curspan_tty *signalled;         /* the one that owns the signals, or NULL */
    struct sigaction after_fault[FAULTS];  /* what the program has done at each */
    int endings;                           /* signals that came and end the program */
} terminals = {.lock = PTHREAD_MUTEX_INITIALIZER};

/* Whether a terminal is this process's, which a forked one's isn't: then nobody closes it until it is let go. */
static bool hold(struct curspan_tty *tty) {
    if (!tty) return false;
    __atomic_add_fetch(&tty->holds, 1, __ATOMIC_SEQ_CST);
    if (CURSPAN_LOOK(tty->owner) == getpid()) return true;
    __atomic_sub_fetch(&tty->holds, 1, __ATOMIC_SEQ_CST);
    return false;
}

static void let_go(struct curspan_tty *tty) { __atomic_sub_fetch(&tty->holds, 1, __ATOMIC_SEQ_CST); }

static void give_all_back(bool waits) {
    int before = errno;
    for (struct curspan_tty *tty = CURSPAN_LOOK(terminals.first); tty; tty = tty->next) {
        if (!hold(tty)) continue;
        if (curspan_is_owed(tty)) {
            curspan_give_back(tty, waits && !tty->keeps ? -1 : 0);
            curspan_ring(tty);
        }
        let_go(tty);
    }
    errno = before;
}

void curspan_terminal_give_back(void) { give_all_back(false); }

/* First all that don't make it wait, then the others. */
static void give_back_at_exit(void) {
    give_all_back(false);
    give_all_back(true);
}

/* ---- handlers */

/* Sets what a signal does. Meanwhile the terminal may be changed from behind. */
static void on(int number, void (*handler)(int), int flags) {
    struct sigaction action = {.sa_handler = handler, .sa_flags = flags};
    sigemptyset(&action.sa_mask);
    sigaddset(&action.sa_mask, SIGTTOU);
    sigaddset(&action.sa_mask, SIGTSTP);
    sigaction(number, &action, NULL);
}

/* Another one that comes meanwhile does the same, and a third one ends the program at once. */
static void end(int number) {
    if (__atomic_fetch_add(&terminals.endings, 1, __ATOMIC_SEQ_CST) < 2) curspan_terminal_give_back();
    on(number, SIG_DFL, 0);
    raise(number);
}

/* What comes by itself comes again where this handler returns, and what was sent is sent again. */
static void fault(int number, siginfo_t *info, void *context) {
    (void)context;
    curspan_terminal_give_back();
    for (int i = 0; i < FAULTS; i++)
        if (faults[i] == number) sigaction(number, &terminals.after_fault[i], NULL);
    if (info->si_code <= 0 || number == SIGABRT) raise(number);
}

/* Whether the terminal listens to this process, and not to one that runs before it. */
static bool is_in_front(const struct curspan_tty *tty) { return tcgetpgrp(tty->line) == getpgrp(); }

/* Stops as the signal does where nobody catches it, until the program is continued. */
static void stop_now(void (*handler)(int)) {
    sigset_t through;
    on(SIGTSTP, SIG_DFL, 0);
    sigemptyset(&through);
    sigaddset(&through, SIGTSTP);
    sigaddset(&through, SIGTTOU);
    raise(SIGTSTP);
    sigprocmask(SIG_UNBLOCK, &through, NULL);
    on(SIGTSTP, handler, SA_RESTART);
}

/* Gives a terminal back and stops. When the program goes on its modes are set, and the next refresh draws all. */
static void stop_with(struct curspan_tty *tty, void (*handler)(int)) {
    bool is_keypad = CURSPAN_LOOK(tty->is_keypad);
    if (is_in_front(tty)) tcgetattr(tty->line, &tty->program);
    curspan_give_back(tty, 0);
    stop_now(handler);
    if (is_in_front(tty)) tcgetattr(tty->line, &tty->shell);
    curspan_set_modes(tty, &tty->program, TCSANOW);
    if (is_keypad) curspan_switch_keypad(tty, true, 0);
    CURSPAN_SET(tty->is_ended, false);
    CURSPAN_SET(tty->was_stopped, true);
    curspan_ring(tty);
}

static void stop(int number) {
    struct curspan_tty *tty = CURSPAN_LOOK(terminals.signalled);
    int before = errno;
    bool is_there = number == SIGTSTP && hold(tty), is_held = is_there && CURSPAN_LOOK(tty->is_held);
    if (is_held) CURSPAN_SET(tty->stop_is_due, true);
    else if (is_there && curspan_is_owed(tty)) stop_with(tty, stop);
    else stop_now(stop);
    if (is_there) let_go(tty);
    errno = before;
}

static void note_size(int number) {
    struct curspan_tty *tty = CURSPAN_LOOK(terminals.signalled);
    int before = errno;
    if (number != SIGWINCH || !hold(tty)) return;
    CURSPAN_SET(tty->was_resized, true);
    curspan_ring(tty);
    let_go(tty);
    errno = before;
}

void curspan_hold_stop(struct curspan_tty *tty) { CURSPAN_SET(tty->is_held, true); }

void curspan_let_stop(struct curspan_tty *tty) {
    CURSPAN_SET(tty->is_held, false);
    if (CURSPAN_TAKE(tty->stop_is_due)) raise(SIGTSTP);
}

/* ---- which are caught */

static bool is_fault(int number) {
    for (int i = 0; i < FAULTS; i++)
        if (faults[i] == number) return true;
    return false;
}

/* What is done at a signal that the program left as it was, or NULL where that neither ends nor stops it. */
static void (*handler_of(int number))(int) {
    static const int others[] = {SIGKILL, SIGSTOP, SIGCHLD, SIGCONT, SIGURG, SIGTTIN, SIGTTOU};
    for (size_t i = 0; i < sizeof others / sizeof others[0]; i++)
        if (others[i] == number || is_fault(number)) return NULL;
    return number == SIGTSTP ? stop : number == SIGWINCH ? note_size : end;
}

static bool has(int number, void (*handler)(int)) {
    struct sigaction now;
    return sigaction(number, NULL, &now) == 0 && !(now.sa_flags & SA_SIGINFO) && now.sa_handler == handler;
}

static bool catches_faults(const struct sigaction *now) {
    return now->sa_flags & SA_SIGINFO && now->sa_sigaction == fault;
}

/* Catches faults, also one for want of stack, before what the program does at them. A forked child does so already. */
static void catch_faults(void) {
    static char stack[STACK];
    stack_t other = {.ss_sp = stack, .ss_size = STACK}, now;
    struct sigaction action = {.sa_sigaction = fault, .sa_flags = SA_SIGINFO | SA_ONSTACK | SA_RESTART};
    if (sigaltstack(NULL, &now) == 0 && now.ss_flags & SS_DISABLE) sigaltstack(&other, NULL);
    sigemptyset(&action.sa_mask);
    for (int i = 0; i < FAULTS; i++) {
        struct sigaction before;
        sigaction(faults[i], &action, &before);
        if (!catches_faults(&before)) terminals.after_fault[i] = before;
    }
}

static void catch_signals(void) {
    if (has(SIGWINCH, SIG_IGN)) on(SIGWINCH, SIG_DFL, 0);
    for (int number = 1; number <= LAST_SIGNAL; number++) {
        void (*handler)(int) = handler_of(number);
        if (handler && has(number, SIG_DFL)) on(number, handler, handler == end ? SA_NODEFER : SA_RESTART);
    }
    catch_faults();
}

static void leave_signals(void) {
    struct sigaction now;
    for (int number = 1; number <= LAST_SIGNAL; number++)
        if (handler_of(number) && has(number, handler_of(number))) on(number, SIG_DFL, 0);
    for (int i = 0; i < FAULTS; i++)
        if (sigaction(faults[i], NULL, &now) == 0 && catches_faults(&now))
            sigaction(faults[i], &terminals.after_fault[i], NULL);
}

static bool is_of_program(void (*handler)(int)) {
    return handler != SIG_DFL && handler != SIG_IGN && handler != end && handler != stop && handler != note_size;
}

bool curspan_handlers_restart(void) {
    for (int number = 1; number <= LAST_SIGNAL; number++) {
        struct sigaction now;
        bool ends_wait = !is_fault(number) || number == SIGABRT;
        if (!ends_wait || sigaction(number, NULL, &now) != 0 || now.sa_flags & SA_RESTART) continue;
        if (now.sa_flags & SA_SIGINFO || is_of_program(now.sa_handler)) return false;
    }
    return true;
}

/* ---- which terminals there are */

/* Which terminal a descriptor is, whatever the name is by which it was opened. */
static unsigned device_of(int descriptor) {
    unsigned device = 0;
    return ioctl(descriptor, TIOCGDEV, &device) == 0 ? device : 0;
}

static bool is_mine(const struct curspan_tty *tty) { return tty && CURSPAN_LOOK(tty->owner) == getpid(); }

static enum curspan_entry find_hindrance(const struct curspan_tty *tty, bool shall_own) {
    for (const struct curspan_tty *other = terminals.first; other; other = other->next)
        if (is_mine(other) && tty->device && other->device == tty->device) return CURSPAN_OPEN_ALREADY;
    return shall_own && is_mine(terminals.signalled) ? CURSPAN_OWNED_ALREADY : CURSPAN_ENTERED;
}

enum curspan_entry curspan_attend(struct curspan_tty *tty, bool shall_own) {
    static bool is_registered;
    pthread_mutex_lock(&terminals.lock);
    if (!is_registered) is_registered = atexit(give_back_at_exit) == 0;
    tty->bell = -1;
    tty->device = device_of(tty->out);
    tty->was_stopped = tty->was_resized = tty->is_held = tty->stop_is_due = tty->rings = tty->is_suspended = false;
    tty->typed = (struct curspan_typed){.count = 0};
    enum curspan_entry answer = find_hindrance(tty, shall_own);
    if (answer == CURSPAN_ENTERED) {
        tty->bell = eventfd(0, EFD_CLOEXEC | EFD_NONBLOCK);
        tty->owns = shall_own;
        CURSPAN_SET(tty->owner, getpid());
        if (!tty->is_listed) {
            tty->next = terminals.first;
            tty->is_listed = true;
            CURSPAN_SET(terminals.first, tty);
        }
        if (shall_own) {
            CURSPAN_SET(terminals.signalled, tty);
            catch_signals();
        }
    }
    pthread_mutex_unlock(&terminals.lock);
    return answer;
}

/* Handlers that look at it are waited for. */
void curspan_abandon(struct curspan_tty *tty) {
    bool was_mine = CURSPAN_LOOK(tty->owner) == getpid();
    pthread_mutex_lock(&terminals.lock);
    if (terminals.signalled == tty) {
        if (was_mine) leave_signals();
        CURSPAN_SET(terminals.signalled, NULL);
    }
    CURSPAN_SET(tty->owner, 0);
    while (was_mine && CURSPAN_LOOK(tty->holds) > 0) sched_yield();
    pthread_mutex_unlock(&terminals.lock);
    if (tty->own >= 0) close(tty->own);
    if (tty->bell >= 0) close(tty->bell);
    free(tty->kept);
    tty->kept = NULL;
    tty->kept_count = 0;
    tty->own = tty->bell = -1;
}

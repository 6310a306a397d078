/* Looks at what curspan_terminal_key and the descriptor beside it tell, and when: of bytes that are no keys, of pasted
   texts in parts, of signals that another thread's handler takes, and after a terminal was given back. */
#define PART "events"
#include "../pseudoterminal.h"

#include <curspan_terminal.h>
#include <pthread.h>
#include <time.h>

static curspan_terminal terminal;
static curspan_key key;

static void say(const char *text) {
    if (write(2, text, strlen(text)) < 0) _exit(4);
}

/* Opens a terminal of this process. */
static void open_here(uint32_t options) {
    make_terminal(24, 80);
    want(curspan_terminal_use(&terminal, slave, slave, options) == CURSPAN_TERMINAL_OK, "a terminal", "it is opened");
}

static void close_here(const char *name) {
    want(curspan_terminal_close(&terminal) == CURSPAN_TERMINAL_OK && has_modes_again(), name, "it is given back");
    close(master);
    close(slave);
}

static void types(const char *keys, size_t size) {
    if (write(master, keys, size) != (ssize_t)size) wrong++;
}

#define TYPE(keys) types(keys, sizeof keys - 1)

static uint32_t next(int milliseconds) {
    if (curspan_terminal_key(&terminal, milliseconds, &key) != CURSPAN_TERMINAL_OK) wrong++;
    return key.code;
}

static bool is_ready(int milliseconds) {
    struct pollfd ready = {curspan_terminal_descriptor(&terminal), POLLIN, 0};
    return poll(&ready, 1, milliseconds) > 0;
}

static long now(void) {
    struct timespec time;
    clock_gettime(CLOCK_MONOTONIC, &time);
    return (long)time.tv_sec * 1000 + time.tv_nsec / 1000000;
}

/* ---- bytes */

static void are_unknown(const char *name, const char *text, size_t size, int count) {
    size_t all = 0;
    open_here(CURSPAN_TERMINAL_PASTE);
    types(text, size);
    for (int i = 0; i < count; i++) {
        want(next(300) == CURSPAN_KEY_UNKNOWN && key.modifiers == 0, name, "it is no key");
        all += key.length;
    }
    want(all == size && next(0) == CURSPAN_KEY_NONE, name, "each byte is in one");
    TYPE("q");
    want(next(1000) == 'q' && key.length == 1, name, "a key after it is read");
    close_here(name);
}

static void bytes_are_no_events(void) {
    static const char above[] = {'\364', '\220', '\200'};
    for (int last = 0x80; last < 0x90; last++) {
        char text[4] = {above[0], above[1], above[2], (char)last};
        are_unknown("a code past the last character", text, sizeof text, 4);
    }
    are_unknown("six bytes", "\375\277\277\277\277\277", 6, 6);
    are_unknown("an answer that comes late", "\033]11;rgb:0000/0000/0000\033\\", 25, 1);
    are_unknown("a sequence that no key has", "\033[9z", 4, 1);
}

static void modifiers_are_told(void) {
    open_here(0);
    TYPE("\033[97;5u\033OA\033[1;5C");
    want(next(300) == 'a' && key.modifiers == CURSPAN_CTRL && key.length == 7, "CSI 97;5u", "it is ctrl+a");
    want(next(0) == CURSPAN_KEY_UP && next(0) == CURSPAN_KEY_RIGHT && key.modifiers == CURSPAN_CTRL,
         "keys", "they follow");
    TYPE("\033O\033[A");
    want(next(300) == 'O' && key.modifiers == CURSPAN_ALT && next(0) == CURSPAN_KEY_UP,
         "ESC O", "an arrow after it stays");
    close_here("keys");
}

/* What was typed while nobody asked is looked at before the delay is over. */
static void sleeps_while_keys_come(void) {
    open_here(0);
    TYPE("\033");
    want(next(0) == CURSPAN_KEY_NONE, "an escape", "more may come");
    TYPE("[A");
    usleep(300000);
    want(next(0) == CURSPAN_KEY_UP && key.length == 3, "an arrow that came in two", "it is an arrow, however late");
    TYPE("\033");
    want(next(1000) == CURSPAN_KEY_ESCAPE && next(0) == CURSPAN_KEY_NONE, "an escape", "it is a key by itself");
    close_here("keys");
}

/* ---- pasted texts */

static bool pasted(int milliseconds, const char *text, bool is_ended) {
    return next(milliseconds) == CURSPAN_KEY_PASTE && key.length == strlen(text) &&
           memcmp(key.text, text, key.length) == 0 && (key.flags & CURSPAN_ENDED) == (is_ended ? CURSPAN_ENDED : 0);
}

static void pastes_are_told(void) {
    open_here(CURSPAN_TERMINAL_PASTE);
    TYPE("\033[200~one\rtwo\033[20");
    want(next(0) == CURSPAN_KEY_NONE, "half a paste", "more is to come");
    want(pasted(3000, "one\ntwo", false), "a paste that pauses", "it is told as a part");
    TYPE("1~q");
    want(pasted(300, "", true) && next(0) == 'q', "its end", "it is told, and keys follow");
    TYPE("\033[200~sev\033[2");
    want(next(0) == CURSPAN_KEY_NONE, "half a paste", "more is to come");
    want(curspan_terminal_suspend(&terminal) == CURSPAN_TERMINAL_OK, "suspend", "it is done");
    want(curspan_terminal_resume(&terminal) == CURSPAN_TERMINAL_OK, "resume", "it is done");
    TYPE("q");
    want(is_ready(1000) && pasted(0, "sev\033[2", true), "a paste in which it is suspended", "it ends there");
    want(next(300) == 'q', "a key after it", "it is a key");
    close_here("pastes");
}

static void *paste_much(void *none) {
    static char part[1000];
    memset(part, 'x', sizeof part);
    TYPE("\033[200~");
    for (int i = 0; i < 3000; i++) types(part, sizeof part);
    TYPE("\033[201~");
    return none;
}

static void long_pastes_come_in_parts(void) {
    pthread_t writer;
    size_t all = 0;
    open_here(CURSPAN_TERMINAL_PASTE);
    pthread_create(&writer, NULL, paste_much, NULL);
    do {
        if (next(3000) != CURSPAN_KEY_PASTE) break;
        all += key.length;
        want(key.length <= 1 << 20, "a long paste", "its parts are short");
    } while (!(key.flags & CURSPAN_ENDED));
    want(all == 3000000 && (key.flags & CURSPAN_ENDED), "a long paste", "all of it comes");
    pthread_join(writer, NULL);
    close_here("a long paste");
}

/* ---- the descriptor */

/* Nothing is told, and the descriptor isn't ready again. */
static bool is_quiet(void) { return next(0) == CURSPAN_KEY_NONE && !is_ready(50); }

static void descriptor_is_ready(void) {
    struct winsize size = {.ws_row = 30, .ws_col = 100};
    long begin;
    open_here(CURSPAN_TERMINAL_PASTE | CURSPAN_TERMINAL_SIGNALS);
    int descriptor = curspan_terminal_descriptor(&terminal);
    want(descriptor >= 0 && !is_ready(50), "nothing", "it isn't ready");
    TYPE("ab\033[A");
    want(is_ready(1000) && next(0) == 'a' && is_ready(0) && next(0) == 'b', "three keys at once", "two come");
    want(is_ready(0) && next(0) == CURSPAN_KEY_UP && is_quiet(), "three keys at once", "the third comes, and no more");
    TYPE("\033");
    begin = now();
    want(is_ready(1000) && next(0) == CURSPAN_KEY_NONE && now() - begin < 60, "an escape", "nothing waits");
    want(is_ready(1000) && next(0) == CURSPAN_KEY_ESCAPE && is_quiet(), "an escape", "its delay ends");
    TYPE("\033[");
    want(is_ready(1000) && next(0) == CURSPAN_KEY_NONE, "half a sequence", "it isn't told");
    want(!is_ready(30), "half a sequence", "it isn't ready");
    TYPE("D");
    want(is_ready(1000) && next(0) == CURSPAN_KEY_LEFT && is_quiet(), "its other half", "it is told");
    TYPE("\033[200~text");
    want(is_ready(1000) && next(0) == CURSPAN_KEY_NONE && !is_ready(300), "half a paste", "it waits for more");
    want(is_ready(2000) && pasted(0, "text", false) && is_quiet(), "half a paste", "it is told after a second");
    TYPE("\033[201~");
    want(is_ready(1000) && pasted(0, "", true) && is_quiet(), "its end", "it is told");
    ioctl(master, TIOCSWINSZ, &size);
    raise(SIGWINCH);
    want(is_ready(1000) && next(0) == CURSPAN_KEY_RESIZE && is_quiet(), "a new size", "it is told");
    curspan_terminal_give_back();
    want(has_modes_again() && is_ready(1000) && next(0) == CURSPAN_KEY_RESIZE,
         "a terminal that was given back", "it is told");
    want(!has_modes_again() && is_quiet(), "a terminal that was given back", "its modes are taken again");
    want(descriptor == curspan_terminal_descriptor(&terminal), "the descriptor", "it is the same");
    close(master);
    want(is_ready(1000) && next(0) == CURSPAN_KEY_EOF && next(0) == CURSPAN_KEY_EOF, "the end", "it is told each time");
    curspan_terminal_close(&terminal);
    close(slave);
}

/* One that owns no signals looks at its size. */
static void descriptor_ticks(void) {
    struct winsize size = {.ws_row = 30, .ws_col = 100};
    int looks = 0;
    open_here(0);
    ioctl(master, TIOCSWINSZ, &size);
    while (looks++ < 5 && is_ready(2000) && next(0) == CURSPAN_KEY_NONE) continue;
    want(key.code == CURSPAN_KEY_RESIZE, "a size without signals", "it is told");
    TYPE("\033");
    looks = 0;
    while (looks++ < 5 && is_ready(2000) && next(0) == CURSPAN_KEY_NONE) continue;
    want(key.code == CURSPAN_KEY_ESCAPE, "an escape without signals", "its delay ends");
    close_here("a terminal without signals");
}

/* ---- what another thread's handler tells */

static void *tell_keys(void *none) {
    char name[64] = "";
    if (curspan_terminal_open(&terminal, NULL, CURSPAN_TERMINAL_USUAL) != CURSPAN_TERMINAL_OK) _exit(9);
    curspan_terminal_write(&terminal, "opened", 6);
    while (key.code != 'q' && key.code != CURSPAN_KEY_EOF) {
        if (curspan_terminal_key(&terminal, -1, &key) != CURSPAN_TERMINAL_OK) _exit(7);
        curspan_key_name(&key, name, sizeof name);
        say("<");
        say(name);
        say(">");
    }
    return none;
}

/* The thread that began the program waits for the other one, and closes its terminal. */
static void read_in_a_thread(void) {
    pthread_t thread;
    pthread_create(&thread, NULL, tell_keys, NULL);
    pthread_join(thread, NULL);
    if (curspan_terminal_close(&terminal) != CURSPAN_TERMINAL_OK) _exit(6);
}

static void threads_are_told(void) {
    struct winsize size = {.ws_row = 30, .ws_col = 100};
    pid_t shell = start(read_in_a_thread);
    want(comes(0, "opened"), "a thread", "it opens the terminal");
    size_t from = length;
    ioctl(master, TIOCSWINSZ, &size);
    want(comes(from, "<resize>"), "a new size in a thread", "it is told at once");
    from = length;
    type("\032");
    want(WIFSTOPPED(status_of_program()) && has_modes_again(), "a stop in a thread", "the terminal is given back");
    kill(shell, SIGCONT);
    want(comes(from, "<resize>"), "a stop in a thread", "it is told at once");
    type("q");
    want(status_of_program() == 0 && has_modes_again() && left_page(0), "a thread", "another one closes its terminal");
    finish(shell);
}

/* ---- two screens */

static void screens_in_turn(void) {
    curspan pages[] = {CURSPAN_INIT, CURSPAN_INIT};
    const char *texts[] = {"the first page", "page 2"};
    open_here(0);
    for (int i = 0; i < 2; i++) {
        curspan_open(&pages[i], 4, 20);
        curspan_waddstr(&pages[i], 0, texts[i], strlen(texts[i]));
    }
    for (int i = 0; i < 5; i++) {
        size_t from = length;
        curspan_update_panels(&pages[i % 2]);
        curspan_terminal_show(&terminal, &pages[i % 2]);
        want(comes(from, texts[i % 2]), "two screens in turn", "each comes again");
    }
    size_t from = length;
    curspan_terminal_show(&terminal, &pages[0]);
    want(!read_some(50) && length == from, "the same screen", "nothing is sent");
    want(curspan_terminal_draw(&terminal, &pages, (const uint8_t *)"x", 1) == CURSPAN_TERMINAL_AWAY,
         "bytes", "they are of another");
    want(curspan_terminal_draw(&terminal, &pages, (const uint8_t *)"x", 1) == CURSPAN_TERMINAL_OK,
         "bytes", "they are drawn");
    for (int i = 0; i < 2; i++) curspan_close(&pages[i]);
    close_here("two screens");
}

int main(void) {
    setenv("TERM", "xterm", 1);
    bytes_are_no_events();
    modifiers_are_told();
    sleeps_while_keys_come();
    pastes_are_told();
    long_pastes_come_in_parts();
    descriptor_is_ready();
    descriptor_ticks();
    threads_are_told();
    screens_in_turn();
    if (wrong == 0) puts("events: all is so");
    return wrong != 0;
}

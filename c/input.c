/* Keys as getch answers them: what isn't read yet, how long getch waits, and what it shows. Nothing here is proved. */
#include "inside.h"
#include "terminal.h"

#include <errno.h>
#include <fcntl.h>
#include <unistd.h>

int ESCDELAY = 1000;

enum { PUSHED = 256, LINE_ROOM = 135 };

/* The keys that getch answers before what is typed: the last that was pushed first. */
static struct {
    int keys[PUSHED];
    size_t count;
    bool is_reading_line;
} pushed;

static int pop(void) { return pushed.count > 0 ? pushed.keys[--pushed.count] : ERR; }

/* The first byte that was read. */
static int pull(void) {
    struct curspan_tty *tty = &curspan_the_tty;
    if (tty->typed.count == 0) return ERR;
    curspan_take_bytes(tty, 1);
    return tty->typed.bytes[tty->typed.first - 1];
}

void curspan_forget_input(void) {
    int delay = curspan_number_in("ESCDELAY");
    memset(&pushed, 0, sizeof pushed);
    if (delay >= 0) set_escdelay(delay);
}

int ungetch(int key) {
    if (!stdscr || pushed.count == PUSHED) return ERR;
    pushed.keys[pushed.count++] = key;
    return OK;
}

int flushinp(void) {
    if (!stdscr) return ERR;
    if (curspan_the_tty.line >= 0) tcflush(curspan_the_tty.line, TCIFLUSH);
    curspan_the_tty.typed.count = pushed.count = 0;
    return OK;
}

int set_escdelay(int milliseconds) {
    if (milliseconds < 0) return ERR;
    ESCDELAY = milliseconds;
    return OK;
}

/* ---- keys */

/* Waits until there is something to read, without end where the time is negative, and answers whether there is. A
   signal ends it, but for the one that stops the program, unless the terminal has another size after it. */
static bool wait_for_input(int milliseconds) {
    struct curspan_tty *tty = &curspan_the_tty;
    long end = curspan_now() + milliseconds;
    enum curspan_waited how;
    while ((how = curspan_wait(tty, curspan_left_until(milliseconds, end))) == WAIT_TOLD) {
        curspan_redraw_after_stop();
        if (pushed.count > 0 || CURSPAN_LOOK(tty->was_resized)) return false;
    }
    return how == WAIT_FOUND;
}

static bool is_blocking(void) {
    int flags = fcntl(curspan_the_tty.in, F_GETFL);
    return flags >= 0 && !(flags & O_NONBLOCK);
}

/* The key whose sequence the first bytes are that wait, reading on by one while they begin one; else the first byte. */
static int pull_key(bool is_patient) {
    struct curspan_tty *tty = &curspan_the_tty;
    size_t length = 0;
    int key = ERR;
    while (key == ERR && length < CURSPAN_TYPED) {
        if (length == tty->typed.count) {
            if (length > 0 && !wait_for_input(is_patient ? -1 : curspan_delay_left(tty, ESCDELAY))) break;
            if (curspan_read_bytes(tty, 1) == 0) break;
        }
        key = curspan_key_of(tty->typed.bytes + tty->typed.first, ++length);
    }
    if (key <= 0) return pull();
    curspan_take_bytes(tty, length);
    return key;
}

/* Reads a whole line, as it is edited, and answers its first key: the others wait. */
static int key_of_line(WINDOW *win) {
    char text[LINE_ROOM + 1] = "";
    pushed.is_reading_line = true;
    int answer = wgetnstr(win, text, LINE_ROOM);
    pushed.is_reading_line = false;
    if (answer != ERR) ungetch('\n');
    for (size_t i = strlen(text); i > 0; i--) ungetch((unsigned char)text[i - 1]);
    return pop();
}

/* Whether whole lines are read, which are edited meanwhile. */
static bool reads_lines(void) { return curspan_the_tty.line >= 0 && !curspan_modes.raw && !curspan_modes.cbreak; }

static int next_key(const WINDOW *win) {
    int delay = curspan_modes.half_delay > 0 ? curspan_modes.half_delay * 100 : win->delay;
    bool waits = delay >= 0 || is_blocking();
    size_t *count = &curspan_the_tty.typed.count;
    if (waits && *count == 0 && !wait_for_input(delay)) return ERR;
    if (win->keypad) return pull_key(win->no_timeout);
    if (*count == 0) curspan_read_bytes(&curspan_the_tty, 1);
    return pull();
}

static void echo_key(WINDOW *win, int key) {
    int shown = key == KEY_BACKSPACE ? '\b' : key;
    if (curspan_modes.echo && !is_pad(win) && shown < KEY_MIN) wechochar(win, (chtype)shown);
}

int wgetch(WINDOW *win) {
    if (!is_there(win)) return ERR;
    curspan_redraw_after_stop();
    if (CURSPAN_TAKE(curspan_the_tty.was_resized)) curspan_resize_to_terminal(true);
    bool is_empty = pushed.count == 0 && curspan_the_tty.typed.count == 0;
    if (is_empty && reads_lines() && !pushed.is_reading_line) return key_of_line(win);
    bool has_keypad = curspan_the_tty.is_keypad != 0;
    if (pushed.count == 0 && win->keypad != has_keypad) curspan_switch_keypad(&curspan_the_tty, win->keypad, -1);
    if (!is_pad(win) && (win->moved || is_wintouched(win))) wrefresh(win);
    if (pushed.count > 0) return pop();
    int key = next_key(win);
    if (key == ERR) {
        if (CURSPAN_TAKE(curspan_the_tty.was_resized)) curspan_resize_to_terminal(true);
        return pop();
    }
    echo_key(win, key);
    if (key == '\r' && curspan_modes.newline) return '\n';
    return !curspan_modes.meta && key < KEY_MIN ? key & 0x7f : key;
}

/* ---- how a window reads */

int keypad(WINDOW *win, bool flag) {
    if (SET_OF(win, keypad, flag) == ERR) return ERR;
    curspan_switch_keypad(&curspan_the_tty, flag, -1);
    return OK;
}

int nodelay(WINDOW *win, bool flag) { return SET_OF(win, delay, flag ? 0 : -1); }
int notimeout(WINDOW *win, bool flag) { return SET_OF(win, no_timeout, flag); }
void wtimeout(WINDOW *win, int milliseconds) { (void)SET_OF(win, delay, milliseconds); }
void timeout(int milliseconds) { wtimeout(stdscr, milliseconds); }
bool is_keypad(const WINDOW *win) { return is_there(win) && win->keypad; }
bool is_nodelay(const WINDOW *win) { return is_there(win) && win->delay == 0; }
bool is_notimeout(const WINDOW *win) { return is_there(win) && win->no_timeout; }
int wgetdelay(const WINDOW *win) { return is_there(win) ? win->delay : 0; }

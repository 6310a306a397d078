/* Keys of curspan_terminal.h: those that the proved decoder reads, pasted texts, what isn't typed, and the descriptor
   that tells of them. Nothing here is proved. */
#include "terminal.h"
#include "curspan_terminal.h"

#include <errno.h>
#include <sys/epoll.h>
#include <sys/timerfd.h>
#include <time.h>
#include <unistd.h>

/* Milliseconds after which a text that pauses is handed on, and a terminal that owns no signals looks at its size. */
enum { PASTE_DELAY = 1000, SLICE = 500 };
/* Bytes of a pasted text: the first room for it, the longest part of it, and those that the decoder answers at once. */
enum { FIRST_ROOM = 256, LONGEST_PART = 1 << 20, AT_ONCE = 64 };

/* What comes in place of keys. No bytes make it. */
enum event { EVENT_KEY, EVENT_NONE, EVENT_RESIZE, EVENT_EOF, EVENT_INTERRUPTED };

/* ---- the descriptor */

static bool watch(int epoll, int descriptor) {
    struct epoll_event event = {.events = EPOLLIN};
    return descriptor >= 0 && epoll_ctl(epoll, EPOLL_CTL_ADD, descriptor, &event) == 0;
}

/* Sets the timer to a time of `curspan_now`, or to none. Without signals it ticks. */
static bool set_timer(struct curspan_reader *reader, long due) {
    struct itimerspec time = {.it_value = {due / 1000, due % 1000 * 1000000L}};
    bool ticks = !reader->tty->owns;
    if (ticks) time.it_interval.tv_nsec = SLICE * 1000000L;
    if (ticks && due == 0) {
        long next = curspan_now() + SLICE;
        time.it_value = (struct timespec){next / 1000, next % 1000 * 1000000L};
    }
    reader->due = due;
    return timerfd_settime(reader->timer, TFD_TIMER_ABSTIME, &time, NULL) == 0;
}

bool curspan_begin_reading(struct curspan_reader *reader, struct curspan_tty *tty, uint32_t asked) {
    int delay = curspan_number_in("ESCDELAY");
    *reader = (struct curspan_reader){.tty = tty, .escape_delay = delay >= 0 ? delay : 100};
    curspan_find_size(tty, &reader->lines, &reader->columns);
    reader->epoll = epoll_create1(EPOLL_CLOEXEC);
    reader->timer = timerfd_create(CLOCK_MONOTONIC, TFD_CLOEXEC | TFD_NONBLOCK);
    if (curspan_keys_open(&reader->decoder, asked) != 0) errno = ENOMEM;
    else if (watch(reader->epoll, tty->in) && watch(reader->epoll, tty->bell) && watch(reader->epoll, reader->timer))
        return set_timer(reader, 0);
    return false;
}

void curspan_end_reading(struct curspan_reader *reader) {
    int error = errno;
    curspan_keys_close(&reader->decoder);
    if (reader->epoll >= 0) close(reader->epoll);
    if (reader->timer >= 0) close(reader->timer);
    free(reader->paste);
    *reader = (struct curspan_reader){.epoll = -1, .timer = -1};
    errno = error;
}

/* ---- keys */

static bool was_taken(const struct curspan_tty *tty) { return !tty->is_suspended && CURSPAN_LOOK(tty->is_ended); }

/* Whether the size is another than was told last, or the terminal was given back meanwhile, but for by the program
   itself: then its modes are set again, and its page comes with what is shown. */
static bool is_changed(struct curspan_reader *reader) {
    struct curspan_tty *tty = reader->tty;
    int lines = 0, columns = 0;
    bool was_stopped = CURSPAN_TAKE(tty->was_stopped), is_told = CURSPAN_TAKE(tty->was_resized);
    bool is_back = was_taken(tty);
    bool is_found = curspan_find_size(tty, &lines, &columns);
    bool is_other = is_found && (lines != reader->lines || columns != reader->columns);
    if (!was_stopped && !is_told && !is_back && !is_other) return false;
    if (is_back) {
        CURSPAN_SET(tty->is_ended, false);
        curspan_set_modes(tty, &tty->program, TCSANOW);
    }
    reader->lines = lines;
    reader->columns = columns;
    CURSPAN_SET(tty->was_away, true);
    return true;
}

/* Waits for input for some milliseconds, or without end where they are negative, and answers EVENT_KEY where some came.
   A terminal that owns no signals looks at its size meanwhile. */
static enum event wait_for_input(struct curspan_reader *reader, int milliseconds) {
    long end = milliseconds > 0 ? curspan_now() + milliseconds : 0;
    for (;;) {
        int left = curspan_left_until(milliseconds, end);
        bool is_slice = !reader->tty->owns && (left < 0 || left > SLICE);
        enum curspan_waited how = curspan_wait(reader->tty, is_slice ? SLICE : left);
        if (how == WAIT_FOUND) return EVENT_KEY;
        if (is_changed(reader)) return EVENT_RESIZE;
        if (how == WAIT_INTERRUPTED) return EVENT_INTERRUPTED;
        if (curspan_left_until(milliseconds, end) == 0) return EVENT_NONE;
    }
}

/* Drops the bytes of keys that were told. */
static void drop(struct curspan_reader *reader, size_t count) {
    memmove(reader->held, reader->held + count, reader->count -= count);
}

/* Hands on what was pasted so far. */
static void tell_paste(struct curspan_reader *reader, bool is_ended, curspan_key *key) {
    *key = (curspan_key){.code = CURSPAN_KEY_PASTE, .flags = is_ended ? CURSPAN_ENDED : 0, .length = reader->length};
    key->text = reader->length > 0 ? reader->paste : "";
    reader->is_pasting = !is_ended;
    reader->length = 0;
}

/* Whether there is room for more of a pasted text. */
static bool has_room(struct curspan_reader *reader) {
    size_t room = reader->room > 0 ? 2 * reader->room : FIRST_ROOM;
    if (reader->length + AT_ONCE <= reader->room) return true;
    char *more = room <= LONGEST_PART ? realloc(reader->paste, room) : NULL;
    if (!more) return false;
    reader->paste = more;
    reader->room = room;
    return true;
}

/* Adds the first bytes that are held to the text. Where there is no memory at all they are left out. */
static void add_pasted(struct curspan_reader *reader, size_t count) {
    for (size_t i = 0; i < count && reader->length < reader->room; i++)
        reader->paste[reader->length++] = (char)(reader->held[i] == '\r' ? '\n' : reader->held[i]);
    drop(reader, count);
}

/* Makes a key of what the decoder answered, and answers whether it is one. */
static bool tell(struct curspan_reader *reader, struct curspan_taken taken, curspan_key *key) {
    switch (taken.kind) {
    case CURSPAN_TAKEN_NONE:
        return false;
    case CURSPAN_TAKEN_PASTE_BEGINS:
        drop(reader, taken.count);
        reader->is_pasting = true;
        has_room(reader);
        return false;
    case CURSPAN_TAKEN_PASTED:
        add_pasted(reader, taken.count);
        if (has_room(reader) || reader->length == 0) return false;
        tell_paste(reader, false, key);
        return true;
    case CURSPAN_TAKEN_PASTE_ENDS:
        drop(reader, taken.count);
        tell_paste(reader, true, key);
        return true;
    }
    bool is_key = taken.kind == CURSPAN_TAKEN_PRESSED;
    *key = (curspan_key){.code = is_key ? taken.code : CURSPAN_KEY_UNKNOWN, .modifiers = taken.modifiers};
    key->text = (const char *)reader->held;
    key->length = reader->told = taken.count;
    return true;
}

/* What the decoder answers next to what was read. */
static struct curspan_taken decode(struct curspan_reader *reader) {
    struct curspan_tty *tty = reader->tty;
    struct curspan_taken taken = reader->second;
    reader->second.kind = CURSPAN_TAKEN_NONE;
    while (taken.kind == CURSPAN_TAKEN_NONE && tty->typed.count > 0) {
        const unsigned char *bytes = tty->typed.bytes + tty->typed.first;
        struct curspan_fed fed = curspan_keys_bytes(&reader->decoder, bytes, tty->typed.count);
        memcpy(reader->held + reader->count, bytes, fed.used);
        reader->count += fed.used;
        curspan_take_bytes(tty, fed.used);
        bool is_cut = fed.cut.kind != CURSPAN_TAKEN_NONE;
        taken = is_cut ? fed.cut : fed.whole;
        if (is_cut) reader->second = fed.whole;
        if (fed.used == 0) break;
    }
    return taken;
}

static bool take_key(struct curspan_reader *reader, curspan_key *key) {
    struct curspan_taken taken;
    while ((taken = decode(reader)).kind != CURSPAN_TAKEN_NONE)
        if (tell(reader, taken, key)) return true;
    return false;
}

/* How long to wait until what was read so far is told of as it is, or -1. */
static int delay_of(struct curspan_reader *reader) {
    if (reader->is_pasting) return reader->length > 0 ? PASTE_DELAY : -1;
    return curspan_keys_waits(&reader->decoder) ? reader->escape_delay : -1;
}

/* Tells of what was read so far: nothing more came. */
static bool end_delay(struct curspan_reader *reader, curspan_key *key) {
    if (!reader->is_pasting) return tell(reader, curspan_keys_delay(&reader->decoder), key);
    if (reader->length == 0) return false;
    tell_paste(reader, false, key);
    return true;
}

static enum event next_event(struct curspan_reader *reader, int milliseconds, curspan_key *key) {
    struct curspan_tty *tty = reader->tty;
    long end = milliseconds > 0 ? curspan_now() + milliseconds : 0;
    drop(reader, reader->told);
    reader->told = 0;
    if (is_changed(reader)) return EVENT_RESIZE;
    while (!take_key(reader, key)) {
        if (tty->typed.is_at_end) return end_delay(reader, key) ? EVENT_KEY : EVENT_EOF;
        int left = curspan_left_until(milliseconds, end), delay = delay_of(reader);
        int until = delay < 0 ? -1 : curspan_delay_left(tty, delay);
        bool is_delay = until >= 0 && (left < 0 || until <= left);
        enum event how = wait_for_input(reader, is_delay ? until : left);
        if (how == EVENT_KEY) curspan_read_bytes(tty, CURSPAN_TYPED);
        else if (how != EVENT_NONE || !is_delay) return how;
        else if (end_delay(reader, key)) break;
    }
    return EVENT_KEY;
}

/* Lets the descriptor be ready where something is there to be told, and when a delay ends. */
static void arm(struct curspan_reader *reader, bool is_none) {
    struct curspan_tty *tty = reader->tty;
    int delay = delay_of(reader);
    bool is_more = tty->typed.count > 0 || reader->second.kind != CURSPAN_TAKEN_NONE;
    uint64_t ticks;
    if (!is_more && tty->rings) curspan_silence(tty); /* and what a handler told meanwhile is looked at after that */
    if (!tty->rings && (is_more || curspan_is_told(tty) || was_taken(tty))) {
        curspan_ring(tty);
        tty->rings = true;
    }
    long due = delay >= 0 ? tty->typed.came + delay : 0;
    if (due != reader->due) set_timer(reader, due);
    else if (is_none && !tty->owns && read(reader->timer, &ticks, sizeof ticks) < 0) return; /* it didn't tick */
}

void curspan_read_key(struct curspan_reader *reader, int milliseconds, curspan_key *key) {
    static const uint32_t codes[] = {[EVENT_NONE] = CURSPAN_KEY_NONE, [EVENT_RESIZE] = CURSPAN_KEY_RESIZE,
                                     [EVENT_EOF] = CURSPAN_KEY_EOF, [EVENT_INTERRUPTED] = CURSPAN_KEY_INTERRUPTED};
    enum event event = next_event(reader, milliseconds, key);
    if (event != EVENT_KEY) *key = (curspan_key){.code = codes[event], .text = ""};
    arm(reader, event == EVENT_NONE);
}

/* What was read and may begin its end is of the text too. */
void curspan_end_paste(struct curspan_reader *reader) {
    struct curspan_taken taken;
    if (!reader->is_pasting) return;
    drop(reader, reader->told);
    reader->told = 0;
    while ((taken = decode(reader)).kind == CURSPAN_TAKEN_PASTED && has_room(reader)) add_pasted(reader, taken.count);
    if (taken.kind != CURSPAN_TAKEN_PASTE_ENDS) {
        add_pasted(reader, reader->count);
        curspan_keys_restart(&reader->decoder);
        taken = (struct curspan_taken){.kind = CURSPAN_TAKEN_PASTE_ENDS};
    }
    reader->second = taken;
    arm(reader, false);
}

/* ---- names */

static const char *const names[] = {
    "none", "resize", "paste", "unknown", "eof", "interrupted", "enter", "tab", "escape", "backspace", "up", "down",
    "left", "right", "home", "end", "pageup", "pagedown", "insert", "delete", "begin", "a1", "a3", "b2", "c1", "c3",
};

/* Puts a character into a text as UTF-8. */
static void put_character(uint32_t code, char *text) {
    static const uint32_t ends[] = {0x80, 0x800, 0x10000, 0x110000}, begins[] = {0, 0xc0, 0xe0, 0xf0};
    int more = 0;
    while (code >= ends[more]) more++;
    *text++ = (char)(begins[more] | code >> (6 * more));
    while (more-- > 0) *text++ = (char)(0x80 | (code >> (6 * more) & 0x3f));
    *text = 0;
}

size_t curspan_key_name(const curspan_key *key, char *out, size_t room) {
    char name[16];
    uint32_t number = key->code - CURSPAN_KEY_NONE;
    if (key->code < CURSPAN_KEY_NONE) put_character(key->code, name);
    else if (number < sizeof names / sizeof names[0]) snprintf(name, sizeof name, "%s", names[number]);
    else snprintf(name, sizeof name, "f%u", (key->code - CURSPAN_KEY_F0) & 0xff);
    const char *ctrl = key->modifiers & CURSPAN_CTRL ? "ctrl+" : "", *alt = key->modifiers & CURSPAN_ALT ? "alt+" : "";
    const char *shift = key->modifiers & CURSPAN_SHIFT ? "shift+" : "";
    return (size_t)snprintf(out, room, "%s%s%s%s", ctrl, alt, shift, name);
}

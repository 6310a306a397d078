/* The terminals of curspan_terminal.h. Nothing here is proved. */
#include "terminal.h"
#include "curspan_terminal.h"

#include <errno.h>
#include <fcntl.h>
#include <pthread.h>
#include <unistd.h>

struct terminal {
    struct curspan_tty tty;
    struct terminal *spare; /* the next one that is closed, to be used again */
    pthread_t thread;
    uint32_t options;
    int given, opened;      /* the descriptor of keys, and the file that was opened by its path, or -1 */
    const void *shown;      /* the screen that was shown last */
    struct curspan_palette palette;
    struct curspan_outgoing outgoing;
    struct curspan_reader reader;
};

const char *curspan_terminal_text(uint32_t status) {
    static const char *const texts[] = {
        "done", "there is no terminal", "TERM is dumb: such a terminal has no screen", "the terminal is open already",
        "the terminal is not open", "another terminal owns the signals", "another thread opened the terminal",
        "another process opened the terminal, of which this one is a child", "there is no memory for it",
        "the screen is closed, or has no such pair or colour", "the system refused it",
        "the terminal shows something else meanwhile",
    };
    return status < sizeof texts / sizeof texts[0] ? texts[status] : "no status";
}

static uint32_t status_of(const curspan_terminal *terminal) {
    const struct terminal *it = terminal->at;
    if (!it) return CURSPAN_TERMINAL_CLOSED;
    if (it->tty.owner != getpid()) return CURSPAN_TERMINAL_FORKED;
    return pthread_equal(it->thread, pthread_self()) ? CURSPAN_TERMINAL_OK : CURSPAN_TERMINAL_OTHER_THREAD;
}

static void form(struct curspan_tty *tty, uint32_t options) {
    bool has_page = options & CURSPAN_TERMINAL_PAGE, has_paste = options & CURSPAN_TERMINAL_PASTE;
    const char *hide = options & CURSPAN_TERMINAL_HIDE_CURSOR ? "\033[?25l" : "", *on = has_paste ? "\033[?2004h" : "";
    const char *off = has_paste ? "\033[?2004l" : "", *back = has_page ? "\033[?1049l" : "\r\n";
    snprintf(tty->enter, sizeof tty->enter, "%s%s%s", has_page ? CURSPAN_ENTER : "", hide, on);
    snprintf(tty->leave, sizeof tty->leave, "%s\033[0m\033[?25h\033[%d;1H%s", off, CURSPAN_LARGEST_SCREEN, back);
    tty->program = tty->shell;
    tty->program.c_lflag &= ~(tcflag_t)(ICANON | IEXTEN | ECHO | ECHONL);
    tty->program.c_iflag &= ~(tcflag_t)(ICRNL | INLCR | IGNCR | ISTRIP);
    curspan_read_at_once(&tty->program);
    if (options & CURSPAN_TERMINAL_RAW) curspan_make_raw(&tty->program);
}

static void set_colours(struct terminal *it, int pair, int foreground, int background) {
    it->palette.colours[pair][0] = (signed char)foreground;
    it->palette.colours[pair][1] = (signed char)background;
}

/* ---- opening and closing */

/* A terminal is never given back to the heap, as handlers may look at it. */
static struct {
    pthread_mutex_t lock;
    struct terminal *first;
} spares = {.lock = PTHREAD_MUTEX_INITIALIZER};

static struct terminal *take_spare(void) {
    pthread_mutex_lock(&spares.lock);
    struct terminal *it = spares.first;
    if (it) spares.first = it->spare;
    pthread_mutex_unlock(&spares.lock);
    return it ? it : calloc(1, sizeof *it);
}

/* Frees what a terminal has, but for itself. */
static void put_aside(struct terminal *it) {
    bool is_own = it->tty.in != it->given && it->tty.in != it->tty.own;
    curspan_abandon(&it->tty);
    if (is_own) close(it->tty.in);
    if (it->opened >= 0) close(it->opened);
    free(it->outgoing.bytes);
    it->outgoing = (struct curspan_outgoing){NULL, 0};
    curspan_end_reading(&it->reader);
    pthread_mutex_lock(&spares.lock);
    it->spare = spares.first;
    spares.first = it;
    pthread_mutex_unlock(&spares.lock);
}

static void clear(struct terminal *it, int in, int out, uint32_t options) {
    struct curspan_tty *tty = &it->tty;
    it->thread = pthread_self();
    it->options = options;
    it->opened = -1;
    it->given = in;
    it->shown = NULL;
    it->palette = (struct curspan_palette){.changes = false};
    for (int pair = 0; pair < OWN_PAIRS; pair++) set_colours(it, pair, pair / 8, pair % 8);
    set_colours(it, 0, OWN_COLOUR, OWN_COLOUR);
    it->reader = (struct curspan_reader){.epoll = -1, .timer = -1};
    tty->keeps = options & CURSPAN_TERMINAL_KEEP;
    tty->page = PAGE_LEFT;
    tty->is_ended = true;
    tty->was_away = tty->is_keypad = false;
    curspan_set_output(tty, out);
    int own = in == out ? tty->own : curspan_open_anew(in);
    tty->in = tty->line = own >= 0 ? own : in;
}

static uint32_t begin(struct terminal *it) {
    static const uint32_t refused[] = {
        [CURSPAN_OPEN_ALREADY] = CURSPAN_TERMINAL_OPEN, [CURSPAN_OWNED_ALREADY] = CURSPAN_TERMINAL_SIGNALS_TAKEN,
    };
    struct curspan_tty *tty = &it->tty;
    if (tcgetattr(tty->line, &tty->shell) != 0) return CURSPAN_TERMINAL_FAILED;
    form(tty, it->options);
    enum curspan_entry entry = curspan_attend(tty, it->options & CURSPAN_TERMINAL_SIGNALS);
    if (entry != CURSPAN_ENTERED) return refused[entry];
    uint32_t asked = it->options & CURSPAN_TERMINAL_PASTE ? CURSPAN_KEYS_PASTE : 0;
    if (curspan_begin_reading(&it->reader, tty, asked) && curspan_come_back(tty)) return CURSPAN_TERMINAL_OK;
    int error = errno;
    curspan_give_back(tty, 0);
    errno = error;
    return CURSPAN_TERMINAL_FAILED;
}

uint32_t curspan_terminal_use(curspan_terminal *terminal, int in, int out, uint32_t options) {
    const char *type = getenv("TERM");
    if (terminal->at) return CURSPAN_TERMINAL_OPEN;
    if (!isatty(in) || !isatty(out)) return CURSPAN_TERMINAL_NONE;
    if (type && strcmp(type, "dumb") == 0) return CURSPAN_TERMINAL_DUMB;
    struct terminal *it = take_spare();
    if (!it) return CURSPAN_TERMINAL_NO_MEMORY;
    clear(it, in, out, options);
    uint32_t status = begin(it);
    int error = errno;
    if (status == CURSPAN_TERMINAL_OK) terminal->at = it;
    else put_aside(it);
    errno = error;
    return status;
}

uint32_t curspan_terminal_open(curspan_terminal *terminal, const char *path, uint32_t options) {
    if (terminal->at) return CURSPAN_TERMINAL_OPEN;
    int file = open(path ? path : "/dev/tty", O_RDWR | O_NOCTTY | O_CLOEXEC);
    if (file < 0) return errno == ENXIO && !path ? CURSPAN_TERMINAL_NONE : CURSPAN_TERMINAL_FAILED;
    uint32_t status = curspan_terminal_use(terminal, file, file, options);
    if (status == CURSPAN_TERMINAL_OK) ((struct terminal *)terminal->at)->opened = file;
    else close(file);
    return status;
}

static uint32_t done(bool is_done) { return is_done ? CURSPAN_TERMINAL_OK : CURSPAN_TERMINAL_FAILED; }

/* What a call answers that writes to a terminal: the program isn't stopped within. */
#define WRITE(call) \
    struct terminal *it = terminal->at; \
    uint32_t status = status_of(terminal); \
    if (status != CURSPAN_TERMINAL_OK) return status; \
    curspan_hold_stop(&it->tty); \
    status = (call); \
    curspan_let_stop(&it->tty); \
    return status

/* Where bytes are kept, so is what leaves the page. */
static uint32_t suspend(struct terminal *it) {
    struct curspan_tty *tty = &it->tty;
    curspan_end_paste(&it->reader);
    tty->is_suspended = true;
    if (!curspan_is_owed(tty)) return CURSPAN_TERMINAL_OK;
    if (!tty->keeps) return done(curspan_give_back(tty, -1));
    if (CURSPAN_LOOK(tty->page) != PAGE_LEFT && !curspan_send_text(tty, tty->leave)) return CURSPAN_TERMINAL_FAILED;
    CURSPAN_SET(tty->page, PAGE_LEFT);
    return done(curspan_give_back(tty, 0));
}

static uint32_t resume(struct terminal *it) {
    it->tty.is_suspended = false;
    return done(curspan_come_back(&it->tty));
}

uint32_t curspan_terminal_suspend(curspan_terminal *terminal) { WRITE(suspend(it)); }
uint32_t curspan_terminal_resume(curspan_terminal *terminal) { WRITE(resume(it)); }

uint32_t curspan_terminal_write(curspan_terminal *terminal, const void *bytes, size_t length) {
    WRITE(done(curspan_send(&it->tty, bytes, length)));
}

/* What was kept when the terminal was given back from elsewhere is of a page that is gone. */
static void drop_stale(struct curspan_tty *tty) {
    if (CURSPAN_LOOK(tty->was_away) && !tty->is_suspended) tty->kept_count = 0;
}

static uint32_t flush(struct terminal *it, int milliseconds, size_t *kept) {
    drop_stale(&it->tty);
    bool is_done = curspan_flush(&it->tty, milliseconds);
    *kept = it->tty.kept_count;
    return done(is_done);
}

uint32_t curspan_terminal_flush(curspan_terminal *terminal, int milliseconds, size_t *kept) {
    *kept = 0;
    WRITE(flush(it, milliseconds, kept));
}

/* Any thread may close it. What is kept of a picture goes, so that the page is left before it. */
uint32_t curspan_terminal_close(curspan_terminal *terminal) {
    struct terminal *it = terminal->at;
    uint32_t status = status_of(terminal);
    if (status == CURSPAN_TERMINAL_CLOSED) return status;
    if (status != CURSPAN_TERMINAL_FORKED) {
        it->tty.kept_count = 0;
        it->thread = pthread_self();
        status = curspan_terminal_suspend(terminal);
    }
    int error = errno;
    put_aside(it);
    terminal->at = NULL;
    errno = error;
    return status;
}

uint32_t curspan_terminal_size(const curspan_terminal *terminal, int *lines, int *columns) {
    const struct terminal *it = terminal->at;
    *lines = *columns = 0;
    if (it) curspan_find_size(&it->tty, lines, columns);
    return status_of(terminal);
}

int curspan_terminal_descriptor(const curspan_terminal *terminal) {
    const struct terminal *it = terminal->at;
    return it ? it->reader.epoll : -1;
}

int curspan_terminal_output(const curspan_terminal *terminal) {
    const struct terminal *it = terminal->at;
    return it ? it->tty.out : -1;
}

/* ---- pictures */

/* Takes the terminal for a screen. */
static uint32_t take_for(struct terminal *it, const void *screen) {
    struct curspan_tty *tty = &it->tty;
    drop_stale(tty);
    bool was_away = CURSPAN_TAKE(tty->was_away);
    bool is_there = !was_away && curspan_is_shown(tty) && (!it->shown || !screen || it->shown == screen);
    tty->is_suspended = false;
    if (!curspan_come_back(tty)) return CURSPAN_TERMINAL_FAILED;
    if (screen) it->shown = screen;
    return is_there ? CURSPAN_TERMINAL_OK : CURSPAN_TERMINAL_AWAY;
}

static uint32_t update(struct terminal *it, curspan *screen) {
    size_t kept;
    uint32_t status = flush(it, 0, &kept);
    if (kept > 0 || status != CURSPAN_TERMINAL_OK) return status;
    status = take_for(it, screen->at);
    if (status == CURSPAN_TERMINAL_FAILED) return status;
    if (status == CURSPAN_TERMINAL_AWAY) curspan_invalidate(screen);
    if (curspan_doupdate(screen).status != CURSPAN_OK) return CURSPAN_TERMINAL_REFUSED;
    return done(curspan_hand_on(&it->tty, screen, &it->palette, &it->outgoing));
}

static uint32_t draw(struct terminal *it, const void *screen, const uint8_t *bytes, size_t length) {
    uint32_t status = take_for(it, screen);
    if (status != CURSPAN_TERMINAL_OK) return status;
    uint8_t *out = malloc(CURSPAN_RECOLOURED * length + 1);
    if (!out) return CURSPAN_TERMINAL_NO_MEMORY;
    bool is_done = curspan_send(&it->tty, out, curspan_recolour(&it->palette, bytes, length, out));
    free(out);
    return done(is_done);
}

uint32_t curspan_terminal_draw(curspan_terminal *terminal, const void *screen, const uint8_t *bytes, size_t length) {
    WRITE(draw(it, screen, bytes, length));
}

uint32_t curspan_terminal_show(curspan_terminal *terminal, curspan *screen) { WRITE(update(it, screen)); }

uint32_t curspan_terminal_init_pair(curspan_terminal *terminal, curspan *screen, uint32_t pair, int foreground,
                                    int background) {
    struct terminal *it = terminal->at;
    uint32_t status = status_of(terminal);
    bool are_colours = foreground >= OWN_COLOUR && foreground < 8 && background >= OWN_COLOUR && background < 8;
    if (status != CURSPAN_TERMINAL_OK) return status;
    if (!are_colours || pair >= OWN_PAIRS) return CURSPAN_TERMINAL_REFUSED;
    if (curspan_init_pair(screen, pair, pair / 8, pair % 8).status != CURSPAN_OK) return CURSPAN_TERMINAL_REFUSED;
    const signed char *colours = it->palette.colours[pair];
    if (colours[0] != foreground || colours[1] != background) curspan_invalidate(screen);
    set_colours(it, (int)pair, foreground, background);
    it->palette.changes = true;
    return CURSPAN_TERMINAL_OK;
}

/* ---- keys */

uint32_t curspan_terminal_key(curspan_terminal *terminal, int milliseconds, curspan_key *key) {
    struct terminal *it = terminal->at;
    uint32_t status = status_of(terminal);
    *key = (curspan_key){.code = CURSPAN_KEY_NONE, .text = ""};
    if (status == CURSPAN_TERMINAL_OK) curspan_read_key(&it->reader, milliseconds, key);
    return status;
}

/* curspan_terminal.h: terminals for programs over curspan.h, in C99 or C++: modes, keys, sizes, signals, the other
   page, and colours of the terminal's own. Nothing of it is proved; it is tested over pseudoterminals.

       curspan_terminal terminal = CURSPAN_TERMINAL_INIT;
       curspan screen = CURSPAN_INIT;
       curspan_key key = {.code = CURSPAN_KEY_RESIZE};
       uint32_t status = curspan_terminal_open(&terminal, NULL, CURSPAN_TERMINAL_USUAL);
       if (status != CURSPAN_TERMINAL_OK) return fprintf(stderr, "%s\n", curspan_terminal_text(status)), 1;
       while (key.code != 'q' && key.code != CURSPAN_KEY_EOF) {
           if (key.code == CURSPAN_KEY_RESIZE) {
               int lines, columns;
               curspan_terminal_size(&terminal, &lines, &columns);
               curspan_open(&screen, (uint32_t)lines, (uint32_t)columns);
               ... make windows, panels and pairs ...
           }
           ... draw ...
           curspan_update_panels(&screen);
           curspan_terminal_show(&terminal, &screen);
           curspan_terminal_key(&terminal, -1, &key);
           if (key.modifiers) key.code = CURSPAN_KEY_UNKNOWN;
       }
       curspan_close(&screen);
       curspan_terminal_close(&terminal);

   There may be many at once, each over descriptors of its own. One of them may own the signals. A terminal is used by
   the thread that opened it, and may be closed by any, once no call of it is under way. Each call answers a status;
   where that is neither CURSPAN_TERMINAL_OK nor CURSPAN_TERMINAL_FAILED nothing was sent, and the terminal is as it
   was. */
#ifndef CURSPAN_TERMINAL_H
#define CURSPAN_TERMINAL_H

#include "curspan.h"

#ifdef __cplusplus
extern "C" {
#endif

/* A terminal, which begins as CURSPAN_TERMINAL_INIT, or as zeros, and closed. Never look inside it. It may be moved. */
typedef struct curspan_terminal {
    void *at;
} curspan_terminal;

#define CURSPAN_TERMINAL_INIT {0}

enum curspan_terminal_status {
    CURSPAN_TERMINAL_OK = 0,
    CURSPAN_TERMINAL_NONE = 1,          /* there is no terminal */
    CURSPAN_TERMINAL_DUMB = 2,          /* TERM is dumb */
    CURSPAN_TERMINAL_OPEN = 3,          /* it is open already */
    CURSPAN_TERMINAL_CLOSED = 4,        /* it isn't open */
    CURSPAN_TERMINAL_SIGNALS_TAKEN = 5, /* another one owns the signals */
    CURSPAN_TERMINAL_OTHER_THREAD = 6,  /* another thread opened it */
    CURSPAN_TERMINAL_FORKED = 7,        /* another process opened it, of which this one is a child */
    CURSPAN_TERMINAL_NO_MEMORY = 8,
    CURSPAN_TERMINAL_REFUSED = 9,       /* the screen refused it: it is closed, or has no such pair */
    CURSPAN_TERMINAL_FAILED = 10,       /* the system refused it: errno says why */
    CURSPAN_TERMINAL_AWAY = 11          /* what it shows is another: all is to be drawn (of curspan_terminal_draw) */
};

/* The words of a status. */
const char *curspan_terminal_text(uint32_t status);

enum curspan_terminal_options {
    CURSPAN_TERMINAL_RAW = 1,         /* Ctrl-C, Ctrl-Z, Ctrl-\, Ctrl-S and Ctrl-Q are keys */
    CURSPAN_TERMINAL_PAGE = 2,        /* the picture is on the terminal's other page */
    CURSPAN_TERMINAL_HIDE_CURSOR = 4,
    CURSPAN_TERMINAL_PASTE = 8,       /* a text that is pasted is one key, and not a key for each character */
    CURSPAN_TERMINAL_SIGNALS = 16,    /* it owns the signals */
    CURSPAN_TERMINAL_USUAL = 30,      /* the four before this: all but raw */
    CURSPAN_TERMINAL_KEEP = 32        /* no call waits until it takes bytes: curspan_terminal_flush tells of these */
};

/* Opens the terminal of a file, or where that is NULL the one that controls the process, /dev/tty. Keys come as they
   are typed and aren't echoed. One that owns the signals is given back, with those that are open beside it, before a
   signal ends the program, also SIGSEGV or SIGABRT; before SIGTSTP stops it; and SIGWINCH tells of a new size. That
   waits for no terminal: what one didn't take yet is dropped, and one that was stopped by Ctrl-S gets its modes back,
   but not its page. Signals that the program has caught or ignores stay so, but faults, whose handlers come after. At
   exit each that is open is given back. SIGKILL and _exit give nothing back. */
uint32_t curspan_terminal_open(curspan_terminal *terminal, const char *path, uint32_t options);

/* The same over descriptors that are open already and stay so: keys are read of `in`, and bytes written to `out`. Their
   flags, which other programs share, stay as they are. */
uint32_t curspan_terminal_use(curspan_terminal *terminal, int in, int out, uint32_t options);

/* Gives the terminal back and frees what it has, with bytes that are kept. In a forked child the terminal is left
   alone. */
uint32_t curspan_terminal_close(curspan_terminal *terminal);

/* The lines and columns of the terminal. One that doesn't know has 24 by 80, and more than 999 are taken as 999. */
uint32_t curspan_terminal_size(const curspan_terminal *terminal, int *lines, int *columns);

/* Calls curspan_doupdate, but not curspan_update_panels, and writes the bytes, also where the terminal was suspended or
   the program stopped meanwhile, or the terminal showed another screen: then all is drawn. Bytes that wait in the
   screen are written with it. Where bytes are kept it writes on from these, and draws nothing while some are. */
uint32_t curspan_terminal_show(curspan_terminal *terminal, curspan *screen);

/* Writes bytes that were taken of a screen, with its colours. `screen` is any address by which this screen is told from
   others, or NULL where there is one. Where the terminal was given back meanwhile, or showed another screen last, it is
   taken again, and the bytes are not written: the screen is to be invalidated, and to send all. */
uint32_t curspan_terminal_draw(curspan_terminal *terminal, const void *screen, const uint8_t *bytes, size_t length);

/* Writes all of some bytes, as they are. */
uint32_t curspan_terminal_write(curspan_terminal *terminal, const void *bytes, size_t length);

/* Writes what a terminal with CURSPAN_TERMINAL_KEEP didn't take, for some milliseconds at most, or without end where
   they are negative, and says how many bytes are kept still. While that isn't 0, call this or curspan_terminal_show
   again where the descriptor of curspan_terminal_output is ready to be written. */
uint32_t curspan_terminal_flush(curspan_terminal *terminal, int milliseconds, size_t *kept);

/* The descriptor to which bytes are written, to wait for it beside others; or -1 where the terminal isn't open. */
int curspan_terminal_output(const curspan_terminal *terminal);

/* Gives a pair, 1 to 63, of a screen that this terminal shows its colours: 0 to 7, or -1 for the terminal's own. All
   pairs of such a screen are set so, and none by curspan_init_pair. What has the pair already is shown in the new
   colours. */
uint32_t curspan_terminal_init_pair(curspan_terminal *terminal, curspan *screen, uint32_t pair, int foreground,
                                    int background);

/* Gives the terminal back for a while, as for another program. The next resume or show takes it again. Keys that were
   read before stay for curspan_terminal_key, and a text that is being pasted ends there. */
uint32_t curspan_terminal_suspend(curspan_terminal *terminal);
uint32_t curspan_terminal_resume(curspan_terminal *terminal);

/* A descriptor to wait for beside others: it is ready to be read whenever curspan_terminal_key with 0 milliseconds has
   a key to answer, of whatever kind. It may be ready without, as where half a sequence came: then that call answers
   CURSPAN_KEY_NONE, and the descriptor isn't ready again before more comes. So one call each time is enough. Nothing
   else is to be done with it. It stays the same while the terminal is open; else it is -1. */
int curspan_terminal_descriptor(const curspan_terminal *terminal);

/* Gives each terminal of this process back that is open, as far as that can be without waiting. A handler of signals
   and any thread may call it. Where the program goes on, the key CURSPAN_KEY_RESIZE tells of it. */
void curspan_terminal_give_back(void);

/* ---- keys */

/* A key by its `code`: a character of Unicode, or one of the codes below. Ctrl-A is the code 'a' with CURSPAN_CTRL: so
   look at `modifiers` too. */
typedef struct curspan_key {
    uint32_t code;
    uint32_t modifiers; /* where the terminal sends them */
    const char *text;   /* of CURSPAN_KEY_PASTE the text, else what the terminal sent; until the next call, no NUL */
    size_t length;
    uint32_t flags;
    uint32_t button;    /* this and the next two are for a mouse, and 0 so far */
    uint32_t line, column;
} curspan_key;

enum { CURSPAN_SHIFT = 1, CURSPAN_ALT = 2, CURSPAN_CTRL = 4 };

enum curspan_key_flags {
    CURSPAN_ENDED = 1,   /* of CURSPAN_KEY_PASTE: the text ends here, else more of it comes by the next one */
    CURSPAN_MOVED = 2,   /* of a mouse, as is the next */
    CURSPAN_RELEASED = 4
};

enum curspan_key_code {
    CURSPAN_KEY_NONE = 0x110000, /* none came in time */
    CURSPAN_KEY_RESIZE,          /* the size is another, or the terminal was given back meanwhile: show all again */
    CURSPAN_KEY_PASTE,           /* a text was pasted, or a part of it: where it pauses for a second, or is long */
    CURSPAN_KEY_UNKNOWN,         /* a sequence that is no key's, or bytes that are no UTF-8 */
    CURSPAN_KEY_EOF,             /* the input has ended, as where the terminal is gone */
    CURSPAN_KEY_INTERRUPTED,     /* a signal came which the program has caught */
    CURSPAN_KEY_ENTER,
    CURSPAN_KEY_TAB,
    CURSPAN_KEY_ESCAPE,
    CURSPAN_KEY_BACKSPACE,
    CURSPAN_KEY_UP,
    CURSPAN_KEY_DOWN,
    CURSPAN_KEY_LEFT,
    CURSPAN_KEY_RIGHT,
    CURSPAN_KEY_HOME,
    CURSPAN_KEY_END,
    CURSPAN_KEY_PAGE_UP,
    CURSPAN_KEY_PAGE_DOWN,
    CURSPAN_KEY_INSERT,
    CURSPAN_KEY_DELETE,
    CURSPAN_KEY_BEGIN,           /* of the keypad, and the five that follow */
    CURSPAN_KEY_A1,
    CURSPAN_KEY_A3,
    CURSPAN_KEY_B2,
    CURSPAN_KEY_C1,
    CURSPAN_KEY_C3,
    CURSPAN_KEY_F0
};

#define CURSPAN_KEY_F(n) (CURSPAN_KEY_F0 + (n))

/* Waits for a key, for some milliseconds, not at all for 0, or without end where they are negative. An escape that
   nothing follows for a tenth of a second, or for ESCDELAY milliseconds where the environment has that, is the key of
   its name. */
uint32_t curspan_terminal_key(curspan_terminal *terminal, int milliseconds, curspan_key *key);

/* Puts the name of a key into `out`, as much of it as there is room for with a NUL, and answers its length: the
   character, or a name such as up, pagedown, f1, ctrl+left, alt+x, shift+tab, none, resize. */
size_t curspan_key_name(const curspan_key *key, char *out, size_t room);

/* ---- texts */

/* Puts a text of UTF-8 into `out`, which has room for as many bytes and may be the same, as a window can have it, and
   answers its length. The characters from the space to the tilde stay, and so do newline, carriage return and
   backspace. A letter of Latin script loses its mark. A character without width is left out. Of any other, as a control
   character, there is a question mark, with a blank where it is wide. */
size_t curspan_plain_text(const char *text, size_t length, char *out);

#ifdef __cplusplus
}
#endif

#endif

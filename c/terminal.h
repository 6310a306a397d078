/* What the files share that are about terminals: their bytes, modes, keys and signals. */
#ifndef CURSPAN_INSIDE_TERMINAL_H
#define CURSPAN_INSIDE_TERMINAL_H

#define _GNU_SOURCE
#include <signal.h>
#include <stdbool.h>
#include <stdint.h>
#include <stdio.h>
#include <stdlib.h>
#include <string.h>
#include <sys/types.h>
#include <termios.h>

#include "keys.h"

/* Bytes that were read and nobody took, and when the last of them came. */
enum { CURSPAN_TYPED = 256 };
struct curspan_typed {
    unsigned char bytes[CURSPAN_TYPED];
    size_t first, count;
    long came;
    bool is_at_end; /* of the input */
};

/* Whether the picture is on the terminal's other page. */
enum { PAGE_LEFT, PAGE_ENTERING, PAGE_ENTERED };

/* A terminal of curses.h or of curspan_terminal.h. Handlers of signals, in any thread, see what is behind `owner`. */
struct curspan_tty {
    int in, out;                   /* of which is read, and to which is written */
    struct curspan_typed typed;
    bool rings;                    /* the bell does since there is something to read that was read already */
    bool is_suspended;             /* the program itself gave it back */
    int own;                       /* of `out`, opened anew so that no write waits: -1 where that can't be, and then */
    size_t most;                   /* bytes that `out` takes without waiting, once it is ready to be written */
    bool keeps;                    /* what it doesn't take now is kept, and nothing waits for it: */
    uint8_t *kept;
    size_t kept_count;
    char enter[48], leave[64];     /* what is written where the picture comes and goes */
    struct termios shell, program; /* the modes outside, and those of the program */
    int line;                      /* that of both whose modes are set: -1 where neither is a terminal */
    int bell;                      /* an eventfd on which who waits for keys is told of what handlers did */
    unsigned device;               /* which terminal it is, or 0 */
    struct curspan_tty *next;      /* of those that were entered, in a list that only grows */
    bool is_listed;
    bool owns;                     /* the signals */
    pid_t owner;                   /* the process that has it, or 0 */
    int holds;                     /* of handlers that look at it now */
    int page;
    bool is_ended;                 /* it was given back, and not taken since */
    bool was_away;                 /* it was given back, and its size may be another */
    bool is_keypad;                /* it sends the sequences of an application's keypad */
    bool was_stopped, was_resized; /* where it owns the signals: since that was looked at last */
    bool is_held, stop_is_due;     /* the program isn't to be stopped now; it is to be then */
};

/* What threads and handlers share is read and set whole. */
#define CURSPAN_LOOK(field) __atomic_load_n(&(field), __ATOMIC_SEQ_CST)
#define CURSPAN_SET(field, value) __atomic_store_n(&(field), (value), __ATOMIC_SEQ_CST)
#define CURSPAN_TAKE(flag) __atomic_exchange_n(&(flag), false, __ATOMIC_SEQ_CST)

/* ---- tty.c */

/* Opens the terminal of a descriptor once more, so that nothing waits there, and the flags of that one, which other
   programs share, stay; or answers -1. */
int curspan_open_anew(int descriptor);
/* Lets a terminal write to a descriptor. */
void curspan_set_output(struct curspan_tty *tty, int out);
/* Writes for some milliseconds, not waiting for 0, or without end where they are negative. Answers how many bytes were
   written, or -1. Handlers of signals may call it. */
ssize_t curspan_write(const struct curspan_tty *tty, const void *bytes, size_t length, int milliseconds);
/* Writes all of some bytes, or of a text, or keeps what isn't taken now. */
bool curspan_send(struct curspan_tty *tty, const void *bytes, size_t length);
bool curspan_send_text(struct curspan_tty *tty, const char *text);
/* Writes what is kept. */
bool curspan_flush(struct curspan_tty *tty, int milliseconds);
bool curspan_switch_keypad(struct curspan_tty *tty, bool flag, int milliseconds);
/* Comes to the picture's page, with the program's modes, where it isn't there. */
bool curspan_come_back(struct curspan_tty *tty);
/* Leaves that page and the keypad, with the modes as they were before. A handler of signals may call it for 0. */
bool curspan_give_back(struct curspan_tty *tty, int milliseconds);
/* Whether there is something to give back. */
static inline bool curspan_is_owed(const struct curspan_tty *tty) {
    return !CURSPAN_LOOK(tty->is_ended) || CURSPAN_LOOK(tty->page) != PAGE_LEFT;
}
/* Whether the picture is on the terminal. */
static inline bool curspan_is_shown(const struct curspan_tty *tty) {
    return CURSPAN_LOOK(tty->page) == PAGE_ENTERED && !CURSPAN_LOOK(tty->is_ended);
}
/* Sets modes, now or, by TCSADRAIN, once all is written. */
bool curspan_set_modes(const struct curspan_tty *tty, const struct termios *modes, int when);
/* Lets a read answer as soon as there is a byte, and the keys of signals be bytes. */
void curspan_read_at_once(struct termios *modes);
void curspan_make_raw(struct termios *modes);
enum { CURSPAN_INPUT_FLAGS = BRKINT | IXON | PARMRK }; /* which are off then */
#define CURSPAN_ENTER "\033[?1049h"
#define CURSPAN_LEAVE "\033[0m\033[?25h\033[%d;1H\033[?1049l"
/* Milliseconds of a clock, and how many of some are left until their end: -1 where they are negative, and have none. */
long curspan_now(void);
int curspan_left_until(int milliseconds, long end);
/* The number in a variable of the environment, or -1 where there is none, or one past 32767. */
int curspan_number_in(const char *variable);
/* The size that is wanted, else that of the terminal, else 24 by 80. Answers whether the terminal is there. */
bool curspan_find_size(const struct curspan_tty *tty, int *lines, int *columns);

/* ---- terminal_keys.c */

enum { CURSPAN_HELD = 4096 + CURSPAN_TYPED }; /* bytes of the longest sequence, and of what follows it */

/* How a terminal of curspan_terminal.h reads keys. */
struct curspan_reader {
    struct curspan_tty *tty;
    struct curspan_keys decoder;
    struct curspan_taken second;      /* the decoder answered it with the key before it */
    unsigned char held[CURSPAN_HELD]; /* what the decoder read: of the key told last, and behind it */
    size_t told, count;
    char *paste;                      /* what was pasted and not told */
    size_t length, room;
    bool is_pasting;
    int escape_delay, lines, columns; /* the size as a key told of it last */
    int epoll, timer;                 /* the descriptor to wait for, and what makes it ready at a time: */
    long due;
};

/* Begins to read keys, with what was asked of the terminal. Where it fails errno says why, and it is to be ended. */
bool curspan_begin_reading(struct curspan_reader *reader, struct curspan_tty *tty, uint32_t asked);
void curspan_end_reading(struct curspan_reader *reader);
/* Tells a text that is being pasted as far as it came, by the next key. */
void curspan_end_paste(struct curspan_reader *reader);
struct curspan_key;
void curspan_read_key(struct curspan_reader *reader, int milliseconds, struct curspan_key *key);

/* ---- recolouring.c */

enum {
    OWN_COLOUR = -1, /* the terminal's own */
    OWN_PAIRS = 64   /* of curspan.h */
};

/* What the pairs of curspan.h become on their way, each known by two colours of its own: its number in base 8. */
struct curspan_palette {
    signed char colours[OWN_PAIRS][2]; /* those of 0 are for cells that have none */
    bool are_alternate[OWN_PAIRS];     /* drawn with the terminal's alternate characters */
    bool changes;                      /* some of it does */
    bool is_alternate;                 /* the terminal draws alternate characters now */
};

/* Gives each pair of a screen its two colours. */
struct curspan;
void curspan_number_pairs(struct curspan *screen);
/* Puts bytes for the terminal into `out`, with the colours of a palette, and answers how many they are: not more than
   CURSPAN_RECOLOURED times as many. The bytes may be behind these, with room for all between. */
size_t curspan_recolour(struct curspan_palette *palette, const uint8_t *bytes, size_t length, uint8_t *out);
enum { CURSPAN_RECOLOURED = 4 };
/* Lets the terminal draw no alternate characters. */
#define CURSPAN_PLAIN_SET "\033(B"

/* The bytes on their way: those that the screen sent stand behind room for them as they are recoloured. */
struct curspan_outgoing {
    uint8_t *bytes;
    size_t room;
};

/* Writes what a screen sent. Where it can't be written it is lost. */
bool curspan_hand_on(struct curspan_tty *tty, struct curspan *screen, struct curspan_palette *palette,
                     struct curspan_outgoing *outgoing);

/* ---- output.c */

/* The terminal of curses.h, and its output, for what isn't of the picture. */
extern struct curspan_tty curspan_the_tty;
extern FILE *curspan_stream;
/* Draws all again where the program was stopped and goes on, and answers whether it was. */
bool curspan_redraw_after_stop(void);
void curspan_forget_output(void);

/* ---- modes.c */

/* How keys are read: each is a mode that a function of X/Open sets. */
extern struct curspan_modes {
    bool raw, cbreak, echo, newline, meta;
    int half_delay; /* tenths of a second, or 0 */
} curspan_modes;

void curspan_begin_modes(void);
/* Reads keys as they are typed for a while, and puts back what was before. */
void curspan_begin_raw(struct curspan_modes *modes, struct termios *line);
void curspan_end_raw(const struct curspan_modes *modes, const struct termios *line);

/* ---- signals.c */

/* Gives a terminal back at exit, and where it shall own the signals, and none does, catches those that the program left
   as they were. What stands in the way of that is answered. */
enum curspan_entry { CURSPAN_ENTERED, CURSPAN_OPEN_ALREADY, CURSPAN_OWNED_ALREADY };
enum curspan_entry curspan_attend(struct curspan_tty *tty, bool shall_own);
/* Leaves a terminal, and the signals that are still caught where it owned them. */
void curspan_abandon(struct curspan_tty *tty);
/* Holds back the signal that stops the program, and lets it through again. */
void curspan_hold_stop(struct curspan_tty *tty);
void curspan_let_stop(struct curspan_tty *tty);
/* Whether all handlers of the program let calls go on that they interrupt. That of a fault ends no wait. */
bool curspan_handlers_restart(void);

/* ---- events.c */

/* Reads so many bytes that are there, at most, and answers how many came. */
size_t curspan_read_bytes(struct curspan_tty *tty, size_t most);
/* Takes the first of those that were read. */
void curspan_take_bytes(struct curspan_tty *tty, size_t count);
/* How much of a delay is left that began with the last byte. */
int curspan_delay_left(const struct curspan_tty *tty, int delay);
/* Whether handlers told of a stop or a new size, and it wasn't looked at yet. */
bool curspan_is_told(const struct curspan_tty *tty);
/* Lets the bell ring, as handlers do, or not, and then answers whether it did. */
void curspan_ring(const struct curspan_tty *tty);
bool curspan_silence(struct curspan_tty *tty);

enum curspan_waited { WAIT_FOUND, WAIT_OVER, WAIT_TOLD, WAIT_INTERRUPTED };

/* Waits for something to read, for some milliseconds, or without end where they are negative. It is told of a stop, a
   new size and that the terminal was given back, also where that came since it was last looked at. */
enum curspan_waited curspan_wait(struct curspan_tty *tty, int milliseconds);

/* ---- resizing.c and screen.c */

/* Takes the size that the terminal has now. Where it is another, or a signal told of it, getch answers KEY_RESIZE. */
void curspan_resize_to_terminal(bool is_told);

/* The size that the environment asks for, or the terminal has. */
void curspan_find_screen_size(int *lines, int *columns);
/* Takes a new size over into what endwin writes. */
void curspan_tell_size(int lines);

/* ---- keys */

struct curspan_sequence {
    const char *bytes;
    int key;
};

enum { CURSPAN_SEQUENCES = 154 };
extern const struct curspan_sequence curspan_sequences[CURSPAN_SEQUENCES];
/* Whether the keys of a type of terminal have a sequence, by its place. */
bool curspan_is_of_type(int sequence, const char *type);
/* The key whose sequence some bytes are, 0 where they begin none, and ERR where a longer sequence begins with them. */
int curspan_key_of(const unsigned char *bytes, size_t length);
/* Forgets the keys that the program defined, and has those of a type. */
void curspan_forget_keys(const char *type);
void curspan_forget_input(void);

#endif

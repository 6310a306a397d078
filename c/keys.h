/* The proved decoder of keys, of the crate `keys`: each byte that a terminal sends is in one key. Internal. */
#ifndef CURSPAN_KEYS_H
#define CURSPAN_KEYS_H

#include <stddef.h>
#include <stdint.h>

/* A decoder, or where it is zeros none: then it takes no bytes and answers no key. */
struct curspan_keys {
    void *at;
};

/* What the terminal was asked to send. The sequences of the others are one unknown each. */
enum { CURSPAN_KEYS_PASTE = 1, CURSPAN_KEYS_MOUSE = 2, CURSPAN_KEYS_FOCUS = 4 };

enum {
    CURSPAN_TAKEN_NONE,
    CURSPAN_TAKEN_PRESSED,      /* `code` is as in curspan_terminal.h, `modifiers` too */
    CURSPAN_TAKEN_UNKNOWN,
    CURSPAN_TAKEN_PASTE_BEGINS,
    CURSPAN_TAKEN_PASTED,       /* its bytes are of the text */
    CURSPAN_TAKEN_PASTE_ENDS,
    CURSPAN_TAKEN_MOUSE,        /* `code` is the button, `flags` 1 for moved and 2 for released */
    CURSPAN_TAKEN_FOCUS_IN,
    CURSPAN_TAKEN_FOCUS_OUT
};

/* A key, and how many bytes it took. */
struct curspan_taken {
    uint32_t kind, code, modifiers, flags, column, line;
    size_t count;
};

/* How many bytes were read, and the keys that the last of them answered, in their order. */
struct curspan_fed {
    size_t used;
    struct curspan_taken cut, whole;
};

/* Answers CURSPAN_OK, CURSPAN_NO_MEMORY, or CURSPAN_BAD_CHARACTER where something is asked for that there isn't. The
   handle is as before where it isn't CURSPAN_OK. */
uint32_t curspan_keys_open(struct curspan_keys *keys, uint32_t asked);
void curspan_keys_close(struct curspan_keys *keys);
/* Reads bytes up to the first one that answers a key. */
struct curspan_fed curspan_keys_bytes(struct curspan_keys *keys, const uint8_t *bytes, size_t length);
/* Reads that nothing came until the delay was over. */
struct curspan_taken curspan_keys_delay(struct curspan_keys *keys);
/* Whether that would answer a key. */
uint32_t curspan_keys_waits(struct curspan_keys *keys);
/* Forgets what was read. */
void curspan_keys_restart(struct curspan_keys *keys);

#endif

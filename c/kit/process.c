/* What the program asks of its process, where the Rattle kit has no objects for the processor. Nothing here is proved:
   what the kit's sources say of each function is taken for granted. */
#define _GNU_SOURCE
#include <errno.h>
#include <stddef.h>
#include <stdint.h>
#include <stdlib.h>
#include <sys/types.h>
#include <unistd.h>

enum { MISSING = -1, TOO_LONG = -2 };

static size_t count;
static char **words;

/* The C library hands its arguments to what runs before main. */
__attribute__((constructor)) static void keep(int arguments, char **argument) {
    count = arguments > 0 ? (size_t)arguments : 0;
    words = argument;
}

/* Copies a text without its zero, and answers its length. Of one that is too long there is as much as there is room. */
static ssize_t copy(const char *from, uint8_t *to, size_t room) {
    size_t length = 0;
    if (!from) return MISSING;
    for (; from[length]; length++) {
        if (length == room) return TOO_LONG;
        to[length] = (uint8_t)from[length];
    }
    return (ssize_t)length;
}

size_t rattle_arg_count(void) { return count; }

ssize_t rattle_arg(size_t i, uint8_t *to, size_t room) { return copy(i < count ? words[i] : NULL, to, room); }

ssize_t rattle_env(const char *name, uint8_t *to, size_t room) { return copy(getenv(name), to, room); }

ssize_t rattle_env_at(size_t i, uint8_t *to, size_t room) {
    char **entry = environ;
    while (entry && *entry && i-- > 0) entry++;
    return copy(entry ? *entry : NULL, to, room);
}

int rattle_errno(void) { return errno; }

void rattle_set_errno(int error) { errno = error; }

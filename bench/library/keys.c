/* A hundred thousand keys, read by the exports that terminals use, of which bench/budgets counts the instructions. The
   word is what a terminal sends for one. */
#include "keys.h"
#include <stdio.h>
#include <string.h>

enum { KEYS = 1000, TIMES = 100 };

static uint8_t bytes[16 * KEYS];

int main(int count, char **words) {
    struct curspan_keys keys = {NULL};
    const size_t length = count == 2 ? strlen(words[1]) : 0;
    long pressed = 0;
    if (length == 0 || length > 16 || curspan_keys_open(&keys, CURSPAN_KEYS_PASTE) != 0) return 2;
    for (size_t at = 0; at < KEYS * length; at += length) memcpy(bytes + at, words[1], length);
    for (int n = 0; n < TIMES; n++) {
        for (size_t at = 0; at < KEYS * length;) {
            const struct curspan_fed fed = curspan_keys_bytes(&keys, bytes + at, KEYS * length - at);
            pressed += (fed.cut.kind == CURSPAN_TAKEN_PRESSED) + (fed.whole.kind == CURSPAN_TAKEN_PRESSED);
            at += fed.used;
        }
    }
    curspan_keys_close(&keys);
    if (pressed != (long)KEYS * TIMES) printf("keys: %ld keys are read\n", pressed);
    return pressed != (long)KEYS * TIMES;
}

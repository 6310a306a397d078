/* decode: reads lines of bytes, as two hexadecimal digits each, and puts out for each line the keys that the proved
   decoder answers, with blanks between. Each of the words of a line is given to the decoder by itself: `.` is the end
   of the delay, which comes at the end of a line too, and `?` asks for nothing of paste, mouse and focus. */
#include "../../c/keys.h"
#include "curspan_terminal.h"

#include <stdbool.h>
#include <stdio.h>
#include <stdlib.h>
#include <string.h>

enum { ALL = CURSPAN_KEYS_PASTE | CURSPAN_KEYS_MOUSE | CURSPAN_KEYS_FOCUS };

static const char *gap;

static void put_modifiers(uint32_t modifiers) {
    printf("%s%s%s", modifiers & CURSPAN_CTRL ? "ctrl+" : "", modifiers & CURSPAN_ALT ? "alt+" : "",
           modifiers & CURSPAN_SHIFT ? "shift+" : "");
}

static void put_key(const struct curspan_taken *taken) {
    static const char *const kinds[] = {"", "", "unknown", "paste", "pasted", "ended", "", "focus", "unfocus"};
    curspan_key key = {.code = taken->code, .modifiers = taken->modifiers};
    char name[64];
    if (taken->kind == 0) return;
    fputs(gap, stdout);
    gap = " ";
    if (taken->kind == 1) {
        size_t length = curspan_key_name(&key, name, sizeof name);
        if (key.code == ' ') strcpy(name + length - 1, "space");
        fputs(name, stdout);
    } else if (taken->kind == 6) {
        put_modifiers(taken->modifiers);
        printf("%s(%u,%u,%u)", taken->flags & 1 ? "motion" : taken->flags & 2 ? "release" : "press", taken->code,
               taken->line, taken->column);
    } else {
        fputs(kinds[taken->kind], stdout);
    }
}

static void give(struct curspan_keys *keys, const uint8_t *bytes, size_t length) {
    while (length > 0) {
        struct curspan_fed fed = curspan_keys_bytes(keys, bytes, length);
        put_key(&fed.cut);
        put_key(&fed.whole);
        bytes += fed.used;
        length -= fed.used;
    }
}

static void end_delay(struct curspan_keys *keys) {
    struct curspan_taken taken = curspan_keys_delay(keys);
    put_key(&taken);
}

int main(void) {
    static char line[65536];
    static uint8_t bytes[sizeof line / 2];
    while (fgets(line, sizeof line, stdin)) {
        struct curspan_keys keys = {0};
        bool asks = !strchr(line, '?');
        if (curspan_keys_open(&keys, asks ? ALL : 0) != 0) return 1;
        gap = "";
        for (char *word = strtok(line, " \n"); word; word = strtok(NULL, " \n")) {
            size_t length = 0;
            if (*word == '.') end_delay(&keys);
            for (unsigned byte; sscanf(word + 2 * length, "%2x", &byte) == 1;) bytes[length++] = (uint8_t)byte;
            give(&keys, bytes, length);
        }
        end_delay(&keys);
        putchar('\n');
        curspan_keys_close(&keys);
    }
    return 0;
}

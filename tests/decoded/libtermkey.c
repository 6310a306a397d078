/* Reads lines of bytes, as two hexadecimal digits each, and puts out for each line the keys that libtermkey reads, by
   the names that Curspan has for them, with blanks between. */
#include <stdio.h>
#include <string.h>
#include <strings.h>
#include <termkey.h>

static const char *const names[][2] = {
    {"PageUp", "pageup"}, {"PageDown", "pagedown"}, {"DEL", "backspace"}, {"Backspace", "backspace"},
    {"Insert", "insert"}, {"Delete", "delete"}, {"Enter", "enter"}, {"KPEnter", "enter"}, {"Escape", "escape"},
    {"Tab", "tab"}, {"Up", "up"}, {"Down", "down"}, {"Left", "left"}, {"Right", "right"}, {"Begin", "begin"},
    {"Find", "home"}, {"Select", "end"}, {"Home", "home"}, {"End", "end"}, {"Space", "space"},
};

static void put_modifiers(int held) {
    printf("%s%s%s", held & TERMKEY_KEYMOD_CTRL ? "ctrl+" : "", held & TERMKEY_KEYMOD_ALT ? "alt+" : "",
           held & TERMKEY_KEYMOD_SHIFT ? "shift+" : "");
}

static void put_name(TermKey *reader, TermKeySym symbol) {
    const char *name = termkey_get_keyname(reader, symbol);
    for (size_t i = 0; i < sizeof names / sizeof names[0]; i++)
        if (strcmp(names[i][0], name) == 0) name = names[i][1];
    fputs(name, stdout);
}

static void put_mouse(TermKey *reader, const TermKeyKey *key) {
    static const char *const events[] = {"unknown", "press", "motion", "release"};
    TermKeyMouseEvent event;
    int button = 0, line, column;
    termkey_interpret_mouse(reader, key, &event, &button, &line, &column);
    printf("%s(%d,%d,%d)", events[event], button, line - 1, column - 1);
}

static void put_key(TermKey *reader, const TermKeyKey *key) {
    switch (key->type) {
    case TERMKEY_TYPE_UNICODE:
        put_modifiers(key->modifiers);
        printf("%s", key->code.codepoint == ' ' ? "space" : key->utf8);
        return;
    case TERMKEY_TYPE_FUNCTION:
        put_modifiers(key->modifiers);
        printf("f%d", key->code.number);
        return;
    case TERMKEY_TYPE_KEYSYM:
        put_modifiers(key->modifiers);
        put_name(reader, key->code.sym);
        return;
    case TERMKEY_TYPE_MOUSE:
        put_modifiers(key->modifiers);
        put_mouse(reader, key);
        return;
    default:
        printf("unknown");
    }
}

int main(void) {
    static char line[65536], bytes[sizeof line / 2];
    while (fgets(line, sizeof line, stdin)) {
        TermKey *reader = termkey_new_abstract("vt100", TERMKEY_FLAG_UTF8 | TERMKEY_FLAG_CONVERTKP);
        TermKeyKey key;
        TermKeyResult result;
        size_t length = 0;
        for (unsigned byte; sscanf(line + 2 * length, "%2x", &byte) == 1;) bytes[length++] = (char)byte;
        termkey_set_buffer_size(reader, sizeof bytes);
        termkey_push_bytes(reader, bytes, length);
        const char *gap = "";
        while ((result = termkey_getkey(reader, &key)) == TERMKEY_RES_KEY ||
               (result == TERMKEY_RES_AGAIN && termkey_getkey_force(reader, &key) == TERMKEY_RES_KEY)) {
            fputs(gap, stdout);
            gap = " ";
            put_key(reader, &key);
        }
        putchar('\n');
        termkey_destroy(reader);
    }
    return 0;
}

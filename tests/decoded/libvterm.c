/* Puts out what the keyboard of libvterm sends for each key with each of the eight sets of modifiers: its name as
   Curspan has it, a tab, and the bytes, as two hexadecimal digits each. */
#include <stdio.h>
#include <string.h>
#include <vterm.h>

static const struct {
    VTermKey key;
    const char *name;
} keys[] = {
    {VTERM_KEY_ENTER, "enter"}, {VTERM_KEY_TAB, "tab"}, {VTERM_KEY_BACKSPACE, "backspace"},
    {VTERM_KEY_ESCAPE, "escape"}, {VTERM_KEY_UP, "up"}, {VTERM_KEY_DOWN, "down"}, {VTERM_KEY_LEFT, "left"},
    {VTERM_KEY_RIGHT, "right"}, {VTERM_KEY_INS, "insert"}, {VTERM_KEY_DEL, "delete"}, {VTERM_KEY_HOME, "home"},
    {VTERM_KEY_END, "end"}, {VTERM_KEY_PAGEUP, "pageup"}, {VTERM_KEY_PAGEDOWN, "pagedown"},
};
static const uint32_t others[] = {0xe9, 0x20ac, 0x4e2d, 0x1f600};

static VTerm *terminal;

static void put_name(VTermModifier held, const char *name) {
    printf("%s%s%s%s\t", held & VTERM_MOD_CTRL ? "ctrl+" : "", held & VTERM_MOD_ALT ? "alt+" : "",
           held & VTERM_MOD_SHIFT ? "shift+" : "", name);
}

static void put_bytes(void) {
    char bytes[64];
    size_t length = vterm_output_read(terminal, bytes, sizeof bytes);
    for (size_t i = 0; i < length; i++) printf("%02x", (unsigned char)bytes[i]);
    putchar('\n');
}

static void press(VTermKey key, const char *name) {
    for (int held = 0; held < 8; held++) {
        put_name(held, name);
        vterm_keyboard_key(terminal, key, held);
        put_bytes();
    }
}

static void type(uint32_t character) {
    static const VTermModifier all[] = {0, VTERM_MOD_ALT, VTERM_MOD_CTRL, VTERM_MOD_ALT | VTERM_MOD_CTRL};
    char name[16];
    snprintf(name, sizeof name, character == ' ' ? "space" : "U+%X", character);
    for (int i = 0; i < (character < 128 ? 4 : 1); i++) { /* with alt it sends one byte of those past ASCII */
        put_name(all[i], name);
        vterm_keyboard_unichar(terminal, character, all[i]);
        put_bytes();
    }
}

int main(void) {
    const char *const modes[] = {"", "\033[?1h\033="};
    char name[8];
    terminal = vterm_new(24, 80);
    vterm_set_utf8(terminal, 1);
    vterm_screen_reset(vterm_obtain_screen(terminal), 1);
    for (int mode = 0; mode < 2; mode++) {
        vterm_input_write(terminal, modes[mode], strlen(modes[mode]));
        for (size_t i = 0; i < sizeof keys / sizeof keys[0]; i++) press(keys[i].key, keys[i].name);
        for (int number = 1; number <= 12; number++) {
            snprintf(name, sizeof name, "f%d", number);
            press(VTERM_KEY_FUNCTION(number), name);
        }
    }
    for (uint32_t character = ' '; character < 127; character++) type(character);
    for (size_t i = 0; i < sizeof others / sizeof others[0]; i++) type(others[i]);
    vterm_free(terminal);
    return 0;
}

/* The names of keys and of bytes. Nothing here is proved. */
#include "inside.h"
#include "terminal.h"

/* Spells a byte: a control character as a caret and a letter, and one of eight bits with M- where that is wanted. */
static void spell(char *name, int byte, bool with_meta) {
    if (byte >= 128 && with_meta) {
        *name++ = 'M';
        *name++ = '-';
        byte -= 128;
    }
    if (byte < ' ' || byte == 127) {
        *name++ = '^';
        byte ^= 64;
    }
    *name++ = (char)byte;
    *name = 0;
}

const char *unctrl(chtype ch) {
    static char names[256][6];
    int byte = (int)(ch & A_CHARTEXT), low = byte & 127;
    spell(names[byte], byte, true);
    if (byte >= 128 && (low < ' ' || low == 127)) {
        names[byte][0] = '~';
        names[byte][1] = (char)(low ^ 64);
        names[byte][2] = 0;
    }
    return names[byte];
}

/* The names of the keys that are no function keys, from KEY_MIN on. */
static const struct {
    int key;
    const char *name;
} named[] = {
#define NAMED(key) {KEY_##key, "KEY_" #key}
    NAMED(BREAK), NAMED(DOWN), NAMED(UP), NAMED(LEFT), NAMED(RIGHT), NAMED(HOME), NAMED(BACKSPACE), NAMED(DL),
    NAMED(IL), NAMED(DC), NAMED(IC), NAMED(EIC), NAMED(CLEAR), NAMED(EOS), NAMED(EOL), NAMED(SF), NAMED(SR),
    NAMED(NPAGE), NAMED(PPAGE), NAMED(STAB), NAMED(CTAB), NAMED(CATAB), NAMED(ENTER), NAMED(SRESET), NAMED(RESET),
    NAMED(PRINT), NAMED(LL), NAMED(A1), NAMED(A3), NAMED(B2), NAMED(C1), NAMED(C3), NAMED(BTAB), NAMED(BEG),
    NAMED(CANCEL), NAMED(CLOSE), NAMED(COMMAND), NAMED(COPY), NAMED(CREATE), NAMED(END), NAMED(EXIT), NAMED(FIND),
    NAMED(HELP), NAMED(MARK), NAMED(MESSAGE), NAMED(MOVE), NAMED(NEXT), NAMED(OPEN), NAMED(OPTIONS), NAMED(PREVIOUS),
    NAMED(REDO), NAMED(REFERENCE), NAMED(REFRESH), NAMED(REPLACE), NAMED(RESTART), NAMED(RESUME), NAMED(SAVE),
    NAMED(SBEG), NAMED(SCANCEL), NAMED(SCOMMAND), NAMED(SCOPY), NAMED(SCREATE), NAMED(SDC), NAMED(SDL), NAMED(SELECT),
    NAMED(SEND), NAMED(SEOL), NAMED(SEXIT), NAMED(SFIND), NAMED(SHELP), NAMED(SHOME), NAMED(SIC), NAMED(SLEFT),
    NAMED(SMESSAGE), NAMED(SMOVE), NAMED(SNEXT), NAMED(SOPTIONS), NAMED(SPREVIOUS), NAMED(SPRINT), NAMED(SREDO),
    NAMED(SREPLACE), NAMED(SRIGHT), NAMED(SRSUME), NAMED(SSAVE), NAMED(SSUSPEND), NAMED(SUNDO), NAMED(SUSPEND),
    NAMED(UNDO), NAMED(MOUSE), NAMED(RESIZE),
#undef NAMED
};

const char *keyname(int key) {
    static char bytes[256][6], functions[64][12];
    if (key == ERR) return "-1";
    if (key >= 0 && key < 256) {
        spell(bytes[key], key, curspan_modes.meta || !stdscr);
        return bytes[key];
    }
    if (key >= KEY_F0 && key < KEY_F0 + 64) {
        snprintf(functions[key - KEY_F0], sizeof functions[0], "KEY_F(%d)", key - KEY_F0);
        return functions[key - KEY_F0];
    }
    for (size_t i = 0; i < sizeof named / sizeof named[0]; i++)
        if (named[i].key == key) return named[i].name;
    return NULL;
}

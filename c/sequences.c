/* The sequences of the keys of xterm, tmux, screen, the Linux console and rxvt, as terminfo has them. No sequence is
   that of two keys, but for rxvt's Find and Select, which no keyboard has: these are Home and End here. */
#include "curses.h"
#include "terminal.h"

enum { OF_LINUX = 3 };

/* The key of an escape sequence. */
#define S(bytes, key) {"\033" bytes, KEY_##key}

/* F1 to F12 of xterm and tmux with shift, control and such, whose number begins a row of twelve. */
#define FIRST_FUNCTION_KEYS(from, with) \
    S("[1;" with "P", F((from) + 1)), S("[1;" with "Q", F((from) + 2)), S("[1;" with "R", F((from) + 3))
#define FUNCTION_KEYS(from, with) \
    FIRST_FUNCTION_KEYS(from, with), S("[1;" with "S", F((from) + 4)), S("[15;" with "~", F((from) + 5)), \
    S("[17;" with "~", F((from) + 6)), S("[18;" with "~", F((from) + 7)), S("[19;" with "~", F((from) + 8)), \
    S("[20;" with "~", F((from) + 9)), S("[21;" with "~", F((from) + 10)), S("[23;" with "~", F((from) + 11)), \
    S("[24;" with "~", F((from) + 12))

/* The keys of rxvt's upper function row, by how their sequence ends. */
#define UPPER_FUNCTION_KEYS(from, end) \
    S("[25" end, F(from)), S("[26" end, F((from) + 1)), S("[28" end, F((from) + 2)), S("[29" end, F((from) + 3)), \
    S("[31" end, F((from) + 4)), S("[32" end, F((from) + 5)), S("[33" end, F((from) + 6)), S("[34" end, F((from) + 7))

const struct curspan_sequence curspan_sequences[CURSPAN_SEQUENCES] = {
    {"\177", KEY_BACKSPACE},
    /* the keys of the cursor, of an application and normal */
    S("OA", UP), S("OB", DOWN), S("OC", RIGHT), S("OD", LEFT), S("[A", UP), S("[B", DOWN), S("[C", RIGHT),
    S("[D", LEFT), S("OH", HOME), S("[H", HOME), S("[1~", HOME), S("[7~", HOME), S("OF", END), S("[F", END),
    S("[4~", END), S("[8~", END), S("[2~", IC), S("[3~", DC), S("[5~", PPAGE), S("[6~", NPAGE), S("[Z", BTAB),
    /* the keypad */
    S("OM", ENTER), S("OE", BEG), S("Ow", A1), S("Oy", A3), S("Ou", B2), S("Oq", C1), S("Os", C3),
    /* with shift: of xterm and tmux, and of rxvt */
    S("[1;2A", SR), S("[1;2B", SF), S("[1;2C", SRIGHT), S("[1;2D", SLEFT), S("[1;2H", SHOME), S("[1;2F", SEND),
    S("[2;2~", SIC), S("[3;2~", SDC), S("[5;2~", SPREVIOUS), S("[6;2~", SNEXT), S("[c", SRIGHT), S("[d", SLEFT),
    S("[7$", SHOME), S("[8$", SEND), S("[3$", SDC), S("[5$", SPREVIOUS), S("[6$", SNEXT), S("[8^", EOL),
    /* F1 to F12: of xterm, tmux and screen, of the Linux console, and of rxvt */
    S("OP", F(1)), S("OQ", F(2)), S("OR", F(3)), S("OS", F(4)), S("[[A", F(1)), S("[[B", F(2)), S("[[C", F(3)),
    S("[[D", F(4)), S("[[E", F(5)), S("[11~", F(1)), S("[12~", F(2)), S("[13~", F(3)), S("[14~", F(4)), S("[15~", F(5)),
    S("[17~", F(6)), S("[18~", F(7)), S("[19~", F(8)), S("[20~", F(9)), S("[21~", F(10)), S("[23~", F(11)),
    S("[24~", F(12)),
    /* with shift, control, both, alt, and shift and alt */
    FUNCTION_KEYS(12, "2"), FUNCTION_KEYS(24, "5"), FUNCTION_KEYS(36, "6"), FUNCTION_KEYS(48, "3"),
    FIRST_FUNCTION_KEYS(60, "4"),
    /* of rxvt and the Linux console, with shift and control */
    UPPER_FUNCTION_KEYS(13, "~"), S("[23$", F(21)), S("[24$", F(22)), S("[11^", F(23)), S("[12^", F(24)),
    S("[13^", F(25)), S("[14^", F(26)), S("[15^", F(27)), S("[17^", F(28)), S("[18^", F(29)), S("[19^", F(30)),
    S("[20^", F(31)), S("[21^", F(32)), S("[23^", F(33)), S("[24^", F(34)), UPPER_FUNCTION_KEYS(35, "^"),
    S("[23@", F(43)), S("[24@", F(44)),
    /* of the Linux console alone */
    S("\t", BTAB), {"\032", KEY_SUSPEND}, S("[G", B2),
};

bool curspan_is_of_type(int sequence, const char *type) {
    return sequence < CURSPAN_SEQUENCES - OF_LINUX || strncmp(type, "linux", strlen("linux")) == 0;
}

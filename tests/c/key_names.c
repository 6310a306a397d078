/* The names and numbers of keys, those of bytes, and keys that the program defines. */
#include "shot.h"

static const int keys[] = {
    KEY_MIN,     KEY_BREAK,  KEY_SRESET,   KEY_RESET,    KEY_DOWN,    KEY_UP,        KEY_LEFT,    KEY_RIGHT,   KEY_HOME,
    KEY_BACKSPACE, KEY_F0,   KEY_F(1),     KEY_F(63),    KEY_DL,      KEY_IL,        KEY_DC,      KEY_IC,      KEY_EIC,
    KEY_CLEAR,   KEY_EOS,    KEY_EOL,      KEY_SF,       KEY_SR,      KEY_NPAGE,     KEY_PPAGE,   KEY_STAB,    KEY_CTAB,
    KEY_CATAB,   KEY_ENTER,  KEY_PRINT,    KEY_LL,       KEY_A1,      KEY_A3,        KEY_B2,      KEY_C1,      KEY_C3,
    KEY_BTAB,    KEY_BEG,    KEY_CANCEL,   KEY_CLOSE,    KEY_COMMAND, KEY_COPY,      KEY_CREATE,  KEY_END,     KEY_EXIT,
    KEY_FIND,    KEY_HELP,   KEY_MARK,     KEY_MESSAGE,  KEY_MOVE,    KEY_NEXT,      KEY_OPEN,    KEY_OPTIONS, KEY_PREVIOUS,
    KEY_REDO,    KEY_REFERENCE, KEY_REFRESH, KEY_REPLACE, KEY_RESTART, KEY_RESUME,   KEY_SAVE,    KEY_SBEG,    KEY_SCANCEL,
    KEY_SCOMMAND, KEY_SCOPY, KEY_SCREATE,  KEY_SDC,      KEY_SDL,     KEY_SELECT,    KEY_SEND,    KEY_SEOL,    KEY_SEXIT,
    KEY_SFIND,   KEY_SHELP,  KEY_SHOME,    KEY_SIC,      KEY_SLEFT,   KEY_SMESSAGE,  KEY_SMOVE,   KEY_SNEXT,   KEY_SOPTIONS,
    KEY_SPREVIOUS, KEY_SPRINT, KEY_SREDO,  KEY_SREPLACE, KEY_SRIGHT,  KEY_SRSUME,    KEY_SSAVE,   KEY_SSUSPEND, KEY_SUNDO,
    KEY_SUSPEND, KEY_UNDO,   KEY_MOUSE,    KEY_RESIZE,   KEY_MAX,
};

/* Shows the names of all keys and bytes. */
static void show_names(void) {
    for (size_t i = 0; i < sizeof keys / sizeof keys[0]; i++) {
        const char *name = keyname(keys[i]);
        printw("%d %s ", keys[i], name ? name : "none");
    }
    refresh();
    shot();
    erase();
    for (int byte = 0; byte < 256; byte++) printw("%s %s ", keyname(byte), byte < 160 ? unctrl((chtype)byte) : "");
    meta(stdscr, FALSE);
    printw("%s %s %d %d", keyname(-1), keyname('a'), !keyname(-2), !keyname(KEY_MAX));
    meta(stdscr, TRUE);
    refresh();
    shot();
}

static void tell(int answer) { printw("%d ", answer); }

/* Shows which keys the terminal has, and what becomes of sequences that are defined. */
static void show_definitions(void) {
    static const char *const sequences[] = {"\033OA", "\033O", "x", "\033OAx", "\033xy", "\033x", "zz", ""};
    erase();
    for (size_t i = 0; i < sizeof sequences / sizeof sequences[0]; i++) tell(key_defined(sequences[i]));
    tell(has_key(KEY_F(12)));
    tell(has_key('a'));
    tell(define_key("\033xy", 1000));
    tell(key_defined("\033x"));
    tell(define_key("\033xy", 1001));
    tell(key_defined("\033xy"));
    tell(has_key(1000));
    tell(define_key("\033xyz", 1002));
    tell(define_key("zz", KEY_SREDO));
    tell(has_key(KEY_SREDO));
    tell(define_key(NULL, KEY_SREDO));
    tell(has_key(KEY_SREDO));
    tell(define_key("\033[17~", 0));
    tell(has_key(KEY_F(6)));
    tell(define_key("none", 0));
    tell(keyok(KEY_F(7), FALSE));
    tell(keyok(KEY_F(7), FALSE));
    tell(has_key(KEY_F(7)));
    tell(key_defined("\033[18~"));
    tell(keyok(KEY_F(8), TRUE));
    tell(keyok(KEY_F(9), FALSE));
    tell(keyok(KEY_F(9), TRUE));
    tell(keyok('a', FALSE));
    char *bound = keybound(KEY_F(10), 0);
    addstr(bound ? bound : "none");
    free(bound);
    tell(keybound(KEY_F(10), 1) != NULL);
    tell(keybound('a', 0) != NULL);
    tell(define_key(NULL, 1003));
    addch('\n');
    for (int key = 0; key != '.' && key != ERR;) tell(key = getch());
    refresh();
    shot();
}

int main(void) {
    initscr();
    noecho();
    keypad(stdscr, TRUE);
    show_names();
    show_definitions();
    endwin();
    return *termname() == 0 || *longname() == 0;
}

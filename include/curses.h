/* curses.h: X/Open Curses over Curspan (curspan.h), in C99 or C++.

   A program that uses these names compiles unchanged. What isn't here is absent: wide and complex characters, soft
   labels, terminfo, several screens, menus and forms. A program that needs it doesn't compile. curspan(3) has a table
   of all of X/Open's names and of the usual ones of ncurses, with what takes the place of each.

   One screen. It is proved what the functions of curspan.h do. What is C here is not proved: it turns these names and
   types into calls of curspan.h, and writes their bytes to the terminal. It is tested against ncurses. */
#ifndef CURSPAN_CURSES_H
#define CURSPAN_CURSES_H

#include <stdarg.h>
#include <stdbool.h>
#include <stdint.h>
#include <stdio.h>

/* The macros of term.h, which may come before, aren't meant by the names of parameters. */
#pragma push_macro("lines")
#pragma push_macro("columns")
#undef lines
#undef columns

#include "curspan.h"

#ifdef __cplusplus
extern "C" {
#endif

/* By a name of its own initscr tells a program that is linked with another library than this header's. */
#ifdef __GNUC__
#define CURSPAN_LINKED(name) __asm__("curses_h_is_of_curspan_but_not_the_library_" #name)
#define CURSPAN_PRINTS(text, first) __attribute__((format(printf, text, first)))
#define CURSPAN_SCANS(text, first) __attribute__((format(scanf, text, first)))
#else
#define CURSPAN_LINKED(name)
#define CURSPAN_PRINTS(text, first)
#define CURSPAN_SCANS(text, first)
#endif

/* ---- types and constants */

/* Programs ask for it before they use a name that X/Open hasn't. Such names are here as far as curspan(3) says. */
#define NCURSES_VERSION "6.4"
#define NCURSES_VERSION_MAJOR 6
#define NCURSES_VERSION_MINOR 4
#define NCURSES_VERSION_PATCH 20221231
#define NCURSES_EXT_FUNCS NCURSES_VERSION_PATCH

typedef struct curspan_window WINDOW;
typedef struct screen SCREEN; /* by the tag that term.h has too */
typedef uint32_t chtype; /* a character in the low byte, attributes in the next, a colour pair above */
typedef chtype attr_t;

#ifndef TRUE
#define TRUE 1
#endif
#ifndef FALSE
#define FALSE 0
#endif
#define OK 0
#define ERR (-1)

#define A_NORMAL ((chtype)0)
#define A_BOLD ((chtype)CURSPAN_BOLD << 8)
#define A_DIM ((chtype)CURSPAN_DIM << 8)
#define A_UNDERLINE ((chtype)CURSPAN_UNDERLINE << 8)
#define A_BLINK ((chtype)CURSPAN_BLINK << 8)
#define A_REVERSE ((chtype)CURSPAN_REVERSE << 8)
#define A_INVIS ((chtype)CURSPAN_INVIS << 8)
#define A_STANDOUT A_REVERSE
#define A_CHARTEXT ((chtype)0xff)
#define A_COLOR ((chtype)0xff0000)
#define A_ALTCHARSET ((chtype)1 << 24) /* of the terminal's lines and signs, see acs_map */
#define A_ATTRIBUTES ((chtype)0x1ffff00)
#define WA_NORMAL A_NORMAL
#define WA_BOLD A_BOLD
#define WA_DIM A_DIM
#define WA_UNDERLINE A_UNDERLINE
#define WA_BLINK A_BLINK
#define WA_REVERSE A_REVERSE
#define WA_INVIS A_INVIS
#define WA_STANDOUT A_STANDOUT

/* They change nothing, and no cell keeps them. */
#define A_PROTECT ((chtype)1 << 25)
#define A_HORIZONTAL ((chtype)1 << 26)
#define A_LEFT ((chtype)1 << 27)
#define A_LOW ((chtype)1 << 28)
#define A_RIGHT ((chtype)1 << 29)
#define A_TOP ((chtype)1 << 30)
#define A_VERTICAL ((chtype)1 << 31)
#define WA_ALTCHARSET A_ALTCHARSET
#define WA_PROTECT A_PROTECT
#define WA_HORIZONTAL A_HORIZONTAL
#define WA_LEFT A_LEFT
#define WA_LOW A_LOW
#define WA_RIGHT A_RIGHT
#define WA_TOP A_TOP
#define WA_VERTICAL A_VERTICAL

#define COLOR_PAIR(pair) (((chtype)(pair) << 16) & A_COLOR)
#define PAIR_NUMBER(attrs) ((int)(((attrs) & A_COLOR) >> 16))
#define COLOR_BLACK 0
#define COLOR_RED 1
#define COLOR_GREEN 2
#define COLOR_YELLOW 3
#define COLOR_BLUE 4
#define COLOR_MAGENTA 5
#define COLOR_CYAN 6
#define COLOR_WHITE 7

/* Lines and signs, from initscr on: of the terminal's alternate set, or X/Open's of ASCII where it has none. */
#define CURSPAN_ACS(letter) (acs_map[(unsigned char)(letter)])
#define ACS_ULCORNER CURSPAN_ACS('l')
#define ACS_LLCORNER CURSPAN_ACS('m')
#define ACS_URCORNER CURSPAN_ACS('k')
#define ACS_LRCORNER CURSPAN_ACS('j')
#define ACS_LTEE CURSPAN_ACS('t')
#define ACS_RTEE CURSPAN_ACS('u')
#define ACS_BTEE CURSPAN_ACS('v')
#define ACS_TTEE CURSPAN_ACS('w')
#define ACS_HLINE CURSPAN_ACS('q')
#define ACS_VLINE CURSPAN_ACS('x')
#define ACS_PLUS CURSPAN_ACS('n')
#define ACS_S1 CURSPAN_ACS('o')
#define ACS_S9 CURSPAN_ACS('s')
#define ACS_DIAMOND CURSPAN_ACS('`')
#define ACS_CKBOARD CURSPAN_ACS('a')
#define ACS_DEGREE CURSPAN_ACS('f')
#define ACS_PLMINUS CURSPAN_ACS('g')
#define ACS_BULLET CURSPAN_ACS('~')
#define ACS_LARROW CURSPAN_ACS(',')
#define ACS_RARROW CURSPAN_ACS('+')
#define ACS_DARROW CURSPAN_ACS('.')
#define ACS_UARROW CURSPAN_ACS('-')
#define ACS_BOARD CURSPAN_ACS('h')
#define ACS_LANTERN CURSPAN_ACS('i')
#define ACS_BLOCK CURSPAN_ACS('0')
#define ACS_S3 CURSPAN_ACS('p')
#define ACS_S7 CURSPAN_ACS('r')
#define ACS_LEQUAL CURSPAN_ACS('y')
#define ACS_GEQUAL CURSPAN_ACS('z')
#define ACS_PI CURSPAN_ACS('{')
#define ACS_NEQUAL CURSPAN_ACS('|')
#define ACS_STERLING CURSPAN_ACS('}')
#define ACS_BSSB ACS_ULCORNER
#define ACS_SSBB ACS_LLCORNER
#define ACS_BBSS ACS_URCORNER
#define ACS_SBBS ACS_LRCORNER
#define ACS_SBSS ACS_RTEE
#define ACS_SSSB ACS_LTEE
#define ACS_SSBS ACS_BTEE
#define ACS_BSSS ACS_TTEE
#define ACS_BSBS ACS_HLINE
#define ACS_SBSB ACS_VLINE
#define ACS_SSSS ACS_PLUS

/* Keys that are no characters, for keypad(win, TRUE). Their numbers are those of ncurses. */
#define KEY_BREAK 0401
#define KEY_MIN 0401
#define KEY_DOWN 0402
#define KEY_UP 0403
#define KEY_LEFT 0404
#define KEY_RIGHT 0405
#define KEY_HOME 0406
#define KEY_BACKSPACE 0407
#define KEY_F0 0410
#define KEY_F(n) (KEY_F0 + (n))
#define KEY_DL 0510
#define KEY_IL 0511
#define KEY_DC 0512
#define KEY_IC 0513
#define KEY_EIC 0514
#define KEY_CLEAR 0515
#define KEY_EOS 0516
#define KEY_EOL 0517
#define KEY_SF 0520
#define KEY_SR 0521
#define KEY_NPAGE 0522
#define KEY_PPAGE 0523
#define KEY_STAB 0524
#define KEY_CTAB 0525
#define KEY_CATAB 0526
#define KEY_ENTER 0527
#define KEY_SRESET 0530
#define KEY_RESET 0531
#define KEY_PRINT 0532
#define KEY_LL 0533
#define KEY_A1 0534
#define KEY_A3 0535
#define KEY_B2 0536
#define KEY_C1 0537
#define KEY_C3 0540
#define KEY_BTAB 0541
#define KEY_BEG 0542
#define KEY_CANCEL 0543
#define KEY_CLOSE 0544
#define KEY_COMMAND 0545
#define KEY_COPY 0546
#define KEY_CREATE 0547
#define KEY_END 0550
#define KEY_EXIT 0551
#define KEY_FIND 0552
#define KEY_HELP 0553
#define KEY_MARK 0554
#define KEY_MESSAGE 0555
#define KEY_MOVE 0556
#define KEY_NEXT 0557
#define KEY_OPEN 0560
#define KEY_OPTIONS 0561
#define KEY_PREVIOUS 0562
#define KEY_REDO 0563
#define KEY_REFERENCE 0564
#define KEY_REFRESH 0565
#define KEY_REPLACE 0566
#define KEY_RESTART 0567
#define KEY_RESUME 0570
#define KEY_SAVE 0571
#define KEY_SBEG 0572
#define KEY_SCANCEL 0573
#define KEY_SCOMMAND 0574
#define KEY_SCOPY 0575
#define KEY_SCREATE 0576
#define KEY_SDC 0577
#define KEY_SDL 0600
#define KEY_SELECT 0601
#define KEY_SEND 0602
#define KEY_SEOL 0603
#define KEY_SEXIT 0604
#define KEY_SFIND 0605
#define KEY_SHELP 0606
#define KEY_SHOME 0607
#define KEY_SIC 0610
#define KEY_SLEFT 0611
#define KEY_SMESSAGE 0612
#define KEY_SMOVE 0613
#define KEY_SNEXT 0614
#define KEY_SOPTIONS 0615
#define KEY_SPREVIOUS 0616
#define KEY_SPRINT 0617
#define KEY_SREDO 0620
#define KEY_SREPLACE 0621
#define KEY_SRIGHT 0622
#define KEY_SRSUME 0623
#define KEY_SSAVE 0624
#define KEY_SSUSPEND 0625
#define KEY_SUNDO 0626
#define KEY_SUSPEND 0627
#define KEY_UNDO 0630
#define KEY_MOUSE 0631
#define KEY_RESIZE 0632
#define KEY_MAX 0777

extern WINDOW *stdscr; /* the standard screen, from initscr on */
extern WINDOW *curscr; /* the terminal: getyx and getmaxyx ask of it; refresh, clearok, touchwin draw it anew */
extern int LINES, COLS;
extern int COLORS, COLOR_PAIRS;
extern chtype acs_map[]; /* lines and signs, by the letters that VT100 has for them */
extern int TABSIZE;  /* the columns between the stops of tabs, 8 at first */
extern int ESCDELAY; /* for how many milliseconds getch waits for the rest of a key that begins with an escape */

/* ---- the screen */

WINDOW *initscr(void) CURSPAN_LINKED(initscr); /* ends the program where there is no screen */
SCREEN *newterm(const char *type, FILE *out, FILE *in) CURSPAN_LINKED(newterm);
int endwin(void);                                        /* the next refresh brings the picture back */
bool isendwin(void);
void delscreen(SCREEN *screen);
SCREEN *set_term(SCREEN *screen); /* the one screen, and NULL of another */
void use_env(bool flag);          /* whether LINES and COLUMNS count, where the screen is not made yet */
int mvcur(int old_y, int old_x, int y, int x);
const char *curses_version(void);
int curs_set(int visibility);
int beep(void);
int flash(void);
int napms(int milliseconds);
int delay_output(int milliseconds);
char *termname(void); /* the type that newterm was given, or TERM */
char *longname(void); /* the same */

int start_color(void);
bool has_colors(void);
int use_default_colors(void);                                /* the colour -1 is the terminal's own */
int assume_default_colors(int foreground, int background);   /* the same for -1 and -1, and refused for others */
bool can_change_color(void);
int init_color(short color, short red, short green, short blue);            /* refused: colours can't be changed */
int color_content(short color, short *red, short *green, short *blue);
int init_pair(short pair, short foreground, short background);
int pair_content(short pair, short *foreground, short *background);

/* ---- windows and pads */

WINDOW *newwin(int lines, int columns, int y, int x);
WINDOW *subwin(WINDOW *win, int lines, int columns, int y, int x);
WINDOW *derwin(WINDOW *win, int lines, int columns, int y, int x);
WINDOW *dupwin(WINDOW *win);
WINDOW *newpad(int lines, int columns);
WINDOW *subpad(WINDOW *pad, int lines, int columns, int y, int x);
int delwin(WINDOW *win);
int mvwin(WINDOW *win, int y, int x);
int mvderwin(WINDOW *win, int y, int x);

int getcury(const WINDOW *win);
int getcurx(const WINDOW *win);
int getbegy(const WINDOW *win);
int getbegx(const WINDOW *win);
int getmaxy(const WINDOW *win);
int getmaxx(const WINDOW *win);
int getpary(const WINDOW *win);
int getparx(const WINDOW *win);
#define getyx(win, y, x) ((y) = getcury(win), (x) = getcurx(win))
#define getbegyx(win, y, x) ((y) = getbegy(win), (x) = getbegx(win))
#define getmaxyx(win, y, x) ((y) = getmaxy(win), (x) = getmaxx(win))
#define getparyx(win, y, x) ((y) = getpary(win), (x) = getparx(win))

/* ---- sizes that change: windows keep what fits */

int wresize(WINDOW *win, int lines, int columns);
int resizeterm(int lines, int columns); /* the screen's; getch answers KEY_RESIZE then */
int resize_term(int lines, int columns);
bool is_term_resized(int lines, int columns);

/* ---- options */

int clearok(WINDOW *win, bool flag);
int scrollok(WINDOW *win, bool flag);
int setscrreg(int top, int bottom);
int wsetscrreg(WINDOW *win, int top, int bottom);
int idlok(WINDOW *win, bool flag);   /* a hint, which changes nothing */
void idcok(WINDOW *win, bool flag);  /* so too */
int leaveok(WINDOW *win, bool flag); /* so too: the cursor is always moved */
void immedok(WINDOW *win, bool flag); /* whether each change of the window refreshes it */
int syncok(WINDOW *win, bool flag);   /* whether each change of the window touches its ancestors */
int set_tabsize(int columns);

/* ---- attributes, colours and backgrounds */

int attron(int attrs);
int attroff(int attrs);
int attrset(int attrs);
int wattron(WINDOW *win, int attrs);
int wattroff(WINDOW *win, int attrs);
int wattrset(WINDOW *win, int attrs);
int attr_on(attr_t attrs, void *none);
int attr_off(attr_t attrs, void *none);
int attr_set(attr_t attrs, short pair, void *none);
int attr_get(attr_t *attrs, short *pair, void *none);
int wattr_on(WINDOW *win, attr_t attrs, void *none);
int wattr_off(WINDOW *win, attr_t attrs, void *none);
int wattr_set(WINDOW *win, attr_t attrs, short pair, void *none);
int wattr_get(WINDOW *win, attr_t *attrs, short *pair, void *none);
int color_set(short pair, void *none);
int wcolor_set(WINDOW *win, short pair, void *none);
int standout(void);
int standend(void);
int wstandout(WINDOW *win);
int wstandend(WINDOW *win);
int chgat(int n, attr_t attrs, short pair, const void *none);
int wchgat(WINDOW *win, int n, attr_t attrs, short pair, const void *none);
int mvchgat(int y, int x, int n, attr_t attrs, short pair, const void *none);
int mvwchgat(WINDOW *win, int y, int x, int n, attr_t attrs, short pair, const void *none);
void bkgdset(chtype ch);
void wbkgdset(WINDOW *win, chtype ch);
int bkgd(chtype ch);
int wbkgd(WINDOW *win, chtype ch);
chtype getbkgd(WINDOW *win);

/* ---- writing */

int move(int y, int x);
int wmove(WINDOW *win, int y, int x);

int addch(const chtype ch);
int waddch(WINDOW *win, const chtype ch);
int mvaddch(int y, int x, const chtype ch);
int mvwaddch(WINDOW *win, int y, int x, const chtype ch);
int echochar(const chtype ch);
int wechochar(WINDOW *win, const chtype ch);
int pechochar(WINDOW *pad, const chtype ch);

int addstr(const char *text);
int addnstr(const char *text, int n);
int waddstr(WINDOW *win, const char *text);
int waddnstr(WINDOW *win, const char *text, int n);
int mvaddstr(int y, int x, const char *text);
int mvaddnstr(int y, int x, const char *text, int n);
int mvwaddstr(WINDOW *win, int y, int x, const char *text);
int mvwaddnstr(WINDOW *win, int y, int x, const char *text, int n);

int addchstr(const chtype *row);
int addchnstr(const chtype *row, int n);
int waddchstr(WINDOW *win, const chtype *row);
int waddchnstr(WINDOW *win, const chtype *row, int n);
int mvaddchstr(int y, int x, const chtype *row);
int mvaddchnstr(int y, int x, const chtype *row, int n);
int mvwaddchstr(WINDOW *win, int y, int x, const chtype *row);
int mvwaddchnstr(WINDOW *win, int y, int x, const chtype *row, int n);

int printw(const char *format, ...) CURSPAN_PRINTS(1, 2);
int wprintw(WINDOW *win, const char *format, ...) CURSPAN_PRINTS(2, 3);
int mvprintw(int y, int x, const char *format, ...) CURSPAN_PRINTS(3, 4);
int mvwprintw(WINDOW *win, int y, int x, const char *format, ...) CURSPAN_PRINTS(4, 5);
int vw_printw(WINDOW *win, const char *format, va_list arguments) CURSPAN_PRINTS(2, 0);
int vwprintw(WINDOW *win, const char *format, va_list arguments) CURSPAN_PRINTS(2, 0);

int insch(chtype ch);
int winsch(WINDOW *win, chtype ch);
int mvinsch(int y, int x, chtype ch);
int mvwinsch(WINDOW *win, int y, int x, chtype ch);
int insstr(const char *text);
int insnstr(const char *text, int n);
int winsstr(WINDOW *win, const char *text);
int winsnstr(WINDOW *win, const char *text, int n);
int mvinsstr(int y, int x, const char *text);
int mvinsnstr(int y, int x, const char *text, int n);
int mvwinsstr(WINDOW *win, int y, int x, const char *text);
int mvwinsnstr(WINDOW *win, int y, int x, const char *text, int n);
int delch(void);
int wdelch(WINDOW *win);
int mvdelch(int y, int x);
int mvwdelch(WINDOW *win, int y, int x);
int insertln(void);
int winsertln(WINDOW *win);
int deleteln(void);
int wdeleteln(WINDOW *win);
int insdelln(int n);
int winsdelln(WINDOW *win, int n);

int erase(void);
int werase(WINDOW *win);
int clear(void);
int wclear(WINDOW *win);
int clrtoeol(void);
int wclrtoeol(WINDOW *win);
int clrtobot(void);
int wclrtobot(WINDOW *win);
int scroll(WINDOW *win);
int scrl(int n);
int wscrl(WINDOW *win, int n);

/* Where a character of a border or a line is 0, the ACS one is taken. */
int border(chtype left, chtype right, chtype top, chtype bottom, chtype top_left, chtype top_right, chtype bottom_left,
           chtype bottom_right);
int wborder(WINDOW *win, chtype left, chtype right, chtype top, chtype bottom, chtype top_left, chtype top_right,
            chtype bottom_left, chtype bottom_right);
int box(WINDOW *win, chtype sides, chtype ends);
int hline(chtype ch, int n);
int whline(WINDOW *win, chtype ch, int n);
int mvhline(int y, int x, chtype ch, int n);
int mvwhline(WINDOW *win, int y, int x, chtype ch, int n);
int vline(chtype ch, int n);
int wvline(WINDOW *win, chtype ch, int n);
int mvvline(int y, int x, chtype ch, int n);
int mvwvline(WINDOW *win, int y, int x, chtype ch, int n);

/* ---- reading back: texts and rows end with a 0, which `n` doesn't count */

chtype inch(void);
chtype winch(WINDOW *win);
chtype mvinch(int y, int x);
chtype mvwinch(WINDOW *win, int y, int x);
int instr(char *text);
int innstr(char *text, int n);
int winstr(WINDOW *win, char *text);
int winnstr(WINDOW *win, char *text, int n);
int mvinstr(int y, int x, char *text);
int mvinnstr(int y, int x, char *text, int n);
int mvwinstr(WINDOW *win, int y, int x, char *text);
int mvwinnstr(WINDOW *win, int y, int x, char *text, int n);
int inchstr(chtype *row);
int inchnstr(chtype *row, int n);
int winchstr(WINDOW *win, chtype *row);
int winchnstr(WINDOW *win, chtype *row, int n);
int mvinchstr(int y, int x, chtype *row);
int mvinchnstr(int y, int x, chtype *row, int n);
int mvwinchstr(WINDOW *win, int y, int x, chtype *row);
int mvwinchnstr(WINDOW *win, int y, int x, chtype *row, int n);

/* ---- keys */

int getch(void);
int wgetch(WINDOW *win);
int mvgetch(int y, int x);
int mvwgetch(WINDOW *win, int y, int x);
int ungetch(int key);
int flushinp(void);

/* They read n characters at most, and write a 0 after them. */
int getstr(char *text);
int getnstr(char *text, int n);
int wgetstr(WINDOW *win, char *text);
int wgetnstr(WINDOW *win, char *text, int n);
int mvgetstr(int y, int x, char *text);
int mvgetnstr(int y, int x, char *text, int n);
int mvwgetstr(WINDOW *win, int y, int x, char *text);
int mvwgetnstr(WINDOW *win, int y, int x, char *text, int n);

int scanw(const char *format, ...) CURSPAN_SCANS(1, 2);
int wscanw(WINDOW *win, const char *format, ...) CURSPAN_SCANS(2, 3);
int mvscanw(int y, int x, const char *format, ...) CURSPAN_SCANS(3, 4);
int mvwscanw(WINDOW *win, int y, int x, const char *format, ...) CURSPAN_SCANS(4, 5);
int vw_scanw(WINDOW *win, const char *format, va_list arguments) CURSPAN_SCANS(2, 0);
int vwscanw(WINDOW *win, const char *format, va_list arguments) CURSPAN_SCANS(2, 0);

int keypad(WINDOW *win, bool flag);
int nodelay(WINDOW *win, bool flag);
int notimeout(WINDOW *win, bool flag);
void timeout(int milliseconds);
void wtimeout(WINDOW *win, int milliseconds);
bool is_keypad(const WINDOW *win);
bool is_nodelay(const WINDOW *win);
bool is_notimeout(const WINDOW *win);
int wgetdelay(const WINDOW *win);
int set_escdelay(int milliseconds);

const char *keyname(int key);
const char *unctrl(chtype ch);
int has_key(int key);
int define_key(const char *sequence, int key);
int key_defined(const char *sequence);
int keyok(int key, bool flag);
char *keybound(int key, int count); /* the program frees it */

/* ---- modes of the terminal */

int cbreak(void);
int nocbreak(void);
int raw(void);
int noraw(void);
int halfdelay(int tenths);
int echo(void);
int noecho(void);
int nl(void);
int nonl(void);
int meta(WINDOW *win, bool flag);
int intrflush(WINDOW *win, bool flag);
void qiflush(void);
void noqiflush(void);
int typeahead(int descriptor); /* a hint, which changes nothing */

int def_prog_mode(void);
int def_shell_mode(void);
int reset_prog_mode(void);
int reset_shell_mode(void);
int savetty(void);
int resetty(void);
char erasechar(void);
char killchar(void);
int baudrate(void);

/* ---- copies and marks */

int overlay(const WINDOW *from, WINDOW *to);
int overwrite(const WINDOW *from, WINDOW *to);
int copywin(const WINDOW *from, WINDOW *to, int y, int x, int top, int left, int bottom, int right, int overlays);
int touchwin(WINDOW *win);
int untouchwin(WINDOW *win);
int touchline(WINDOW *win, int y, int n);
int wtouchln(WINDOW *win, int y, int n, int changed);
bool is_linetouched(WINDOW *win, int y);
bool is_wintouched(WINDOW *win);
void wsyncup(WINDOW *win);
void wsyncdown(WINDOW *win);
void wcursyncup(WINDOW *win);

/* ---- refresh: ERR where the bytes didn't reach the terminal, and then the next one clears it and draws all */

int refresh(void);
int wrefresh(WINDOW *win);
int wnoutrefresh(WINDOW *win);
int doupdate(void);
int prefresh(WINDOW *pad, int pad_y, int pad_x, int top, int left, int bottom, int right);
int pnoutrefresh(WINDOW *pad, int pad_y, int pad_x, int top, int left, int bottom, int right);
int redrawwin(WINDOW *win);
int wredrawln(WINDOW *win, int y, int n);

/* ---- what is asked, as ncurses has it */

typedef int (*NCURSES_WINDOW_CB)(WINDOW *, void *);
typedef int (*NCURSES_SCREEN_CB)(SCREEN *, void *);

bool is_cleared(const WINDOW *win);
bool is_idcok(const WINDOW *win);
bool is_idlok(const WINDOW *win);
bool is_immedok(const WINDOW *win);
bool is_leaveok(const WINDOW *win);
bool is_pad(const WINDOW *win);
bool is_scrollok(const WINDOW *win);
bool is_subwin(const WINDOW *win);
bool is_syncok(const WINDOW *win);
WINDOW *wgetparent(const WINDOW *win);
int wgetscrreg(const WINDOW *win, int *top, int *bottom);
attr_t getattrs(const WINDOW *win);
int use_window(WINDOW *win, NCURSES_WINDOW_CB call, void *argument);
int use_screen(SCREEN *screen, NCURSES_SCREEN_CB call, void *argument);
bool has_ic(void);
bool has_il(void);
chtype termattrs(void);

/* ---- the mouse: there is none, and no call gets an event of it */

typedef uint32_t mmask_t;
typedef struct {
    short id;
    int x, y, z;
    mmask_t bstate;
} MEVENT;

#define NCURSES_MOUSE_MASK(button, event) ((mmask_t)(event) << (((button) - 1) * 5))
#define BUTTON1_RELEASED NCURSES_MOUSE_MASK(1, 001)
#define BUTTON1_PRESSED NCURSES_MOUSE_MASK(1, 002)
#define BUTTON1_CLICKED NCURSES_MOUSE_MASK(1, 004)
#define BUTTON1_DOUBLE_CLICKED NCURSES_MOUSE_MASK(1, 010)
#define BUTTON1_TRIPLE_CLICKED NCURSES_MOUSE_MASK(1, 020)
#define BUTTON2_RELEASED NCURSES_MOUSE_MASK(2, 001)
#define BUTTON2_PRESSED NCURSES_MOUSE_MASK(2, 002)
#define BUTTON2_CLICKED NCURSES_MOUSE_MASK(2, 004)
#define BUTTON2_DOUBLE_CLICKED NCURSES_MOUSE_MASK(2, 010)
#define BUTTON2_TRIPLE_CLICKED NCURSES_MOUSE_MASK(2, 020)
#define BUTTON3_RELEASED NCURSES_MOUSE_MASK(3, 001)
#define BUTTON3_PRESSED NCURSES_MOUSE_MASK(3, 002)
#define BUTTON3_CLICKED NCURSES_MOUSE_MASK(3, 004)
#define BUTTON3_DOUBLE_CLICKED NCURSES_MOUSE_MASK(3, 010)
#define BUTTON3_TRIPLE_CLICKED NCURSES_MOUSE_MASK(3, 020)
#define BUTTON4_RELEASED NCURSES_MOUSE_MASK(4, 001)
#define BUTTON4_PRESSED NCURSES_MOUSE_MASK(4, 002)
#define BUTTON4_CLICKED NCURSES_MOUSE_MASK(4, 004)
#define BUTTON4_DOUBLE_CLICKED NCURSES_MOUSE_MASK(4, 010)
#define BUTTON4_TRIPLE_CLICKED NCURSES_MOUSE_MASK(4, 020)
#define BUTTON5_RELEASED NCURSES_MOUSE_MASK(5, 001)
#define BUTTON5_PRESSED NCURSES_MOUSE_MASK(5, 002)
#define BUTTON5_CLICKED NCURSES_MOUSE_MASK(5, 004)
#define BUTTON5_DOUBLE_CLICKED NCURSES_MOUSE_MASK(5, 010)
#define BUTTON5_TRIPLE_CLICKED NCURSES_MOUSE_MASK(5, 020)
#define BUTTON_CTRL NCURSES_MOUSE_MASK(6, 001)
#define BUTTON_SHIFT NCURSES_MOUSE_MASK(6, 002)
#define BUTTON_ALT NCURSES_MOUSE_MASK(6, 004)
#define REPORT_MOUSE_POSITION NCURSES_MOUSE_MASK(6, 010)
#define ALL_MOUSE_EVENTS (REPORT_MOUSE_POSITION - 1)

bool has_mouse(void);
mmask_t mousemask(mmask_t wanted, mmask_t *before);
int mouseinterval(int milliseconds);
int getmouse(MEVENT *event);
int ungetmouse(MEVENT *event);
bool wenclose(const WINDOW *win, int y, int x);
bool wmouse_trafo(const WINDOW *win, int *y, int *x, bool to_screen);
bool mouse_trafo(int *y, int *x, bool to_screen);

#ifdef __cplusplus
}
#endif

#pragma pop_macro("columns")
#pragma pop_macro("lines")
#endif

/* The forms of the calls of curses.h that mean the standard screen, or that move first. Nothing here is proved. */
#include "inside.h"

#define AT(win, y, x, call) (wmove(win, y, x) == ERR ? ERR : (call))

/* The other forms of a call for windows, by its count of arguments: for the standard screen, after a move, and both. */
#define FORMS(name) \
    int name(void) { return w##name(stdscr); } \
    int mvw##name(WINDOW *win, int y, int x) { return AT(win, y, x, w##name(win)); } \
    int mv##name(int y, int x) { return mvw##name(stdscr, y, x); }
#define FORMS_1(name, A) \
    int name(A a) { return w##name(stdscr, a); } \
    int mvw##name(WINDOW *win, int y, int x, A a) { return AT(win, y, x, w##name(win, a)); } \
    int mv##name(int y, int x, A a) { return mvw##name(stdscr, y, x, a); }
#define FORMS_2(name, A, B) \
    int name(A a, B b) { return w##name(stdscr, a, b); } \
    int mvw##name(WINDOW *win, int y, int x, A a, B b) { return AT(win, y, x, w##name(win, a, b)); } \
    int mv##name(int y, int x, A a, B b) { return mvw##name(stdscr, y, x, a, b); }
#define FORMS_4(name, A, B, C, D) \
    int name(A a, B b, C c, D d) { return w##name(stdscr, a, b, c, d); } \
    int mvw##name(WINDOW *win, int y, int x, A a, B b, C c, D d) { return AT(win, y, x, w##name(win, a, b, c, d)); } \
    int mv##name(int y, int x, A a, B b, C c, D d) { return mvw##name(stdscr, y, x, a, b, c, d); }

/* ---- attributes, colours and backgrounds */

int attron(int attrs) { return wattron(stdscr, attrs); }
int attroff(int attrs) { return wattroff(stdscr, attrs); }
int attrset(int attrs) { return wattrset(stdscr, attrs); }
int wattr_on(WINDOW *win, attr_t attrs, void *none) { return none ? ERR : wattron(win, (int)attrs); }
int wattr_off(WINDOW *win, attr_t attrs, void *none) { return none ? ERR : wattroff(win, (int)attrs); }
int attr_on(attr_t attrs, void *none) { return wattr_on(stdscr, attrs, none); }
int attr_off(attr_t attrs, void *none) { return wattr_off(stdscr, attrs, none); }
int attr_set(attr_t attrs, short pair, void *none) { return wattr_set(stdscr, attrs, pair, none); }
int attr_get(attr_t *attrs, short *pair, void *none) { return wattr_get(stdscr, attrs, pair, none); }
int color_set(short pair, void *none) { return wcolor_set(stdscr, pair, none); }
int standout(void) { return wstandout(stdscr); }
int standend(void) { return wstandend(stdscr); }
FORMS_4(chgat, int, attr_t, short, const void *)
void bkgdset(chtype ch) { wbkgdset(stdscr, ch); }
int bkgd(chtype ch) { return wbkgd(stdscr, ch); }
int setscrreg(int top, int bottom) { return wsetscrreg(stdscr, top, bottom); }

/* ---- characters, texts and rows of cells */

int move(int y, int x) { return wmove(stdscr, y, x); }
int addch(const chtype ch) { return waddch(stdscr, ch); }
int mvwaddch(WINDOW *win, int y, int x, const chtype ch) { return wmove(win, y, x) == ERR ? ERR : waddch(win, ch); }
int mvaddch(int y, int x, const chtype ch) { return mvwaddch(stdscr, y, x, ch); }
int wechochar(WINDOW *win, const chtype ch) { return waddch(win, ch) == ERR ? ERR : wrefresh(win); }
int echochar(const chtype ch) { return wechochar(stdscr, ch); }
FORMS_1(insch, chtype)
FORMS(delch)
FORMS_1(addstr, const char *)
FORMS_2(addnstr, const char *, int)
int waddchstr(WINDOW *win, const chtype *row) { return waddchnstr(win, row, -1); }
FORMS_1(addchstr, const chtype *)
FORMS_2(addchnstr, const chtype *, int)
int winsstr(WINDOW *win, const char *text) { return winsnstr(win, text, -1); }
FORMS_1(insstr, const char *)
FORMS_2(insnstr, const char *, int)

/* ---- lines, scrolling and drawn lines */

int insertln(void) { return winsertln(stdscr); }
int deleteln(void) { return wdeleteln(stdscr); }
int insdelln(int n) { return winsdelln(stdscr, n); }
int erase(void) { return werase(stdscr); }
int clear(void) { return wclear(stdscr); }
int clrtoeol(void) { return wclrtoeol(stdscr); }
int clrtobot(void) { return wclrtobot(stdscr); }
int scroll(WINDOW *win) { return wscrl(win, 1); }
int scrl(int n) { return wscrl(stdscr, n); }

int border(chtype left, chtype right, chtype top, chtype bottom, chtype top_left, chtype top_right, chtype bottom_left,
           chtype bottom_right) {
    return wborder(stdscr, left, right, top, bottom, top_left, top_right, bottom_left, bottom_right);
}

int box(WINDOW *win, chtype sides, chtype ends) { return wborder(win, sides, sides, ends, ends, 0, 0, 0, 0); }
FORMS_2(hline, chtype, int)
FORMS_2(vline, chtype, int)

/* ---- reading back */

chtype inch(void) { return winch(stdscr); }
chtype mvwinch(WINDOW *win, int y, int x) { return wmove(win, y, x) == ERR ? (chtype)ERR : winch(win); }
chtype mvinch(int y, int x) { return mvwinch(stdscr, y, x); }
FORMS_1(instr, char *)
FORMS_2(innstr, char *, int)
int winchstr(WINDOW *win, chtype *row) { return winchnstr(win, row, -1); }
FORMS_1(inchstr, chtype *)
FORMS_2(inchnstr, chtype *, int)

int refresh(void) { return wrefresh(stdscr); }

/* ---- keys */

FORMS(getch)
int wgetstr(WINDOW *win, char *text) { return wgetnstr(win, text, -1); }
FORMS_1(getstr, char *)
FORMS_2(getnstr, char *, int)

/* ---- formats */

int vwprintw(WINDOW *win, const char *format, va_list arguments) { return vw_printw(win, format, arguments); }
int vwscanw(WINDOW *win, const char *format, va_list arguments) { return vw_scanw(win, format, arguments); }

#define PASS_ON(call, win) \
    va_list arguments; \
    va_start(arguments, format); \
    int answer = call(win, format, arguments); \
    va_end(arguments); \
    return answer
#define FORMATTED(name) \
    int name(const char *format, ...) { PASS_ON(vw_##name, stdscr); } \
    int w##name(WINDOW *win, const char *format, ...) { PASS_ON(vw_##name, win); } \
    int mv##name(int y, int x, const char *format, ...) { \
        if (wmove(stdscr, y, x) == ERR) return ERR; \
        PASS_ON(vw_##name, stdscr); \
    } \
    int mvw##name(WINDOW *win, int y, int x, const char *format, ...) { \
        if (wmove(win, y, x) == ERR) return ERR; \
        PASS_ON(vw_##name, win); \
    }

FORMATTED(printw)
FORMATTED(scanw)

/* What the files of this folder share. */
#ifndef CURSPAN_INSIDE_H
#define CURSPAN_INSIDE_H

#define _GNU_SOURCE
#include "curses.h"

#include <stdlib.h>
#include <string.h>

enum {
    MOST = 1001,     /* windows with the standard screen, and panels with none */
    NUMBER = 65535,  /* the greatest number that crosses to curspan.h */
    LAST_PAIR = 255, /* of a program */
    LAST_OWN = 63,   /* of curspan.h */
    LONGEST = 1000   /* the longest line of a window or pad */
};

/* The bytes of a character of which some are still to come, and where the cursor was. */
typedef struct {
    uint8_t bytes[6];
    int count, y, x;
} curspan_unfinished;

/* What curspan.h doesn't tell of a window, and what it tells of its lines, so that moves and characters ask for nothing. */
struct curspan_window {
    uint16_t number;         /* NUMBER where it isn't there */
    bool is_pad;
    bool outlies;            /* it isn't wholly on the screen: a pad of curspan.h stands for it */
    bool moved;              /* the cursor was moved since the last refresh, as getch wants to know */
    bool keypad, no_timeout; /* how getch reads */
    int delay;               /* for how many milliseconds it waits, without end where that is negative */
    attr_t attrs; /* the window's, with its pair: curspan.h has no pairs past LAST_OWN, and no A_ALTCHARSET */
    chtype background;       /* which has such pairs too. Curspan's windows keep the one that they have first */
    WINDOW *parent;          /* from which it derives, or NULL */
    unsigned lines, columns; /* 0 where it isn't there */
    int y, x;                /* its cursor */
    bool is_placed;          /* there Curspan has it, too */
    int top, bottom;         /* its scroll region */
    bool scrolls;
    bool has_ended; /* a character was written in the last place, and the cursor wasn't moved since */
    unsigned left;  /* how many lines its cursor has left for the next one, by what was written */
    bool is_plain;  /* a letter is a cell of curspan.h as it is added to this one, and a blank is that one: */
    uint32_t plain, blank;
    attr_t other;   /* the attributes that a character had last, and what those with them are added to then */
    uint32_t in_other;
    curspan_unfinished begun;
    bool idlok, no_idcok, leaveok;
    bool is_immediate, synchronizes; /* each change refreshes it, or touches its ancestors */
    int begin_y, begin_x; /* its place; of a pad where copies take it to be, of curscr its cursor */
    int part[6];          /* of a pad, which part of it was refreshed last, and to where */
};

/* Cells of a line of a window, from a column up to its cursor, which wait until Curspan is asked for something, so that
   one call of it writes many. None of them can be refused. */
struct curspan_waiting {
    WINDOW *win; /* or NULL */
    int from;
    uint32_t cells[LONGEST]; /* by their columns */
};

extern struct curspan_waiting curspan_waiting;
/* Writes those up to a column, which are all. */
void curspan_put_waiting(int end);

/* Writes what waits, and answers the screen. */
extern curspan curspan_kept_screen;
static inline curspan *curspan_settle(void) {
    if (curspan_waiting.win) curspan_put_waiting(curspan_waiting.win->x);
    return &curspan_kept_screen;
}

/* Moves the cursor of a window. */
static inline void curspan_go(WINDOW *win, int y, int x) {
    if (win->y == y && win->x == x) return;
    if (curspan_waiting.win == win) curspan_put_waiting(win->x);
    win->y = y;
    win->x = x;
    win->is_placed = false;
}

extern struct curspan_window curspan_windows[MOST];

/* The number of a window, and for a null pointer a number that no window has. */
static inline uint16_t curspan_number(const WINDOW *win) { return win ? win->number : NUMBER; }

/* The window of an answer that is its number, and NULL of a refusal. */
WINDOW *curspan_window_of(curspan_answer answer);
void curspan_renumber(WINDOW *win, uint16_t number);
/* Makes the standard screen of an answer that is its number. */
void curspan_begin(curspan_answer answer);
void curspan_forget_all(void);

/* The screen, and a window of it, as arguments. */
#define SCREEN_AND(win) curspan_settle(), curspan_number(win)
/* The number of a window for a call that asks for its cursor, which Curspan has then. */
void curspan_place(WINDOW *win);
static inline uint16_t curspan_placed(WINDOW *win) {
    if (win && !win->is_placed) curspan_place(win);
    return curspan_number(win);
}

/* Answers for a call that has changed a window: refreshes it, or touches its ancestors, where that is to be. */
void curspan_follow(WINDOW *win);
static inline int curspan_changed(WINDOW *win, int answer) {
    if (win && (win->is_immediate || win->synchronizes)) curspan_follow(win);
    return answer;
}

void curspan_measure(WINDOW *win);

/* How many columns there are from one to the next tab stop. Where TABSIZE is no positive number it is one. */
static inline int curspan_to_stop(int x) { return TABSIZE > 0 ? TABSIZE - x % TABSIZE : 1; }

/* What a byte is drawn as, after those that begin a character: nothing where that isn't finished or has no width, the
   character in ASCII, or how a byte that belongs to none is spelled. */
typedef struct {
    char text[3];
    int count;
    bool is_wide; /* the two stay on one line */
} curspan_spelling;

curspan_spelling curspan_spell_part(curspan_unfinished *begun, uint8_t byte);
/* Says that a character is begun at the cursor, or that it was finished there. */
void curspan_keep_begun(WINDOW *win);
/* Forgets the character that is begun where the cursor was moved since. */
void curspan_check_begun(WINDOW *win);

/* One set of attributes with another added, whose pair goes before where it has one. */
static inline attr_t curspan_with(attr_t attrs, attr_t more) {
    if (more & A_COLOR) attrs &= ~A_COLOR;
    return attrs | (more & A_ATTRIBUTES);
}

/* Fills acs_map by the terminal's type. */
void curspan_begin_map(void);
extern bool curspan_has_alternates;
/* A character as it is drawn: an alternate one where the terminal has none is another. */
chtype curspan_as_alternate(chtype ch);
static inline chtype curspan_as_drawn(chtype ch) { return ch & A_ALTCHARSET ? curspan_as_alternate(ch) : ch; }

/* A cell of curspan.h, of a cell here, and of a character that a window writes: with the attributes of both and those of
   the background, which a blank takes whole. */
uint32_t curspan_own(chtype cell);
uint32_t curspan_rendered(const WINDOW *win, chtype ch);
/* Writes a character as waddch does, whatever it is, with no look at what is to follow. */
int curspan_add(WINDOW *win, chtype ch);

/* Scrolls lines of a window, whether it scrolls or not. */
int curspan_scroll_lines(WINDOW *win, int top, int bottom, int n);

static inline int done(curspan_answer answer) { return answer.status == CURSPAN_OK ? OK : ERR; }

/* Sets the cells of so many lines and columns, or up to n of a line, before a 0, as they are: the cursor, the background
   and scrolling have no part in it. */
static inline int curspan_fill_cells(const WINDOW *win, int y, int x, int lines, int columns, uint32_t cell) {
    uint32_t top = (uint32_t)y, left = (uint32_t)x, bottom = top + (uint32_t)lines - 1;
    return done(curspan_fill(SCREEN_AND(win), top, left, bottom, left + (uint32_t)columns - 1, cell));
}
int curspan_put_cells(WINDOW *win, int y, int x, const chtype *cells, int n);
/* Reads up to n cells from a place on, or all where n is negative, and answers how many they are. */
int curspan_read_cells(WINDOW *win, int y, int x, chtype *cells, int n);

/* The size of the screen, which wresize may give the standard screen no more. */
static inline int curspan_lines(void) { return (int)curspan_getmaxyx(curspan_settle(), 0).first; }
static inline int curspan_columns(void) { return (int)curspan_getmaxyx(curspan_settle(), 0).second; }
/* Whether so many lines and columns from a place on are on the screen. */
bool curspan_fits(int lines, int columns, int y, int x);
/* Takes what is touched of a window that outlies, and its cursor, into the virtual screen. */
int curspan_show_outlying(WINDOW *win);
int curspan_show_cursor(int y, int x);
/* Moves a window that outlies to a place where it fits. */
int curspan_move_inside(WINDOW *win, int y, int x);
/* Cuts off what of a window is not on the screen. */
int curspan_cut_outside(WINDOW *win);

/* Where the virtual screen has its cursor. */
extern int curspan_shown_y, curspan_shown_x;
void curspan_note_cursor(const WINDOW *win);

/* What two windows have of the screen in common: where it begins in each, and how large it is. */
typedef struct {
    int from_y, from_x, to_y, to_x, lines, columns;
} curspan_common;

/* Finds it, and answers whether there is any. */
bool curspan_find_common(const WINDOW *from, const WINDOW *to, curspan_common *common);
/* Touches a rectangle of a window of a screen, where it has it. */
void curspan_touch_cells(curspan *screen, uint16_t win, int y, int x, int lines, int columns);

/* A window was refreshed that the picture of panels doesn't have, so that they go by what is touched; see panel.c. */
extern bool curspan_is_mixed;
void curspan_note_refreshed(const WINDOW *win);

/* Makes the panels anew in another screen, with windows of it by their places in curspan_windows. */
int curspan_make_panels(curspan *screen, const uint16_t windows[MOST]);
/* Takes those of that screen. */
void curspan_take_panels(void);
void curspan_forget_panels(void);

void curspan_forget_colours(void);
/* The pair of curspan.h that stands for the program's in some attributes, and for A_ALTCHARSET in them, from then on.
   There are 63: where all stand for others it is 0, or that of alternate characters of pair 0. */
extern uint8_t curspan_owns[2][LAST_PAIR + 1]; /* the pair that stands for one, alternate or not, or 0 */
int curspan_take_pair(attr_t attrs);
static inline int curspan_use_pair(attr_t attrs) {
    int own = curspan_owns[(attrs & A_ALTCHARSET) > 0][PAIR_NUMBER(attrs)];
    return own > 0 || !(attrs & (A_COLOR | A_ALTCHARSET)) ? own : curspan_take_pair(attrs);
}
attr_t curspan_attributes_of(int own);
/* What the pairs of curspan.h are now, in the bytes on their way. */
struct curspan_palette *curspan_palette_now(void);

static inline bool is_number(int n) { return n >= 0 && n <= NUMBER; }
static inline bool are_numbers(int a, int b, int c, int d) {
    return is_number(a) && is_number(b) && is_number(c) && is_number(d);
}

static inline bool is_there(const WINDOW *win) { return curspan_number(win) != NUMBER; }
/* Sets what is kept of a window. */
#define SET_OF(win, member, value) (!is_there(win) ? ERR : ((win)->member = (value), OK))
static inline bool is_printable(uint32_t ch) { return ch >= ' ' && ch <= '~'; }
static inline int least(int a, int b) { return a < b ? a : b; }
static inline int most(int a, int b) { return a > b ? a : b; }
static inline bool is_terminal(const WINDOW *win) { return win && win == curscr; }
static inline int first_of(curspan_answer answer) { return answer.status == CURSPAN_OK ? (int)answer.first : ERR; }
static inline int second_of(curspan_answer answer) { return answer.status == CURSPAN_OK ? (int)answer.second : ERR; }
static inline bool is_so(curspan_answer answer) { return first_of(answer) == 1; }

/* A cell of curspan.h as one here, and one here as curspan.h has it where it is drawn. */
static inline chtype curspan_read(uint32_t cell) {
    return CURSPAN_PAIR(cell) ? (cell & ~A_COLOR) | curspan_attributes_of(CURSPAN_PAIR(cell)) : cell;
}
static inline uint32_t curspan_written(chtype cell) {
    cell &= A_CHARTEXT | A_ATTRIBUTES;
    return cell & (A_COLOR | A_ALTCHARSET) ? curspan_own(curspan_as_drawn(cell)) : cell;
}

#endif

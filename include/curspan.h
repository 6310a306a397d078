/* curspan.h: windows, panels and pads of curses as a proved library, in C99 or C++. Version 0.1.0.

   A screen keeps windows, panels and a virtual screen. Calls change them; doupdate sends the bytes that show the virtual screen
   on a terminal of its size (CUP, ED, EL and SGR of ECMA-48), and curspan_take moves them out, for the program to write:

       curspan screen = CURSPAN_INIT;
       uint8_t bytes[100000];
       curspan_open(&screen, 24, 80);
       curspan_waddstr(&screen, 0, "hello", 5);
       curspan_update_panels(&screen);
       curspan_doupdate(&screen);
       size_t length = curspan_take(&screen, bytes, sizeof bytes);
       ... write(1, bytes, length) ...
       curspan_close(&screen);

   It is proved of each function here but curspan_text, curspan_version and curspan_commit, which are C, that it does what the
   definitions of Curspan say of it, as the manual explains them, is safe, and returns; that memory is given back is tested. The
   proof asks of the program: `screen` is a handle that began as CURSPAN_INIT, and no other call uses it meanwhile; a text or a
   buffer has the length that is passed with it, and isn't NULL; malloc, realloc and free are those of one allocator. That NULL
   may be passed with a length of 0 is tested.

   Windows and pads are numbers, 0 the standard screen; panels are numbers from 1 on. A new one has the least that is
   free. Lines and columns count from 0. Colour pair 0 has the terminal's own colours. There are no characters for lines
   and boxes: they are drawn in ASCII. In a window that doesn't scroll, a text that goes past the end of the scroll
   region is CURSPAN_OK: each further character overwrites the last cell there. A number past 65,535 that is no cell is
   taken as 65,535, which no window, panel, line, column, size, pair or colour has. A call that is refused changes
   nothing and sends nothing. Its refusals are listed in the order of its tests. */
#ifndef CURSPAN_H
#define CURSPAN_H

#include <stdbool.h>
#include <stddef.h>
#include <stdint.h>

#define CURSPAN_VERSION "0.1.0"
#define CURSPAN_VERSION_NUMBER 100 /* 10000 for each major, 100 for each minor, 1 for each patch */

#ifdef __cplusplus
extern "C" {
#endif

/* A screen. It begins as CURSPAN_INIT, or as zeros, and is closed then. Never look inside it. It may be moved: where it is
   copied, only one of both is used from then on. */
typedef struct curspan {
    void *at;
} curspan;

#define CURSPAN_INIT {0}

/* How a call ended. */
enum curspan_status {
    CURSPAN_OK = 0,               /* done */
    /* Written by tools/calls from calls.table: statuses */
    CURSPAN_NO_SUCH_WINDOW = 1,   /* there is no such window or pad */
    CURSPAN_NO_SUCH_PANEL = 2,    /* there is no such panel */
    CURSPAN_OFF_SCREEN = 3,       /* a part would lie off the screen, or there would be no cell */
    CURSPAN_OUTSIDE_PARENT = 4,   /* a derived window or pad would not lie inside its parent, or have no cell */
    CURSPAN_OUTSIDE_WINDOW = 5,   /* the window has no such place, line or rectangle */
    CURSPAN_HAS_DERIVED = 6,      /* a window or pad derives from this one */
    CURSPAN_IN_PANEL = 7,         /* the window is in a panel */
    CURSPAN_IS_PAD = 8,           /* the call is not for pads */
    CURSPAN_NOT_PAD = 9,          /* the call is for pads alone */
    CURSPAN_NOT_DERIVED = 10,     /* the call is for windows and pads that derive from another one */
    CURSPAN_BAD_SIZE = 11,        /* a screen or a pad has no such size */
    CURSPAN_BAD_REGION = 12,      /* the region's first line is after its last, or the window has no such line */
    CURSPAN_BAD_CHARACTER = 13,   /* the character is none that the call takes */
    CURSPAN_STANDARD_SCREEN = 14, /* the call is not for the standard screen */
    CURSPAN_HIDDEN = 15,          /* the panel is hidden */
    CURSPAN_SCROLLING_OFF = 16,   /* the window doesn't scroll */
    CURSPAN_TOO_MANY = 17,        /* there are 1000 windows and pads besides the standard screen, or 1000 panels */
    CURSPAN_NO_MEMORY = 18,       /* there is no memory for it */
    CURSPAN_BAD_RECTANGLE = 19,   /* a rectangle's first line or column is after its last */
    CURSPAN_BAD_PAIR = 20,        /* there is no such colour pair or colour, or pair 0 was to be set */
    /* End of what tools/calls wrote */
    CURSPAN_WRITE_FAILED = 21,    /* there is no memory for the bytes of a doupdate */
    CURSPAN_CLOSED = 22           /* the screen is closed */
};

/* What a call answers: a status and two numbers. Numbers that a call doesn't answer are 0. So are both where it is
   refused, but with CURSPAN_WRITE_FAILED `first` is how many bytes were sent. Look at the status: 0 is the standard
   screen's number too. On a closed screen the status of each but curspan_open is CURSPAN_CLOSED. */
typedef struct curspan_answer {
    uint32_t status, first, second;
} curspan_answer;

enum {
    CURSPAN_BOLD = 0x01,
    CURSPAN_DIM = 0x02,
    CURSPAN_UNDERLINE = 0x04,
    CURSPAN_BLINK = 0x08,
    CURSPAN_REVERSE = 0x10,
    CURSPAN_INVIS = 0x20,
    CURSPAN_LARGEST_SCREEN = 999 /* lines or columns */
};

/* What a cell of a window has. */
#define CURSPAN_CHARACTER(cell) ((uint8_t)(cell))
#define CURSPAN_ATTRIBUTES(cell) ((uint8_t)((cell) >> 8))
#define CURSPAN_PAIR(cell) ((uint16_t)((cell) >> 16))

/* The cell of a character, attributes and a pair, as winch answers it: of their low 8, 8 and 16 bits. */
#define CURSPAN_CELL(character, attributes, pair) \
    ((uint32_t)(uint8_t)(character) | (uint32_t)(uint8_t)(attributes) << 8 | (uint32_t)(uint16_t)(pair) << 16)

/* The colours of a cell as it is shown, which has CURSPAN_CHARACTER and CURSPAN_ATTRIBUTES too: 0 to 7, or 9 for the terminal's own. */
#define CURSPAN_FOREGROUND(shown) ((uint8_t)((shown) >> 16))
#define CURSPAN_BACKGROUND(shown) ((uint8_t)((shown) >> 24))

/* The words of a status. */
const char *curspan_text(uint32_t status);

/* The version of the library, as CURSPAN_VERSION. */
const char *curspan_version(void);

/* The commit that the library was proved and built of, "unknown" where that isn't known. */
const char *curspan_commit(void);

/* ---- a screen: opening, closing, and its bytes */

/* Opens a blank screen of 1 to 999 lines and columns. Answers the number of its standard screen, 0. One that the
   handle had is closed, with its windows and the bytes that were not taken. So a new size is opened anew, and windows,
   panels and pairs are made again. Refused, and the handle is as before: BAD_SIZE, NO_MEMORY. */
curspan_answer curspan_open(curspan *screen, uint32_t lines, uint32_t columns);

/* Frees all that the screen has. The handle is closed, and can be opened again. Nothing happens to a closed one. */
void curspan_close(curspan *screen);

/* Moves the bytes for the terminal that were sent and not taken yet to `out`, in order, and answers how many they
   are. Where they are more than `room`, the answer says so, none is moved and all are kept. `out` may be NULL where
   `room` is 0. A closed screen has none. */
size_t curspan_take(curspan *screen, uint8_t *out, size_t room);

/* Says that the terminal may show anything, as after taken bytes that did not reach it: the next doupdate clears
   it and sends all. Windows, panels and the bytes that were not taken stay. */
void curspan_invalidate(curspan *screen);

/* ---- what is asked of a screen beside the calls */

/* Puts the cells of line `y` of a window or pad into `cells`, as winch answers them, from column 0 on, `room` of them at
   most. Answers how many columns the line has. `cells` may be NULL where `room` is 0. Refused: NO_SUCH_WINDOW;
   OUTSIDE_WINDOW if the window hasn't line `y`. */
curspan_answer curspan_row(const curspan *screen, uint32_t win, uint32_t y, uint32_t *cells, size_t room);

/* Puts the cells of line `y` of the virtual screen into `cells`, as the next doupdate shows them, from column 0 on, `room`
   of them at most. Answers how many columns the line has. CURSPAN_CHARACTER, CURSPAN_ATTRIBUTES, CURSPAN_FOREGROUND and
   CURSPAN_BACKGROUND take a cell apart. `cells` may be NULL where `room` is 0. Refused: OUTSIDE_WINDOW. */
curspan_answer curspan_shown_row(const curspan *screen, uint32_t y, uint32_t *cells, size_t room);

/* The cell of a window or pad at line `y` and column `x`, as winch answers it. Refused: NO_SUCH_WINDOW; OUTSIDE_WINDOW if
   the window hasn't that place. */
curspan_answer curspan_cell(const curspan *screen, uint32_t win, uint32_t y, uint32_t x);

/* The attributes that written characters get, and their colour pair. Refused: NO_SUCH_WINDOW. */
curspan_answer curspan_wattr_get(const curspan *screen, uint32_t win);

/* The background, as a cell of winch. Refused: NO_SUCH_WINDOW. */
curspan_answer curspan_getbkgd(const curspan *screen, uint32_t win);

/* The first and the last line of the scroll region. Refused: NO_SUCH_WINDOW. */
curspan_answer curspan_wgetscrreg(const curspan *screen, uint32_t win);

/* Whether the window scrolls. Answers 1 where it is so, and else 0. Refused: NO_SUCH_WINDOW. */
curspan_answer curspan_is_scrollok(const curspan *screen, uint32_t win);

/* Whether the window asks for a clear screen where it is next taken into the virtual screen. Answers 1 where it is so, and
   else 0. Refused: NO_SUCH_WINDOW. */
curspan_answer curspan_is_cleared(const curspan *screen, uint32_t win);

/* Whether it is a pad. Answers 1 where it is so, and else 0. Refused: NO_SUCH_WINDOW. */
curspan_answer curspan_is_pad(const curspan *screen, uint32_t win);

/* The window or pad from which a window or pad derives. Refused: NO_SUCH_WINDOW, NOT_DERIVED. */
curspan_answer curspan_wgetparent(const curspan *screen, uint32_t win);

/* The panel that a window is in, 0 for none. Refused: NO_SUCH_WINDOW. */
curspan_answer curspan_window_panel(const curspan *screen, uint32_t win);

/* The least number of a window or pad that is greater than a number, which needn't be one's. 0 is none. */
curspan_answer curspan_next_window(const curspan *screen, uint32_t win);

/* The least number of a panel that is greater than a number, which needn't be one's. 0 is none. */
curspan_answer curspan_next_panel(const curspan *screen, uint32_t panel);

/* ---- cells that are given: they are written as they are, whatever the window's background, attributes and pair. The cursor
   stays, and nothing scrolls. CURSPAN_CELL makes a cell. Bits beyond the six attributes are left out. */

/* Sets the cells of a window or pad in the lines from `top` to `bottom` and the columns from `left` to `right`, all
   inclusive, to one cell. Refused: NO_SUCH_WINDOW; BAD_RECTANGLE if a last line or column comes before its first;
   OUTSIDE_WINDOW if the rectangle isn't in the window; BAD_CHARACTER for a character outside 32 to 126; BAD_PAIR for a
   pair past 63. */
curspan_answer curspan_fill(curspan *screen, uint32_t win, uint32_t top, uint32_t left, uint32_t bottom, uint32_t right,
                            uint32_t cell);

/* Puts `n` cells into line `y` of a window or pad, from column `x` on. `cells` may be NULL where `n` is 0, and nothing is
   written then. Refused: NO_SUCH_WINDOW; OUTSIDE_WINDOW if the window hasn't line `y`, or not `n` columns from `x` on;
   BAD_CHARACTER for a cell whose character is outside 32 to 126; BAD_PAIR for one whose pair is past 63. */
curspan_answer curspan_put(curspan *screen, uint32_t win, uint32_t y, uint32_t x, const uint32_t *cells, size_t n);

/* Written by tools/calls from calls.table: prototypes. */

/* ---- the calls that make windows and pads, delete them, and place them */

/* Makes a window at a place of the screen, with a blank grid of its own. A size of 0 reaches to the edge of the screen.
   Answers its number. Refused: OFF_SCREEN, TOO_MANY, NO_MEMORY. */
curspan_answer curspan_newwin(curspan *screen, uint32_t lines, uint32_t columns, uint32_t y, uint32_t x);

/* Makes a window that shows the part of a window from a place of the screen on. A size of 0 reaches to the window's
   edge. Answers its number. Refused: NO_SUCH_WINDOW, IS_PAD, OUTSIDE_PARENT, TOO_MANY, NO_MEMORY. */
curspan_answer curspan_subwin(curspan *screen, uint32_t win, uint32_t lines, uint32_t columns, uint32_t y, uint32_t x);

/* Makes a window over the part of a window from a line and a column of it on. They share their cells. A size of 0
   reaches to its edge. Answers its number. Refused: NO_SUCH_WINDOW, IS_PAD, OUTSIDE_PARENT, TOO_MANY, NO_MEMORY. */
curspan_answer curspan_derwin(curspan *screen, uint32_t win, uint32_t lines, uint32_t columns, uint32_t y, uint32_t x);

/* Makes a pad of 1 to 1000 lines and columns, which has no place on the screen, with a blank grid of its own. Answers
   its number. Refused: BAD_SIZE, TOO_MANY, NO_MEMORY. */
curspan_answer curspan_newpad(curspan *screen, uint32_t lines, uint32_t columns);

/* Makes a pad that shows the part of a pad from a line and a column of it on. A size of 0 reaches to its edge. Answers
   its number. Refused: NO_SUCH_WINDOW, NOT_PAD, OUTSIDE_PARENT, TOO_MANY, NO_MEMORY. */
curspan_answer curspan_subpad(curspan *screen, uint32_t pad, uint32_t lines, uint32_t columns, uint32_t y, uint32_t x);

/* Deletes a window or pad that is in no panel, and from which none derives. Its number is free then. Refused:
   NO_SUCH_WINDOW, STANDARD_SCREEN, IN_PANEL, HAS_DERIVED. */
curspan_answer curspan_delwin(curspan *screen, uint32_t win);

/* Moves a window that is in no panel to a place of the screen. No other window moves. Refused: NO_SUCH_WINDOW,
   STANDARD_SCREEN, IS_PAD, IN_PANEL, OFF_SCREEN. */
curspan_answer curspan_mvwin(curspan *screen, uint32_t win, uint32_t y, uint32_t x);

/* Lets a derived window or pad show the part of its parent from another line and column on. It stays where it is on the
   screen. Refused: NO_SUCH_WINDOW, NOT_DERIVED, OUTSIDE_PARENT. */
curspan_answer curspan_mvderwin(curspan *screen, uint32_t win, uint32_t y, uint32_t x);

/* ---- the calls that write in a window or pad, or set how it is written in */

/* Moves the cursor to line `y` and column `x`. Refused: NO_SUCH_WINDOW; OUTSIDE_WINDOW for a place that the window
   hasn't. */
curspan_answer curspan_wmove(curspan *screen, uint32_t win, uint32_t y, uint32_t x);

/* Writes a character at the cursor, which advances, from the last column to the next line. Past the last column of the
   scroll region's last line the region scrolls, if the window may scroll, and else the cursor stays there. A newline
   (code 10), carriage return (13) or backspace (8) moves the cursor. Refused: NO_SUCH_WINDOW; BAD_CHARACTER for another
   character outside 32 to 126. */
curspan_answer curspan_waddch(curspan *screen, uint32_t win, uint32_t ch);

/* Writes the characters of a text in order, each as `waddch` does. No character of a refused text is written. The text
   has `length` characters, and may be NULL where that is 0. Refused: NO_SUCH_WINDOW; BAD_CHARACTER for a character
   other than 8, 10, 13 and 32 to 126. */
curspan_answer curspan_waddstr(curspan *screen, uint32_t win, const char *text, size_t length);

/* Inserts a character at the cursor, which stays: the cells from there on go one column right, and the last is lost.
   Refused: NO_SUCH_WINDOW; BAD_CHARACTER for a character outside 32 to 126. */
curspan_answer curspan_winsch(curspan *screen, uint32_t win, uint32_t ch);

/* Deletes the character at the cursor, which stays: the cells after it go one column left, and the last is set to the
   background. Refused: NO_SUCH_WINDOW. */
curspan_answer curspan_wdelch(curspan *screen, uint32_t win);

/* Moves the cursor's line and those below down by one, loses the last, and sets the cursor's line to the background.
   Refused: NO_SUCH_WINDOW. */
curspan_answer curspan_winsertln(curspan *screen, uint32_t win);

/* Moves the lines below the cursor's up by one, and sets the last line to the background. Refused: NO_SUCH_WINDOW. */
curspan_answer curspan_wdeleteln(curspan *screen, uint32_t win);

/* Sets all cells to the background, and the cursor to line 0 and column 0. Refused: NO_SUCH_WINDOW. */
curspan_answer curspan_werase(curspan *screen, uint32_t win);

/* Does as `werase`, and asks for a clear screen where the window is next taken into the virtual screen. Refused:
   NO_SUCH_WINDOW. */
curspan_answer curspan_wclear(curspan *screen, uint32_t win);

/* Sets the cells from the cursor to the end of its line to the background. Refused: NO_SUCH_WINDOW. */
curspan_answer curspan_wclrtoeol(curspan *screen, uint32_t win);

/* Sets the cells from the cursor to the end of its line, and all lines below, to the background. Refused:
   NO_SUCH_WINDOW. */
curspan_answer curspan_wclrtobot(curspan *screen, uint32_t win);

/* Moves the lines of the scroll region up by `n`, or down by `-n` for a negative one. Those that leave it are lost, and
   those that come in are set to the background. The cursor stays. Refused: NO_SUCH_WINDOW; SCROLLING_OFF for a window
   that doesn't scroll. */
curspan_answer curspan_wscrl(curspan *screen, uint32_t win, int32_t n);

/* Sets the scroll region to the lines from `top` to `bottom`, both inclusive. Refused: NO_SUCH_WINDOW; BAD_REGION if
   `top` is after `bottom` or `bottom` outside the window. */
curspan_answer curspan_wsetscrreg(curspan *screen, uint32_t win, uint32_t top, uint32_t bottom);

/* Sets whether the window scrolls where the cursor leaves the last line of its region. At first it doesn't. Refused:
   NO_SUCH_WINDOW. */
curspan_answer curspan_scrollok(curspan *screen, uint32_t win, bool flag);

/* Sets whether the window asks for a clear screen where it is next taken into the virtual screen. Refused:
   NO_SUCH_WINDOW. */
curspan_answer curspan_clearok(curspan *screen, uint32_t win, bool flag);

/* Sets the attributes that written characters get. Refused: NO_SUCH_WINDOW. */
curspan_answer curspan_wattrset(curspan *screen, uint32_t win, uint8_t attrs);

/* Adds attributes to those that written characters get. Refused: NO_SUCH_WINDOW. */
curspan_answer curspan_wattron(curspan *screen, uint32_t win, uint8_t attrs);

/* Takes attributes from those that written characters get. Refused: NO_SUCH_WINDOW. */
curspan_answer curspan_wattroff(curspan *screen, uint32_t win, uint8_t attrs);

/* Sets the background to a character with attributes, of pair 0. No cell is written. Refused: NO_SUCH_WINDOW;
   BAD_CHARACTER for a character outside 32 to 126. */
curspan_answer curspan_wbkgdset(curspan *screen, uint32_t win, uint8_t attrs, uint32_t ch);

/* Sets the colour pair that written characters get. Refused: NO_SUCH_WINDOW; BAD_PAIR for a number past 63. */
curspan_answer curspan_wcolor_set(curspan *screen, uint32_t win, uint32_t pair);

/* Sets the colour pair of the background. No cell is written. Refused: NO_SUCH_WINDOW; BAD_PAIR for a number past 63. */
curspan_answer curspan_wbkgdpair(curspan *screen, uint32_t win, uint32_t pair);

/* ---- the calls that copy cells from window to window, and those on what is touched of a window */

/* Copies the cells of `src` that aren't spaces to `dst`, at the places of the screen that both cover. Refused:
   NO_SUCH_WINDOW, IS_PAD, each for either window. */
curspan_answer curspan_overlay(curspan *screen, uint32_t src, uint32_t dst);

/* Copies all cells of `src` to `dst`, at the places of the screen that both cover. Refused: NO_SUCH_WINDOW, IS_PAD,
   each for either window. */
curspan_answer curspan_overwrite(curspan *screen, uint32_t src, uint32_t dst);

/* Copies the cells of `src` from line `sminrow` and column `smincol` on to the lines from `dminrow` to `dmaxrow` and
   the columns from `dmincol` to `dmaxcol` of `dst`, all inclusive; if `overlay` is set, spaces are left out. Windows
   and pads may be mixed. Refused: NO_SUCH_WINDOW for either window; BAD_RECTANGLE if a last line or column comes before
   its first; OUTSIDE_WINDOW if the rectangle isn't in `dst`, or that of the same size not in `src`. */
curspan_answer curspan_copywin(curspan *screen, uint32_t src, uint32_t dst, uint32_t sminrow, uint32_t smincol, uint32_t
                               dminrow, uint32_t dmincol, uint32_t dmaxrow, uint32_t dmaxcol, bool overlay);

/* Touches all of a window, as if it had been written. Refused: NO_SUCH_WINDOW. */
curspan_answer curspan_touchwin(curspan *screen, uint32_t win);

/* Untouches all of a window. Refused: NO_SUCH_WINDOW. */
curspan_answer curspan_untouchwin(curspan *screen, uint32_t win);

/* Touches all of `n` lines from line `y` on. Refused: NO_SUCH_WINDOW; OUTSIDE_WINDOW if the window hasn't line `y`, or
   not `n` lines from it on. */
curspan_answer curspan_touchline(curspan *screen, uint32_t win, uint32_t y, uint32_t n);

/* Touches all of `n` lines from line `y` on, or untouches them if `flag` is not set. Refused: NO_SUCH_WINDOW;
   OUTSIDE_WINDOW if the window hasn't line `y`, or not `n` lines from it on. */
curspan_answer curspan_wtouchln(curspan *screen, uint32_t win, uint32_t y, uint32_t n, bool flag);

/* Touches, in each ancestor of a window, the places that show a touched cell of the window. Refused: NO_SUCH_WINDOW. */
curspan_answer curspan_wsyncup(curspan *screen, uint32_t win);

/* Touches, in a window, the places that show a touched cell of an ancestor. Refused: NO_SUCH_WINDOW. */
curspan_answer curspan_wsyncdown(curspan *screen, uint32_t win);

/* Whether line `y` of a window is touched. Answers 1 where it is so, and else 0. Refused: NO_SUCH_WINDOW;
   OUTSIDE_WINDOW if the window hasn't line `y`. */
curspan_answer curspan_is_linetouched(const curspan *screen, uint32_t win, uint32_t y);

/* Whether some line of a window is touched. Answers 1 where it is so, and else 0. Refused: NO_SUCH_WINDOW. */
curspan_answer curspan_is_wintouched(const curspan *screen, uint32_t win);

/* ---- the calls that ask about a window or pad */

/* The line and the column of the cursor. Refused: NO_SUCH_WINDOW. */
curspan_answer curspan_getyx(const curspan *screen, uint32_t win);

/* The line and the column of the screen where the window begins. Refused: NO_SUCH_WINDOW, IS_PAD. */
curspan_answer curspan_getbegyx(const curspan *screen, uint32_t win);

/* The number of lines, and the number of columns. Refused: NO_SUCH_WINDOW. */
curspan_answer curspan_getmaxyx(const curspan *screen, uint32_t win);

/* The line and the column of the parent where a derived window begins. Refused: NO_SUCH_WINDOW, NOT_DERIVED. */
curspan_answer curspan_getparyx(const curspan *screen, uint32_t win);

/* The cell at the cursor. CURSPAN_CHARACTER, CURSPAN_ATTRIBUTES and CURSPAN_PAIR take it apart. Refused:
   NO_SUCH_WINDOW. */
curspan_answer curspan_winch(const curspan *screen, uint32_t win);

/* ---- the calls that make panels, delete them, order them and move them, and those that ask about them */

/* Puts a window into a new panel, visible on top. The number is the least free one from 1 on. Answers its number.
   Refused: NO_SUCH_WINDOW, STANDARD_SCREEN, IS_PAD, IN_PANEL, TOO_MANY, NO_MEMORY. */
curspan_answer curspan_new_panel(curspan *screen, uint32_t win);

/* Deletes a panel. Its window stays, and is in no panel any more. Refused: NO_SUCH_PANEL. */
curspan_answer curspan_del_panel(curspan *screen, uint32_t panel);

/* Puts a panel on top, whether it was hidden or visible. Refused: NO_SUCH_PANEL. */
curspan_answer curspan_show_panel(curspan *screen, uint32_t panel);

/* Takes a visible panel out of the order. Refused: NO_SUCH_PANEL, HIDDEN. */
curspan_answer curspan_hide_panel(curspan *screen, uint32_t panel);

/* Moves a visible panel to the top. Refused: NO_SUCH_PANEL, HIDDEN. */
curspan_answer curspan_top_panel(curspan *screen, uint32_t panel);

/* Moves a visible panel to the bottom. Refused: NO_SUCH_PANEL, HIDDEN. */
curspan_answer curspan_bottom_panel(curspan *screen, uint32_t panel);

/* Moves the window of a panel, visible or hidden, to a place of the screen. Refused: NO_SUCH_PANEL, OFF_SCREEN. */
curspan_answer curspan_move_panel(curspan *screen, uint32_t panel, uint32_t y, uint32_t x);

/* Gives a panel another window. The panel keeps its depth, or stays hidden. Refused: NO_SUCH_PANEL, NO_SUCH_WINDOW,
   STANDARD_SCREEN, IS_PAD, IN_PANEL. */
curspan_answer curspan_replace_panel(curspan *screen, uint32_t panel, uint32_t win);

/* The panel right above a visible one; of none, the bottom one. 0 is none, also in the answer. Refused: NO_SUCH_PANEL,
   HIDDEN. */
curspan_answer curspan_panel_above(const curspan *screen, uint32_t panel);

/* The panel right below a visible one; of none, the top one. 0 is none, also in the answer. Refused: NO_SUCH_PANEL,
   HIDDEN. */
curspan_answer curspan_panel_below(const curspan *screen, uint32_t panel);

/* The window of a panel. Answers its number. Refused: NO_SUCH_PANEL. */
curspan_answer curspan_panel_window(const curspan *screen, uint32_t panel);

/* Whether a panel is hidden. Answers 1 where it is so, and else 0. Refused: NO_SUCH_PANEL. */
curspan_answer curspan_panel_hidden(const curspan *screen, uint32_t panel);

/* ---- the calls that refresh, and the one that sets the colours of a pair */

/* Takes what is touched of a window into the virtual screen, at the window's place, with its cursor. Then no place of
   it is touched; and if it asked for a clear screen, the virtual screen asks for it instead. Refused: NO_SUCH_WINDOW,
   IS_PAD. */
curspan_answer curspan_wnoutrefresh(curspan *screen, uint32_t win);

/* Takes the cells of a pad from line `pminrow` and column `pmincol` on into the lines from `sminrow` to `smaxrow` and
   the columns from `smincol` to `smaxcol` of the virtual screen, all inclusive, whether they are touched or not. The
   cursor stays where it is. Then those lines of the pad are untouched, also beside the rectangle; and if the pad asked
   for a clear screen, the virtual screen asks for it instead. Refused: NO_SUCH_WINDOW, NOT_PAD; BAD_RECTANGLE if a last
   line or column comes before its first; OUTSIDE_WINDOW if the rectangle isn't in the pad; OFF_SCREEN if it isn't on
   the screen. */
curspan_answer curspan_pnoutrefresh(curspan *screen, uint32_t pad, uint32_t pminrow, uint32_t pmincol, uint32_t sminrow,
                                    uint32_t smincol, uint32_t smaxrow, uint32_t smaxcol);

/* Takes the picture of windows and panels into the virtual screen, with the cursor of the top visible panel's window,
   or else of the standard screen. It answers how many cells it read. */
curspan_answer curspan_update_panels(curspan *screen);

/* Sends the bytes that show the virtual screen on the terminal: little more than what changed, or all of it after a
   clear. It answers how many they are. CURSPAN_WRITE_FAILED where there was no memory for all of them: the first answer
   is how many were sent, and the next doupdate clears the terminal and sends all. */
curspan_answer curspan_doupdate(curspan *screen);

/* Gives a colour pair a foreground and a background: 0 black, 1 red, 2 green, 3 yellow, 4 blue, 5 magenta, 6 cyan, 7
   white. What was written in the pair changes in the next picture. Refused: BAD_PAIR for pair 0, for one past 63, and
   for a colour past 7. */
curspan_answer curspan_init_pair(curspan *screen, uint32_t pair, uint32_t foreground, uint32_t background);

/* End of what tools/calls wrote. */

#ifdef __cplusplus
}
#endif
#endif

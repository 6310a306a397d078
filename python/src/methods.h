/* The methods that are no calls, as rows after those of calls in the tables of written_windows.c and written_screens.c. */
#include "inside.h"

#define OTHER_METHODS_OF_SCREENS \
    {"bottom_panel", curspan_screen_bottom_panel, METH_NOARGS, "bottom_panel($self)\n--\n\nThe visible panel at the bottom, or None."}, \
    {"top_panel", curspan_screen_top_panel, METH_NOARGS, "top_panel($self)\n--\n\nThe visible panel on top, or None."}, \
    {"line", curspan_screen_line, METH_O, \
     "line($self, y, /)\n--\n\nThe characters of a line of the virtual screen, as a text. Refused: OutsideWindow."}, \
    {"row", curspan_screen_row, METH_O, \
     "row($self, y, /)\n--\n\nThe cells of a line of the virtual screen, a list of Shown: as the last doupdate showed them, or the next will.\n" \
     "Refused: OutsideWindow."}, \
    {"take", curspan_screen_take, METH_NOARGS, \
     "take($self)\n--\n\nMoves the bytes for the terminal out that were sent and not taken yet, in order. With a file doupdate does so."}, \
    {"invalidate", curspan_screen_invalidate, METH_NOARGS, \
     "invalidate($self)\n--\n\nSays that the terminal may show anything: the next doupdate clears it and sends all."}, \
    {"close", curspan_screen_close, METH_NOARGS, \
     "close($self)\n--\n\nFrees the screen with all that it has. Each further call is refused as Closed. The file stays open, and nothing is sent."}, \
    {"__enter__", curspan_screen_enter, METH_NOARGS, NULL}, \
    {"__exit__", curspan_screen_exit, METH_VARARGS, NULL},

#define OTHER_METHODS_OF_PANELS \
    {"__enter__", curspan_itself, METH_NOARGS, NULL}, \
    {"__exit__", curspan_panel_exit, METH_VARARGS, NULL},

#define OTHER_METHODS_OF_WINDOWS \
    {"fill", AS_FUNCTION(curspan_window_fill), METH_FASTCALL | METH_KEYWORDS, \
     "fill($self, top, left, bottom, right, cell)\n--\n\nSets the cells of a rectangle, whose last line and column are given too, to a Cell.\n" \
     "Refused: NoSuchWindow, BadRectangle, OutsideWindow, BadCharacter, BadPair."}, \
    {"put", AS_FUNCTION(curspan_window_put), METH_FASTCALL | METH_KEYWORDS, \
     "put($self, y, x, cells)\n--\n\nPuts cells into a line, from a place on: a list of Cell, or what else gives them.\n" \
     "Refused: NoSuchWindow, OutsideWindow, BadCharacter, BadPair."}, \
    {"hline", AS_FUNCTION(curspan_window_hline), METH_FASTCALL | METH_KEYWORDS, \
     "hline([y, x, ]ch, n, attrs=None, *, pair=None, y=None, x=None)\n\nDraws a line of n characters to the right, from the cursor or a place on,\n" \
     "as far as the window goes. Refused: NoSuchWindow, OutsideWindow, BadCharacter, BadPair."}, \
    {"vline", AS_FUNCTION(curspan_window_vline), METH_FASTCALL | METH_KEYWORDS, \
     "vline([y, x, ]ch, n, attrs=None, *, pair=None, y=None, x=None)\n\nDraws a line of n characters downwards, from the cursor or a place on,\n" \
     "as far as the window goes. Refused: NoSuchWindow, OutsideWindow, BadCharacter, BadPair."}, \
    {"box", AS_FUNCTION(curspan_window_box), METH_FASTCALL | METH_KEYWORDS, \
     "box($self, vertch='|', horch='-', attrs=None, pair=None)\n--\n\nDraws a border, of one character for the sides, one for the top and the bottom,\n" \
     "and + for the corners. Refused: NoSuchWindow, BadCharacter, BadPair."}, \
    {"border", AS_FUNCTION(curspan_window_border), METH_FASTCALL | METH_KEYWORDS, \
     "border($self, ls='|', rs='|', ts='-', bs='-', tl='+', tr='+', bl='+', br='+', attrs=None, pair=None)\n--\n\n" \
     "Draws a border, of a character for each side and each corner. Refused: NoSuchWindow, BadCharacter, BadPair."}, \
    {"line", curspan_window_line, METH_O, "line($self, y, /)\n--\n\nThe characters of a line, as a text. Refused: NoSuchWindow, OutsideWindow."}, \
    {"row", curspan_window_row, METH_O, "row($self, y, /)\n--\n\nThe cells of a line, a list of Cell. Refused: NoSuchWindow, OutsideWindow."}, \
    {"__enter__", curspan_itself, METH_NOARGS, NULL}, \
    {"__exit__", curspan_window_exit, METH_VARARGS, NULL},

#define OTHER_METHODS_OF_PADS

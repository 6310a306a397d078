/* The methods of windows and pads. Written by tools/calls from calls.table. */
#include "methods.h"

static PyObject *window_subwin(PyObject *self, PyObject *const *given, Py_ssize_t count, PyObject *names) {
    static const Parameters parameters = {"subwin", 0, 4, {"lines", "columns", "y", "x"}};
    PyObject *room[4];
    uint32_t lines = 0, columns = 0, y = 0, x = 0;
    if (!(given = in_order(&parameters, given, count, names, room))) return NULL;
    if (!curspan_take_number(given[0], &lines) || !curspan_take_number(given[1], &columns) || !curspan_take_number(given[2], &y) ||
        !curspan_take_number(given[3], &x)) return NULL;
    return curspan_made_window(NUMBERED(self)->screen, curspan_subwin(HANDLE(self), NUMBER(self), lines, columns, y, x));
}

static PyObject *window_derwin(PyObject *self, PyObject *const *given, Py_ssize_t count, PyObject *names) {
    static const Parameters parameters = {"derwin", 0, 4, {"lines", "columns", "y", "x"}};
    PyObject *room[4];
    uint32_t lines = 0, columns = 0, y = 0, x = 0;
    if (!(given = in_order(&parameters, given, count, names, room))) return NULL;
    if (!curspan_take_number(given[0], &lines) || !curspan_take_number(given[1], &columns) || !curspan_take_number(given[2], &y) ||
        !curspan_take_number(given[3], &x)) return NULL;
    return curspan_made_window(NUMBERED(self)->screen, curspan_derwin(HANDLE(self), NUMBER(self), lines, columns, y, x));
}

static PyObject *window_subpad(PyObject *self, PyObject *const *given, Py_ssize_t count, PyObject *names) {
    static const Parameters parameters = {"subpad", 0, 4, {"lines", "columns", "y", "x"}};
    PyObject *room[4];
    uint32_t lines = 0, columns = 0, y = 0, x = 0;
    if (!(given = in_order(&parameters, given, count, names, room))) return NULL;
    if (!curspan_take_number(given[0], &lines) || !curspan_take_number(given[1], &columns) || !curspan_take_number(given[2], &y) ||
        !curspan_take_number(given[3], &x)) return NULL;
    return curspan_made_pad(NUMBERED(self)->screen, curspan_subpad(HANDLE(self), NUMBER(self), lines, columns, y, x));
}

static PyObject *window_mvwin(PyObject *self, PyObject *const *given, Py_ssize_t count, PyObject *names) {
    static const Parameters parameters = {"mvwin", 2, 2, {"y", "x"}};
    PyObject *room[2];
    uint32_t y, x;
    if (!(given = in_order(&parameters, given, count, names, room))) return NULL;
    if (!curspan_take_number(given[0], &y) || !curspan_take_number(given[1], &x)) return NULL;
    return nothing(curspan_mvwin(HANDLE(self), NUMBER(self), y, x));
}

static PyObject *window_mvderwin(PyObject *self, PyObject *const *given, Py_ssize_t count, PyObject *names) {
    static const Parameters parameters = {"mvderwin", 2, 2, {"y", "x"}};
    PyObject *room[2];
    uint32_t y, x;
    if (!(given = in_order(&parameters, given, count, names, room))) return NULL;
    if (!curspan_take_number(given[0], &y) || !curspan_take_number(given[1], &x)) return NULL;
    return nothing(curspan_mvderwin(HANDLE(self), NUMBER(self), y, x));
}

static PyObject *window_move(PyObject *self, PyObject *const *given, Py_ssize_t count, PyObject *names) {
    static const Parameters parameters = {"move", 2, 2, {"y", "x"}};
    PyObject *room[2];
    uint32_t y, x;
    if (!(given = in_order(&parameters, given, count, names, room))) return NULL;
    if (!curspan_take_number(given[0], &y) || !curspan_take_number(given[1], &x)) return NULL;
    return nothing(curspan_wmove(HANDLE(self), NUMBER(self), y, x));
}

static PyObject *window_insertln(PyObject *self, PyObject *none) {
    (void)none;
    return nothing(curspan_winsertln(HANDLE(self), NUMBER(self)));
}

static PyObject *window_deleteln(PyObject *self, PyObject *none) {
    (void)none;
    return nothing(curspan_wdeleteln(HANDLE(self), NUMBER(self)));
}

static PyObject *window_erase(PyObject *self, PyObject *none) {
    (void)none;
    return nothing(curspan_werase(HANDLE(self), NUMBER(self)));
}

static PyObject *window_clear(PyObject *self, PyObject *none) {
    (void)none;
    return nothing(curspan_wclear(HANDLE(self), NUMBER(self)));
}

static PyObject *window_clrtoeol(PyObject *self, PyObject *none) {
    (void)none;
    return nothing(curspan_wclrtoeol(HANDLE(self), NUMBER(self)));
}

static PyObject *window_clrtobot(PyObject *self, PyObject *none) {
    (void)none;
    return nothing(curspan_wclrtobot(HANDLE(self), NUMBER(self)));
}

static PyObject *window_scroll(PyObject *self, PyObject *const *given, Py_ssize_t count, PyObject *names) {
    static const Parameters parameters = {"scroll", 0, 1, {"n"}};
    PyObject *room[1];
    int32_t n = 1;
    if (!(given = in_order(&parameters, given, count, names, room))) return NULL;
    if (!curspan_take_signed(given[0], &n)) return NULL;
    return nothing(curspan_wscrl(HANDLE(self), NUMBER(self), n));
}

static PyObject *window_setscrreg(PyObject *self, PyObject *const *given, Py_ssize_t count, PyObject *names) {
    static const Parameters parameters = {"setscrreg", 2, 2, {"top", "bottom"}};
    PyObject *room[2];
    uint32_t top, bottom;
    if (!(given = in_order(&parameters, given, count, names, room))) return NULL;
    if (!curspan_take_number(given[0], &top) || !curspan_take_number(given[1], &bottom)) return NULL;
    return nothing(curspan_wsetscrreg(HANDLE(self), NUMBER(self), top, bottom));
}

static PyObject *window_scrollok(PyObject *self, PyObject *const *given, Py_ssize_t count, PyObject *names) {
    static const Parameters parameters = {"scrollok", 0, 1, {"flag"}};
    PyObject *room[1];
    bool flag = true;
    if (!(given = in_order(&parameters, given, count, names, room))) return NULL;
    if (!curspan_take_flag(given[0], &flag)) return NULL;
    return nothing(curspan_scrollok(HANDLE(self), NUMBER(self), flag));
}

static PyObject *window_clearok(PyObject *self, PyObject *const *given, Py_ssize_t count, PyObject *names) {
    static const Parameters parameters = {"clearok", 0, 1, {"flag"}};
    PyObject *room[1];
    bool flag = true;
    if (!(given = in_order(&parameters, given, count, names, room))) return NULL;
    if (!curspan_take_flag(given[0], &flag)) return NULL;
    return nothing(curspan_clearok(HANDLE(self), NUMBER(self), flag));
}

static PyObject *window_attrset(PyObject *self, PyObject *const *given, Py_ssize_t count, PyObject *names) {
    static const Parameters parameters = {"attrset", 1, 1, {"attrs"}};
    PyObject *room[1];
    uint8_t attrs;
    if (!(given = in_order(&parameters, given, count, names, room))) return NULL;
    if (!curspan_take_attributes(given[0], &attrs)) return NULL;
    return nothing(curspan_wattrset(HANDLE(self), NUMBER(self), attrs));
}

static PyObject *window_attron(PyObject *self, PyObject *const *given, Py_ssize_t count, PyObject *names) {
    static const Parameters parameters = {"attron", 1, 1, {"attrs"}};
    PyObject *room[1];
    uint8_t attrs;
    if (!(given = in_order(&parameters, given, count, names, room))) return NULL;
    if (!curspan_take_attributes(given[0], &attrs)) return NULL;
    return nothing(curspan_wattron(HANDLE(self), NUMBER(self), attrs));
}

static PyObject *window_attroff(PyObject *self, PyObject *const *given, Py_ssize_t count, PyObject *names) {
    static const Parameters parameters = {"attroff", 1, 1, {"attrs"}};
    PyObject *room[1];
    uint8_t attrs;
    if (!(given = in_order(&parameters, given, count, names, room))) return NULL;
    if (!curspan_take_attributes(given[0], &attrs)) return NULL;
    return nothing(curspan_wattroff(HANDLE(self), NUMBER(self), attrs));
}

static PyObject *window_bkgdset(PyObject *self, PyObject *const *given, Py_ssize_t count, PyObject *names) {
    static const Parameters parameters = {"bkgdset", 1, 2, {"ch", "attrs"}};
    PyObject *room[2];
    uint32_t ch;
    uint8_t attrs = 0;
    if (!(given = in_order(&parameters, given, count, names, room))) return NULL;
    if (!curspan_take_character(given[0], &ch) || !curspan_take_attributes(unless_none(given[1]), &attrs)) return NULL;
    return nothing(curspan_wbkgdset(HANDLE(self), NUMBER(self), attrs, ch));
}

static PyObject *window_color_set(PyObject *self, PyObject *const *given, Py_ssize_t count, PyObject *names) {
    static const Parameters parameters = {"color_set", 1, 1, {"pair"}};
    PyObject *room[1];
    uint32_t pair;
    if (!(given = in_order(&parameters, given, count, names, room))) return NULL;
    if (!curspan_take_number(given[0], &pair)) return NULL;
    return nothing(curspan_wcolor_set(HANDLE(self), NUMBER(self), pair));
}

static PyObject *window_bkgdpair(PyObject *self, PyObject *const *given, Py_ssize_t count, PyObject *names) {
    static const Parameters parameters = {"bkgdpair", 1, 1, {"pair"}};
    PyObject *room[1];
    uint32_t pair;
    if (!(given = in_order(&parameters, given, count, names, room))) return NULL;
    if (!curspan_take_number(given[0], &pair)) return NULL;
    return nothing(curspan_wbkgdpair(HANDLE(self), NUMBER(self), pair));
}

static PyObject *window_overlay(PyObject *self, PyObject *const *given, Py_ssize_t count, PyObject *names) {
    static const Parameters parameters = {"overlay", 1, 1, {"dst"}};
    PyObject *room[1];
    uint32_t dst;
    if (!(given = in_order(&parameters, given, count, names, room))) return NULL;
    if (!curspan_take_window(given[0], NUMBERED(self)->screen, &dst)) return NULL;
    return nothing(curspan_overlay(HANDLE(self), NUMBER(self), dst));
}

static PyObject *window_overwrite(PyObject *self, PyObject *const *given, Py_ssize_t count, PyObject *names) {
    static const Parameters parameters = {"overwrite", 1, 1, {"dst"}};
    PyObject *room[1];
    uint32_t dst;
    if (!(given = in_order(&parameters, given, count, names, room))) return NULL;
    if (!curspan_take_window(given[0], NUMBERED(self)->screen, &dst)) return NULL;
    return nothing(curspan_overwrite(HANDLE(self), NUMBER(self), dst));
}

static PyObject *window_copywin(PyObject *self, PyObject *const *given, Py_ssize_t count, PyObject *names) {
    static const Parameters parameters = {"copywin", 7, 8, {"dst", "sminrow", "smincol", "dminrow", "dmincol", "dmaxrow", "dmaxcol",
        "overlay"}};
    PyObject *room[8];
    uint32_t dst, sminrow, smincol, dminrow, dmincol, dmaxrow, dmaxcol;
    bool overlay = false;
    if (!(given = in_order(&parameters, given, count, names, room))) return NULL;
    if (!curspan_take_window(given[0], NUMBERED(self)->screen, &dst) || !curspan_take_number(given[1], &sminrow) ||
        !curspan_take_number(given[2], &smincol) || !curspan_take_number(given[3], &dminrow) || !curspan_take_number(given[4], &dmincol) ||
        !curspan_take_number(given[5], &dmaxrow) || !curspan_take_number(given[6], &dmaxcol) || !curspan_take_flag(given[7], &overlay))
        return NULL;
    return nothing(curspan_copywin(HANDLE(self), NUMBER(self), dst, sminrow, smincol, dminrow, dmincol, dmaxrow, dmaxcol, overlay));
}

static PyObject *window_touchwin(PyObject *self, PyObject *none) {
    (void)none;
    return nothing(curspan_touchwin(HANDLE(self), NUMBER(self)));
}

static PyObject *window_untouchwin(PyObject *self, PyObject *none) {
    (void)none;
    return nothing(curspan_untouchwin(HANDLE(self), NUMBER(self)));
}

static PyObject *window_touchline(PyObject *self, PyObject *const *given, Py_ssize_t count, PyObject *names) {
    static const Parameters parameters = {"touchline", 2, 2, {"y", "n"}};
    PyObject *room[2];
    uint32_t y, n;
    if (!(given = in_order(&parameters, given, count, names, room))) return NULL;
    if (!curspan_take_number(given[0], &y) || !curspan_take_number(given[1], &n)) return NULL;
    return nothing(curspan_touchline(HANDLE(self), NUMBER(self), y, n));
}

static PyObject *window_touchln(PyObject *self, PyObject *const *given, Py_ssize_t count, PyObject *names) {
    static const Parameters parameters = {"touchln", 2, 3, {"y", "n", "flag"}};
    PyObject *room[3];
    uint32_t y, n;
    bool flag = true;
    if (!(given = in_order(&parameters, given, count, names, room))) return NULL;
    if (!curspan_take_number(given[0], &y) || !curspan_take_number(given[1], &n) || !curspan_take_flag(given[2], &flag)) return NULL;
    return nothing(curspan_wtouchln(HANDLE(self), NUMBER(self), y, n, flag));
}

static PyObject *window_syncup(PyObject *self, PyObject *none) {
    (void)none;
    return nothing(curspan_wsyncup(HANDLE(self), NUMBER(self)));
}

static PyObject *window_syncdown(PyObject *self, PyObject *none) {
    (void)none;
    return nothing(curspan_wsyncdown(HANDLE(self), NUMBER(self)));
}

static PyObject *window_is_linetouched(PyObject *self, PyObject *const *given, Py_ssize_t count, PyObject *names) {
    static const Parameters parameters = {"is_linetouched", 1, 1, {"y"}};
    PyObject *room[1];
    uint32_t y;
    if (!(given = in_order(&parameters, given, count, names, room))) return NULL;
    if (!curspan_take_number(given[0], &y)) return NULL;
    return flag(curspan_is_linetouched(HANDLE(self), NUMBER(self), y));
}

static PyObject *window_is_wintouched(PyObject *self, PyObject *none) {
    (void)none;
    return flag(curspan_is_wintouched(HANDLE(self), NUMBER(self)));
}

static PyObject *window_getyx(PyObject *self, PyObject *none) {
    (void)none;
    return curspan_two_numbers(curspan_getyx(HANDLE(self), NUMBER(self)));
}

static PyObject *window_getbegyx(PyObject *self, PyObject *none) {
    (void)none;
    return curspan_two_numbers(curspan_getbegyx(HANDLE(self), NUMBER(self)));
}

static PyObject *window_getmaxyx(PyObject *self, PyObject *none) {
    (void)none;
    return curspan_two_numbers(curspan_getmaxyx(HANDLE(self), NUMBER(self)));
}

static PyObject *window_getparyx(PyObject *self, PyObject *none) {
    (void)none;
    return curspan_two_numbers(curspan_getparyx(HANDLE(self), NUMBER(self)));
}

static PyObject *window_new_panel(PyObject *self, PyObject *none) {
    (void)none;
    return curspan_made_panel(NUMBERED(self)->screen, curspan_new_panel(HANDLE(self), NUMBER(self)));
}

static PyObject *window_noutrefresh(PyObject *self, PyObject *none) {
    (void)none;
    return nothing(curspan_wnoutrefresh(HANDLE(self), NUMBER(self)));
}

static PyObject *window_pnoutrefresh(PyObject *self, PyObject *const *given, Py_ssize_t count, PyObject *names) {
    static const Parameters parameters = {"pnoutrefresh", 6, 6, {"pminrow", "pmincol", "sminrow", "smincol", "smaxrow", "smaxcol"}};
    PyObject *room[6];
    uint32_t pminrow, pmincol, sminrow, smincol, smaxrow, smaxcol;
    if (!(given = in_order(&parameters, given, count, names, room))) return NULL;
    if (!curspan_take_number(given[0], &pminrow) || !curspan_take_number(given[1], &pmincol) || !curspan_take_number(given[2], &sminrow) ||
        !curspan_take_number(given[3], &smincol) || !curspan_take_number(given[4], &smaxrow) || !curspan_take_number(given[5], &smaxcol))
        return NULL;
    return nothing(curspan_pnoutrefresh(HANDLE(self), NUMBER(self), pminrow, pmincol, sminrow, smincol, smaxrow, smaxcol));
}

PyMethodDef curspan_window_methods[] = {
    {"subwin", AS_FUNCTION(window_subwin), METH_FASTCALL | METH_KEYWORDS,
     "subwin($self, lines=0, columns=0, y=0, x=0)\n"
     "--\n"
     "\n"
     "Makes a window that shows the part of a window from a place of the screen on. A size of 0 reaches to\n"
     "the window's edge. Refused: NoSuchWindow, IsPad, OutsideParent, TooMany, NoMemory."},
    {"derwin", AS_FUNCTION(window_derwin), METH_FASTCALL | METH_KEYWORDS,
     "derwin($self, lines=0, columns=0, y=0, x=0)\n"
     "--\n"
     "\n"
     "Makes a window over the part of a window from a line and a column of it on. They share their cells.\n"
     "A size of 0 reaches to its edge. Refused: NoSuchWindow, IsPad, OutsideParent, TooMany, NoMemory."},
    {"delete", AS_FUNCTION(curspan_window_delete), METH_NOARGS,
     "delete($self)\n"
     "--\n"
     "\n"
     "Deletes a window or pad that is in no panel, and from which none derives. Its number is free then.\n"
     "Refused: NoSuchWindow, StandardScreen, InPanel, HasDerived."},
    {"mvwin", AS_FUNCTION(window_mvwin), METH_FASTCALL | METH_KEYWORDS,
     "mvwin($self, y, x)\n"
     "--\n"
     "\n"
     "Moves a window that is in no panel to a place of the screen. No other window moves. Refused:\n"
     "NoSuchWindow, StandardScreen, IsPad, InPanel, OffScreen."},
    {"mvderwin", AS_FUNCTION(window_mvderwin), METH_FASTCALL | METH_KEYWORDS,
     "mvderwin($self, y, x)\n"
     "--\n"
     "\n"
     "Lets a derived window or pad show the part of its parent from another line and column on. It stays\n"
     "where it is on the screen. Refused: NoSuchWindow, NotDerived, OutsideParent."},
    {"move", AS_FUNCTION(window_move), METH_FASTCALL | METH_KEYWORDS,
     "move($self, y, x)\n"
     "--\n"
     "\n"
     "Moves the cursor to line y and column x. Refused: NoSuchWindow; OutsideWindow for a place that the\n"
     "window hasn't."},
    {"addch", AS_FUNCTION(curspan_window_addch), METH_FASTCALL | METH_KEYWORDS,
     "addch([y, x, ]ch, attrs=None, *, pair=None, y=None, x=None)\n"
     "Writes a character at the cursor, which advances, from the last column to the next line. Past the\n"
     "last column of the scroll region's last line the region scrolls, if the window may scroll, and else\n"
     "the cursor stays there. A newline (code 10), carriage return (13) or backspace (8) moves the cursor.\n"
     "Refused: NoSuchWindow; BadCharacter for another character outside 32 to 126."},
    {"addstr", AS_FUNCTION(curspan_window_addstr), METH_FASTCALL | METH_KEYWORDS,
     "addstr([y, x, ]text, attrs=None, *, pair=None, y=None, x=None)\n"
     "Writes the characters of a text in order, each as addch does. No character of a refused text is\n"
     "written. Refused: NoSuchWindow; BadCharacter for a character other than 8, 10, 13 and 32 to 126."},
    {"insch", AS_FUNCTION(curspan_window_insch), METH_FASTCALL | METH_KEYWORDS,
     "insch([y, x, ]ch, attrs=None, *, pair=None, y=None, x=None)\n"
     "Inserts a character at the cursor, which stays: the cells from there on go one column right, and the\n"
     "last is lost. Refused: NoSuchWindow; BadCharacter for a character outside 32 to 126."},
    {"delch", AS_FUNCTION(curspan_window_delch), METH_FASTCALL | METH_KEYWORDS,
     "delch([y, x])\n"
     "Deletes the character at the cursor, which stays: the cells after it go one column left, and the\n"
     "last is set to the background. Refused: NoSuchWindow."},
    {"insertln", AS_FUNCTION(window_insertln), METH_NOARGS,
     "insertln($self)\n"
     "--\n"
     "\n"
     "Moves the cursor's line and those below down by one, loses the last, and sets the cursor's line to\n"
     "the background. Refused: NoSuchWindow."},
    {"deleteln", AS_FUNCTION(window_deleteln), METH_NOARGS,
     "deleteln($self)\n"
     "--\n"
     "\n"
     "Moves the lines below the cursor's up by one, and sets the last line to the background. Refused:\n"
     "NoSuchWindow."},
    {"erase", AS_FUNCTION(window_erase), METH_NOARGS,
     "erase($self)\n"
     "--\n"
     "\n"
     "Sets all cells to the background, and the cursor to line 0 and column 0. Refused: NoSuchWindow."},
    {"clear", AS_FUNCTION(window_clear), METH_NOARGS,
     "clear($self)\n"
     "--\n"
     "\n"
     "Does as erase, and asks for a clear screen where the window is next taken into the virtual screen.\n"
     "Refused: NoSuchWindow."},
    {"clrtoeol", AS_FUNCTION(window_clrtoeol), METH_NOARGS,
     "clrtoeol($self)\n"
     "--\n"
     "\n"
     "Sets the cells from the cursor to the end of its line to the background. Refused: NoSuchWindow."},
    {"clrtobot", AS_FUNCTION(window_clrtobot), METH_NOARGS,
     "clrtobot($self)\n"
     "--\n"
     "\n"
     "Sets the cells from the cursor to the end of its line, and all lines below, to the background.\n"
     "Refused: NoSuchWindow."},
    {"scroll", AS_FUNCTION(window_scroll), METH_FASTCALL | METH_KEYWORDS,
     "scroll($self, n=1)\n"
     "--\n"
     "\n"
     "Moves the lines of the scroll region up by n, or down by -n for a negative one. Those that leave it\n"
     "are lost, and those that come in are set to the background. The cursor stays. Refused: NoSuchWindow;\n"
     "ScrollingOff for a window that doesn't scroll."},
    {"setscrreg", AS_FUNCTION(window_setscrreg), METH_FASTCALL | METH_KEYWORDS,
     "setscrreg($self, top, bottom)\n"
     "--\n"
     "\n"
     "Sets the scroll region to the lines from top to bottom, both inclusive. Refused: NoSuchWindow;\n"
     "BadRegion if `top` is after `bottom` or `bottom` outside the window."},
    {"scrollok", AS_FUNCTION(window_scrollok), METH_FASTCALL | METH_KEYWORDS,
     "scrollok($self, flag=True)\n"
     "--\n"
     "\n"
     "Sets whether the window scrolls where the cursor leaves the last line of its region. At first it\n"
     "doesn't. Refused: NoSuchWindow."},
    {"clearok", AS_FUNCTION(window_clearok), METH_FASTCALL | METH_KEYWORDS,
     "clearok($self, flag=True)\n"
     "--\n"
     "\n"
     "Sets whether the window asks for a clear screen where it is next taken into the virtual screen.\n"
     "Refused: NoSuchWindow."},
    {"attrset", AS_FUNCTION(window_attrset), METH_FASTCALL | METH_KEYWORDS,
     "attrset($self, attrs)\n"
     "--\n"
     "\n"
     "Sets the attributes that written characters get. Refused: NoSuchWindow."},
    {"attron", AS_FUNCTION(window_attron), METH_FASTCALL | METH_KEYWORDS,
     "attron($self, attrs)\n"
     "--\n"
     "\n"
     "Adds attributes to those that written characters get. Refused: NoSuchWindow."},
    {"attroff", AS_FUNCTION(window_attroff), METH_FASTCALL | METH_KEYWORDS,
     "attroff($self, attrs)\n"
     "--\n"
     "\n"
     "Takes attributes from those that written characters get. Refused: NoSuchWindow."},
    {"bkgdset", AS_FUNCTION(window_bkgdset), METH_FASTCALL | METH_KEYWORDS,
     "bkgdset($self, ch, attrs=None)\n"
     "--\n"
     "\n"
     "Sets the background to a character with attributes, of pair 0. No cell is written. Refused:\n"
     "NoSuchWindow; BadCharacter for a character outside 32 to 126."},
    {"color_set", AS_FUNCTION(window_color_set), METH_FASTCALL | METH_KEYWORDS,
     "color_set($self, pair)\n"
     "--\n"
     "\n"
     "Sets the colour pair that written characters get. Refused: NoSuchWindow; BadPair for a number past\n"
     "63."},
    {"bkgdpair", AS_FUNCTION(window_bkgdpair), METH_FASTCALL | METH_KEYWORDS,
     "bkgdpair($self, pair)\n"
     "--\n"
     "\n"
     "Sets the colour pair of the background. No cell is written. Refused: NoSuchWindow; BadPair for a\n"
     "number past 63."},
    {"overlay", AS_FUNCTION(window_overlay), METH_FASTCALL | METH_KEYWORDS,
     "overlay($self, dst)\n"
     "--\n"
     "\n"
     "Copies the cells of src that aren't spaces to dst, at the places of the screen that both cover.\n"
     "Refused: NoSuchWindow, IsPad, each for either window."},
    {"overwrite", AS_FUNCTION(window_overwrite), METH_FASTCALL | METH_KEYWORDS,
     "overwrite($self, dst)\n"
     "--\n"
     "\n"
     "Copies all cells of src to dst, at the places of the screen that both cover. Refused: NoSuchWindow,\n"
     "IsPad, each for either window."},
    {"copywin", AS_FUNCTION(window_copywin), METH_FASTCALL | METH_KEYWORDS,
     "copywin($self, dst, sminrow, smincol, dminrow, dmincol, dmaxrow, dmaxcol, overlay=False)\n"
     "--\n"
     "\n"
     "Copies the cells of src from line sminrow and column smincol on to the lines from dminrow to dmaxrow\n"
     "and the columns from dmincol to dmaxcol of dst, all inclusive; if overlay is set, spaces are left\n"
     "out. Windows and pads may be mixed. Refused: NoSuchWindow for either window; BadRectangle if a last\n"
     "line or column comes before its first; OutsideWindow if the rectangle isn't in `dst`, or that of the\n"
     "same size not in `src`."},
    {"touchwin", AS_FUNCTION(window_touchwin), METH_NOARGS,
     "touchwin($self)\n"
     "--\n"
     "\n"
     "Touches all of a window, as if it had been written. Refused: NoSuchWindow."},
    {"untouchwin", AS_FUNCTION(window_untouchwin), METH_NOARGS,
     "untouchwin($self)\n"
     "--\n"
     "\n"
     "Untouches all of a window. Refused: NoSuchWindow."},
    {"touchline", AS_FUNCTION(window_touchline), METH_FASTCALL | METH_KEYWORDS,
     "touchline($self, y, n)\n"
     "--\n"
     "\n"
     "Touches all of n lines from line y on. Refused: NoSuchWindow; OutsideWindow if the window hasn't\n"
     "line `y`, or not `n` lines from it on."},
    {"touchln", AS_FUNCTION(window_touchln), METH_FASTCALL | METH_KEYWORDS,
     "touchln($self, y, n, flag=True)\n"
     "--\n"
     "\n"
     "Touches all of n lines from line y on, or untouches them if flag is not set. Refused: NoSuchWindow;\n"
     "OutsideWindow if the window hasn't line `y`, or not `n` lines from it on."},
    {"syncup", AS_FUNCTION(window_syncup), METH_NOARGS,
     "syncup($self)\n"
     "--\n"
     "\n"
     "Touches, in each ancestor of a window, the places that show a touched cell of the window. Refused:\n"
     "NoSuchWindow."},
    {"syncdown", AS_FUNCTION(window_syncdown), METH_NOARGS,
     "syncdown($self)\n"
     "--\n"
     "\n"
     "Touches, in a window, the places that show a touched cell of an ancestor. Refused: NoSuchWindow."},
    {"is_linetouched", AS_FUNCTION(window_is_linetouched), METH_FASTCALL | METH_KEYWORDS,
     "is_linetouched($self, y)\n"
     "--\n"
     "\n"
     "Whether line y of a window is touched. Refused: NoSuchWindow; OutsideWindow if the window hasn't\n"
     "line `y`."},
    {"is_wintouched", AS_FUNCTION(window_is_wintouched), METH_NOARGS,
     "is_wintouched($self)\n"
     "--\n"
     "\n"
     "Whether some line of a window is touched. Refused: NoSuchWindow."},
    {"getyx", AS_FUNCTION(window_getyx), METH_NOARGS,
     "getyx($self)\n"
     "--\n"
     "\n"
     "The line and the column of the cursor. Refused: NoSuchWindow."},
    {"getbegyx", AS_FUNCTION(window_getbegyx), METH_NOARGS,
     "getbegyx($self)\n"
     "--\n"
     "\n"
     "The line and the column of the screen where the window begins. Refused: NoSuchWindow, IsPad."},
    {"getmaxyx", AS_FUNCTION(window_getmaxyx), METH_NOARGS,
     "getmaxyx($self)\n"
     "--\n"
     "\n"
     "The number of lines, and the number of columns. Refused: NoSuchWindow."},
    {"getparyx", AS_FUNCTION(window_getparyx), METH_NOARGS,
     "getparyx($self)\n"
     "--\n"
     "\n"
     "The line and the column of the parent where a derived window begins. Refused: NoSuchWindow,\n"
     "NotDerived."},
    {"inch", AS_FUNCTION(curspan_window_inch), METH_FASTCALL | METH_KEYWORDS,
     "inch([y, x])\n"
     "The cell at the cursor, or at a place. The cursor stays. Refused: NoSuchWindow."},
    {"new_panel", AS_FUNCTION(window_new_panel), METH_NOARGS,
     "new_panel($self)\n"
     "--\n"
     "\n"
     "Puts a window into a new panel, visible on top. The number is the least free one from 1 on. Refused:\n"
     "NoSuchWindow, StandardScreen, IsPad, InPanel, TooMany, NoMemory."},
    {"noutrefresh", AS_FUNCTION(window_noutrefresh), METH_NOARGS,
     "noutrefresh($self)\n"
     "--\n"
     "\n"
     "Takes what is touched of a window into the virtual screen, at the window's place, with its cursor.\n"
     "Then no place of it is touched; and if it asked for a clear screen, the virtual screen asks for it\n"
     "instead. Refused: NoSuchWindow, IsPad."},
    OTHER_METHODS_OF_WINDOWS
    {NULL, NULL, 0, NULL},
};

PyMethodDef curspan_pad_methods[] = {
    {"subpad", AS_FUNCTION(window_subpad), METH_FASTCALL | METH_KEYWORDS,
     "subpad($self, lines=0, columns=0, y=0, x=0)\n"
     "--\n"
     "\n"
     "Makes a pad that shows the part of a pad from a line and a column of it on. A size of 0 reaches to\n"
     "its edge. Refused: NoSuchWindow, NotPad, OutsideParent, TooMany, NoMemory."},
    {"pnoutrefresh", AS_FUNCTION(window_pnoutrefresh), METH_FASTCALL | METH_KEYWORDS,
     "pnoutrefresh($self, pminrow, pmincol, sminrow, smincol, smaxrow, smaxcol)\n"
     "--\n"
     "\n"
     "Takes the cells of a pad from line pminrow and column pmincol on into the lines from sminrow to\n"
     "smaxrow and the columns from smincol to smaxcol of the virtual screen, all inclusive, whether they\n"
     "are touched or not. The cursor stays where it is. Then those lines of the pad are untouched, also\n"
     "beside the rectangle; and if the pad asked for a clear screen, the virtual screen asks for it\n"
     "instead. Refused: NoSuchWindow, NotPad; BadRectangle if a last line or column comes before its\n"
     "first; OutsideWindow if the rectangle isn't in the pad; OffScreen if it isn't on the screen."},
    OTHER_METHODS_OF_PADS
    {NULL, NULL, 0, NULL},
};

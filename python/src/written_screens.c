/* The methods of screens and panels. Written by tools/calls from calls.table. */
#include "methods.h"

static PyObject *screen_newwin(PyObject *self, PyObject *const *given, Py_ssize_t count, PyObject *names) {
    static const Parameters parameters = {"newwin", 0, 4, {"lines", "columns", "y", "x"}};
    PyObject *room[4];
    uint32_t lines = 0, columns = 0, y = 0, x = 0;
    if (!(given = in_order(&parameters, given, count, names, room))) return NULL;
    if (!curspan_take_number(given[0], &lines) || !curspan_take_number(given[1], &columns) || !curspan_take_number(given[2], &y) ||
        !curspan_take_number(given[3], &x)) return NULL;
    return curspan_made_window(SCREEN(self), curspan_newwin(&SCREEN(self)->handle, lines, columns, y, x));
}

static PyObject *screen_newpad(PyObject *self, PyObject *const *given, Py_ssize_t count, PyObject *names) {
    static const Parameters parameters = {"newpad", 2, 2, {"lines", "columns"}};
    PyObject *room[2];
    uint32_t lines, columns;
    if (!(given = in_order(&parameters, given, count, names, room))) return NULL;
    if (!curspan_take_number(given[0], &lines) || !curspan_take_number(given[1], &columns)) return NULL;
    return curspan_made_pad(SCREEN(self), curspan_newpad(&SCREEN(self)->handle, lines, columns));
}

static PyObject *panel_show(PyObject *self, PyObject *none) {
    (void)none;
    return nothing(curspan_show_panel(HANDLE(self), NUMBER(self)));
}

static PyObject *panel_hide(PyObject *self, PyObject *none) {
    (void)none;
    return nothing(curspan_hide_panel(HANDLE(self), NUMBER(self)));
}

static PyObject *panel_top(PyObject *self, PyObject *none) {
    (void)none;
    return nothing(curspan_top_panel(HANDLE(self), NUMBER(self)));
}

static PyObject *panel_bottom(PyObject *self, PyObject *none) {
    (void)none;
    return nothing(curspan_bottom_panel(HANDLE(self), NUMBER(self)));
}

static PyObject *panel_move(PyObject *self, PyObject *const *given, Py_ssize_t count, PyObject *names) {
    static const Parameters parameters = {"move", 2, 2, {"y", "x"}};
    PyObject *room[2];
    uint32_t y, x;
    if (!(given = in_order(&parameters, given, count, names, room))) return NULL;
    if (!curspan_take_number(given[0], &y) || !curspan_take_number(given[1], &x)) return NULL;
    return nothing(curspan_move_panel(HANDLE(self), NUMBER(self), y, x));
}

static PyObject *panel_replace(PyObject *self, PyObject *const *given, Py_ssize_t count, PyObject *names) {
    static const Parameters parameters = {"replace", 1, 1, {"win"}};
    PyObject *room[1];
    uint32_t win;
    if (!(given = in_order(&parameters, given, count, names, room))) return NULL;
    if (!curspan_take_window(given[0], NUMBERED(self)->screen, &win)) return NULL;
    return nothing(curspan_replace_panel(HANDLE(self), NUMBER(self), win));
}

static PyObject *panel_above(PyObject *self, PyObject *none) {
    (void)none;
    return curspan_found_panel(NUMBERED(self)->screen, curspan_panel_above(HANDLE(self), NUMBER(self)));
}

static PyObject *panel_below(PyObject *self, PyObject *none) {
    (void)none;
    return curspan_found_panel(NUMBERED(self)->screen, curspan_panel_below(HANDLE(self), NUMBER(self)));
}

static PyObject *panel_window(PyObject *self, PyObject *none) {
    (void)none;
    return curspan_found_window(NUMBERED(self)->screen, curspan_panel_window(HANDLE(self), NUMBER(self)));
}

static PyObject *panel_hidden(PyObject *self, PyObject *none) {
    (void)none;
    return flag(curspan_panel_hidden(HANDLE(self), NUMBER(self)));
}

static PyObject *screen_update_panels(PyObject *self, PyObject *none) {
    (void)none;
    return number(curspan_update_panels(&SCREEN(self)->handle));
}

PyMethodDef curspan_screen_methods[] = {
    {"newwin", AS_FUNCTION(screen_newwin), METH_FASTCALL | METH_KEYWORDS,
     "newwin($self, lines=0, columns=0, y=0, x=0)\n"
     "--\n"
     "\n"
     "Makes a window at a place of the screen, with a blank grid of its own. A size of 0 reaches to the\n"
     "edge of the screen. Refused: OffScreen, TooMany, NoMemory."},
    {"newpad", AS_FUNCTION(screen_newpad), METH_FASTCALL | METH_KEYWORDS,
     "newpad($self, lines, columns)\n"
     "--\n"
     "\n"
     "Makes a pad of 1 to 1000 lines and columns, which has no place on the screen, with a blank grid of\n"
     "its own. Refused: BadSize, TooMany, NoMemory."},
    {"update_panels", AS_FUNCTION(screen_update_panels), METH_NOARGS,
     "update_panels($self)\n"
     "--\n"
     "\n"
     "Takes the picture of windows and panels into the virtual screen, with the cursor of the top visible\n"
     "panel's window, or else of the standard screen. It answers how many cells it read."},
    {"doupdate", AS_FUNCTION(curspan_screen_doupdate), METH_NOARGS,
     "doupdate($self)\n"
     "--\n"
     "\n"
     "Sends the bytes that show the virtual screen on the terminal, to the file if there is one: little\n"
     "more than what changed, or all of it after a clear. It answers how many they are."},
    {"init_pair", AS_FUNCTION(curspan_screen_init_pair), METH_FASTCALL | METH_KEYWORDS,
     "init_pair($self, pair, foreground, background)\n"
     "--\n"
     "\n"
     "Gives a colour pair a foreground and a background: 0 black, 1 red, 2 green, 3 yellow, 4 blue, 5\n"
     "magenta, 6 cyan, 7 white. What was written in the pair changes in the next picture. Refused: BadPair\n"
     "for pair 0, for one past 63, and for a colour past 7."},
    OTHER_METHODS_OF_SCREENS
    {NULL, NULL, 0, NULL},
};

PyMethodDef curspan_panel_methods[] = {
    {"delete", AS_FUNCTION(curspan_panel_delete), METH_NOARGS,
     "delete($self)\n"
     "--\n"
     "\n"
     "Deletes a panel. Its window stays, and is in no panel any more. Refused: NoSuchPanel."},
    {"show", AS_FUNCTION(panel_show), METH_NOARGS,
     "show($self)\n"
     "--\n"
     "\n"
     "Puts a panel on top, whether it was hidden or visible. Refused: NoSuchPanel."},
    {"hide", AS_FUNCTION(panel_hide), METH_NOARGS,
     "hide($self)\n"
     "--\n"
     "\n"
     "Takes a visible panel out of the order. Refused: NoSuchPanel, Hidden."},
    {"top", AS_FUNCTION(panel_top), METH_NOARGS,
     "top($self)\n"
     "--\n"
     "\n"
     "Moves a visible panel to the top. Refused: NoSuchPanel, Hidden."},
    {"bottom", AS_FUNCTION(panel_bottom), METH_NOARGS,
     "bottom($self)\n"
     "--\n"
     "\n"
     "Moves a visible panel to the bottom. Refused: NoSuchPanel, Hidden."},
    {"move", AS_FUNCTION(panel_move), METH_FASTCALL | METH_KEYWORDS,
     "move($self, y, x)\n"
     "--\n"
     "\n"
     "Moves the window of a panel, visible or hidden, to a place of the screen. Refused: NoSuchPanel,\n"
     "OffScreen."},
    {"replace", AS_FUNCTION(panel_replace), METH_FASTCALL | METH_KEYWORDS,
     "replace($self, win)\n"
     "--\n"
     "\n"
     "Gives a panel another window. The panel keeps its depth, or stays hidden. Refused: NoSuchPanel,\n"
     "NoSuchWindow, StandardScreen, IsPad, InPanel."},
    {"above", AS_FUNCTION(panel_above), METH_NOARGS,
     "above($self)\n"
     "--\n"
     "\n"
     "The panel right above a visible one, or None. Refused: NoSuchPanel, Hidden."},
    {"below", AS_FUNCTION(panel_below), METH_NOARGS,
     "below($self)\n"
     "--\n"
     "\n"
     "The panel right below a visible one, or None. Refused: NoSuchPanel, Hidden."},
    {"window", AS_FUNCTION(panel_window), METH_NOARGS,
     "window($self)\n"
     "--\n"
     "\n"
     "The window of a panel. Refused: NoSuchPanel."},
    {"hidden", AS_FUNCTION(panel_hidden), METH_NOARGS,
     "hidden($self)\n"
     "--\n"
     "\n"
     "Whether a panel is hidden. Refused: NoSuchPanel."},
    OTHER_METHODS_OF_PANELS
    {NULL, NULL, 0, NULL},
};

/* Screens: what opens and closes them, what they have, and what is shown of them. */
#include "inside.h"

#include <string.h>

bool curspan_is_closed(const Screen *screen) { return curspan_getmaxyx(&screen->handle, 0).status == CURSPAN_CLOSED; }

static int clear(PyObject *self) {
    Py_CLEAR(SCREEN(self)->file);
    Py_CLEAR(SCREEN(self)->terminal);
    return 0;
}

static PyObject *make(PyTypeObject *type, PyObject *arguments, PyObject *names) {
    static char *words[] = {"lines", "columns", "file", "errors", NULL};
    PyObject *lines, *columns, *file = Py_None;
    const char *errors = "strict";
    if (!PyArg_ParseTupleAndKeywords(arguments, names, "OO|O$s:Screen", words, &lines, &columns, &file, &errors)) return NULL;
    bool replaces = strcmp(errors, "replace") == 0;
    if (!replaces && strcmp(errors, "strict") != 0) {
        PyErr_Format(PyExc_ValueError, "errors is 'strict' or 'replace', and not '%s'", errors);
        return NULL;
    }
    Screen *screen = SCREEN(PyType_GenericAlloc(type, 0));
    if (!screen) return NULL;
    screen->replaces = replaces;
    memset(screen->colours, DEFAULT_COLOUR, sizeof screen->colours);
    if (!curspan_take_number(lines, &screen->lines) || !curspan_take_number(columns, &screen->columns) || !curspan_set_file(screen, file)) {
        Py_DECREF(screen);
        return NULL;
    }
    curspan_answer answer = curspan_open(&screen->handle, screen->lines, screen->columns);
    if (answer.status == CURSPAN_OK) return (PyObject *)screen;
    Py_DECREF(screen);
    return curspan_refuse(answer.status);
}

static void free_screen(PyObject *self) {
    PyTypeObject *type = Py_TYPE(self);
    PyObject_GC_UnTrack(self);
    clear(self);
    curspan_close(&SCREEN(self)->handle);
    PyMem_Free(SCREEN(self)->windows.at);
    PyMem_Free(SCREEN(self)->panels.at);
    PyObject_GC_Del(self);
    Py_DECREF(type);
}

static int visit(PyObject *self, visitproc visit, void *arg) {
    Py_VISIT(Py_TYPE(self));
    Py_VISIT(SCREEN(self)->file);
    Py_VISIT(SCREEN(self)->terminal);
    return 0;
}

static PyObject *represent(PyObject *self) {
    if (curspan_is_closed(SCREEN(self))) return PyUnicode_FromString("<curspan.Screen, closed>");
    return PyUnicode_FromFormat("<curspan.Screen, %u by %u>", SCREEN(self)->lines, SCREEN(self)->columns);
}

PyObject *curspan_screen_close(PyObject *self, PyObject *none) {
    (void)none;
    curspan_close(&SCREEN(self)->handle);
    Py_RETURN_NONE;
}

PyObject *curspan_screen_enter(PyObject *self, PyObject *none) {
    return curspan_is_closed(SCREEN(self)) ? curspan_refuse(CURSPAN_CLOSED) : curspan_itself(self, none);
}

PyObject *curspan_screen_exit(PyObject *self, PyObject *arguments) {
    (void)arguments;
    curspan_close(&SCREEN(self)->handle);
    Py_RETURN_FALSE;
}

PyObject *curspan_screen_invalidate(PyObject *self, PyObject *none) {
    (void)none;
    if (curspan_is_closed(SCREEN(self))) return curspan_refuse(CURSPAN_CLOSED);
    curspan_invalidate(&SCREEN(self)->handle);
    Py_RETURN_NONE;
}

/* The colours of a pair are kept for the text of a screen. */
PyObject *curspan_screen_init_pair(PyObject *self, PyObject *const *given, Py_ssize_t count, PyObject *names) {
    static const Parameters parameters = {"init_pair", 3, 3, {"pair", "foreground", "background"}};
    PyObject *room[3];
    uint32_t pair;
    int foreground, background;
    Screen *screen = SCREEN(self);
    if (!(given = in_order(&parameters, given, count, names, room))) return NULL;
    if (!curspan_take_number(given[0], &pair) || !curspan_take_colour(given[1], screen, &foreground) || !curspan_take_colour(given[2], screen, &background)) return NULL;
    PyObject *answer = screen->terminal ? curspan_give_pair(screen->terminal, screen, pair, foreground, background)
                                        : nothing(curspan_init_pair(&screen->handle, pair, (uint32_t)foreground, (uint32_t)background));
    if (answer) {
        screen->colours[pair][0] = (int8_t)(foreground < 0 ? DEFAULT_COLOUR : foreground);
        screen->colours[pair][1] = (int8_t)(background < 0 ? DEFAULT_COLOUR : background);
    }
    return answer;
}

PyObject *curspan_screen_bottom_panel(PyObject *self, PyObject *none) {
    (void)none;
    return curspan_found_panel(SCREEN(self), curspan_panel_above(&SCREEN(self)->handle, 0));
}

PyObject *curspan_screen_top_panel(PyObject *self, PyObject *none) {
    (void)none;
    return curspan_found_panel(SCREEN(self), curspan_panel_below(&SCREEN(self)->handle, 0));
}

/* The cells of a line of the virtual screen: their count, or -1 with an exception. */
static int read_row(Screen *screen, PyObject *y, uint32_t *cells) {
    uint32_t line;
    if (!curspan_take_number(y, &line)) return -1;
    curspan_answer answer = curspan_shown_row(&screen->handle, line, cells, CURSPAN_LARGEST_SCREEN);
    for (uint32_t x = 0; screen->terminal && x < answer.first; x++) {
        uint32_t foreground = CURSPAN_FOREGROUND(cells[x]), own = foreground > 7 ? 0 : 8 * foreground + CURSPAN_BACKGROUND(cells[x]);
        cells[x] = (cells[x] & 0xffff) | (uint32_t)screen->colours[own][0] << 16 | (uint32_t)screen->colours[own][1] << 24;
    }
    if (answer.status == CURSPAN_OK) return (int)answer.first;
    curspan_refuse(answer.status);
    return -1;
}

PyObject *curspan_screen_row(PyObject *self, PyObject *y) {
    uint32_t cells[CURSPAN_LARGEST_SCREEN];
    int count = read_row(SCREEN(self), y, cells);
    return count < 0 ? NULL : curspan_list_of_cells(cells, (uint32_t)count, curspan_shown);
}

PyObject *curspan_screen_line(PyObject *self, PyObject *y) {
    uint32_t cells[CURSPAN_LARGEST_SCREEN];
    int count = read_row(SCREEN(self), y, cells);
    return count < 0 ? NULL : curspan_characters(cells, (uint32_t)count);
}

/* Goes through the lines of the virtual screen. */
static PyObject *iterate(PyObject *self) {
    return curspan_is_closed(SCREEN(self)) ? curspan_refuse(CURSPAN_CLOSED) : curspan_iterate_lines(self, SCREEN(self)->lines, curspan_screen_line);
}

/* A list of what follows one another in a screen, each by the number before it, from some number on. */
static PyObject *list_of(Screen *screen, uint32_t number, curspan_answer (*next)(const curspan *, uint32_t), PyObject *(*object)(Screen *, curspan_answer)) {
    PyObject *list = PyList_New(0);
    for (;;) {
        curspan_answer answer = next(&screen->handle, number);
        if (list && answer.status == CURSPAN_OK && answer.first == 0) return list;
        PyObject *item = list ? object(screen, answer) : NULL;
        if (!item || PyList_Append(list, item) < 0) {
            Py_XDECREF(item);
            Py_XDECREF(list);
            return NULL;
        }
        Py_DECREF(item);
        number = answer.first;
    }
}

static PyObject *get_windows(PyObject *self, void *closure) {
    (void)closure;
    PyObject *standard = curspan_found_window(SCREEN(self), (curspan_answer){curspan_getmaxyx(&SCREEN(self)->handle, 0).status, 0, 0});
    PyObject *list = standard ? list_of(SCREEN(self), 0, curspan_next_window, curspan_found_window) : NULL;
    if (list && PyList_Insert(list, 0, standard) < 0) Py_CLEAR(list);
    Py_XDECREF(standard);
    return list;
}

static PyObject *get_panels(PyObject *self, void *closure) {
    (void)closure;
    return list_of(SCREEN(self), 0, curspan_next_panel, curspan_found_panel);
}

static PyObject *get_stack(PyObject *self, void *closure) {
    (void)closure;
    return list_of(SCREEN(self), 0, curspan_panel_above, curspan_found_panel);
}

static PyObject *get_stdscr(PyObject *self, void *closure) {
    (void)closure;
    return curspan_window(SCREEN(self), 0);
}

static PyObject *get_closed(PyObject *self, void *closure) {
    (void)closure;
    return PyBool_FromLong(curspan_is_closed(SCREEN(self)));
}

static PyObject *get_file(PyObject *self, void *closure) {
    (void)closure;
    PyObject *file = SCREEN(self)->terminal ? SCREEN(self)->terminal : SCREEN(self)->file ? SCREEN(self)->file : Py_None;
    Py_INCREF(file);
    return file;
}

static PyObject *get_lines(PyObject *self, void *closure) {
    (void)closure;
    return PyLong_FromUnsignedLong(SCREEN(self)->lines);
}

static PyObject *get_columns(PyObject *self, void *closure) {
    (void)closure;
    return PyLong_FromUnsignedLong(SCREEN(self)->columns);
}

static PyGetSetDef properties[] = {
    {"lines", get_lines, NULL, "The number of lines.", NULL},
    {"columns", get_columns, NULL, "The number of columns.", NULL},
    {"file", get_file, NULL, "The file to which doupdate writes, or None.", NULL},
    {"closed", get_closed, NULL, "Whether the screen is closed.", NULL},
    {"stdscr", get_stdscr, NULL, "The standard screen: window 0, which covers the screen.", NULL},
    {"windows", get_windows, NULL, "The windows and pads in the order of their numbers, the standard screen first.", NULL},
    {"panels", get_panels, NULL, "The panels, visible or hidden, in the order of their numbers.", NULL},
    {"stack", get_stack, NULL, "The visible panels, from the bottom to the top.", NULL},
    {NULL, NULL, NULL, NULL, NULL},
};

static const char about[] =
    "Screen(lines, columns, file=None, *, errors='strict')\n--\n\n"
    "A blank screen of 1 to 999 lines and columns, with windows, panels and a virtual screen.\n\n"
    "doupdate writes to the file, which is open for bytes, as sys.stdout.buffer. Without a file take() gives the bytes.\n"
    "A text with a character that a window can't have raises BadCharacter, or with errors='replace' is written with another in its place.\n"
    "Its text, str(screen), is the picture of the standard screen and the visible panels, as `curspan paint` prints it.";

static PyType_Slot slots[] = {
    {Py_tp_doc, (void *)about}, {Py_tp_new, make}, {Py_tp_dealloc, free_screen}, {Py_tp_traverse, visit}, {Py_tp_clear, clear},
    {Py_tp_repr, represent}, {Py_tp_str, curspan_picture}, {Py_tp_iter, iterate}, {Py_tp_methods, curspan_screen_methods}, {Py_tp_getset, properties}, {0, NULL},
};

PyType_Spec curspan_screen_spec = {"curspan.Screen", sizeof(Screen), 0, Py_TPFLAGS_DEFAULT | Py_TPFLAGS_HAVE_GC, slots};

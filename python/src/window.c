/* Windows and pads: what they have, their settings, and their lines. */
#include "inside.h"

static void free_window(PyObject *self) { curspan_free_object(self, &NUMBERED(self)->screen->windows); }

static PyObject *represent(PyObject *self) {
    curspan_answer size = curspan_getmaxyx(HANDLE(self), NUMBER(self));
    const char *type = (PyObject *)Py_TYPE(self) == curspan_pad_type ? "Pad" : "Window";
    if (size.status == CURSPAN_CLOSED) return PyUnicode_FromFormat("<curspan.%s, closed>", type);
    if (size.status != CURSPAN_OK) return PyUnicode_FromFormat("<curspan.%s, deleted>", type);
    return PyUnicode_FromFormat("<curspan.%s %u, %u by %u>", type, NUMBER(self), size.first, size.second);
}

PyObject *curspan_window_delete(PyObject *self, PyObject *none) {
    (void)none;
    return curspan_deleted(NUMBERED(self), &NUMBERED(self)->screen->windows, curspan_delwin(HANDLE(self), NUMBER(self)));
}

PyObject *curspan_window_exit(PyObject *self, PyObject *arguments) { return curspan_delete_at_end(self, arguments, curspan_window_delete); }

/* ---- lines */

/* The cells of a line: their count, or -1 with an exception. */
static int read_row(PyObject *self, PyObject *y, uint32_t *cells) {
    uint32_t line;
    if (!curspan_take_number(y, &line)) return -1;
    curspan_answer answer = curspan_row(HANDLE(self), NUMBER(self), line, cells, LARGEST_PAD);
    if (answer.status == CURSPAN_OK) return (int)answer.first;
    curspan_refuse(answer.status);
    return -1;
}

PyObject *curspan_window_row(PyObject *self, PyObject *y) {
    uint32_t cells[LARGEST_PAD];
    int count = read_row(self, y, cells);
    return count < 0 ? NULL : curspan_list_of_cells(cells, (uint32_t)count, curspan_found_cell);
}

PyObject *curspan_window_line(PyObject *self, PyObject *y) {
    uint32_t cells[LARGEST_PAD];
    int count = read_row(self, y, cells);
    return count < 0 ? NULL : curspan_characters(cells, (uint32_t)count);
}

static PyObject *iterate(PyObject *self) {
    curspan_answer size = curspan_getmaxyx(HANDLE(self), NUMBER(self));
    return size.status == CURSPAN_OK ? curspan_iterate_lines(self, size.first, curspan_window_line) : curspan_refuse(size.status);
}

/* ---- what it is, and where it belongs */

static PyObject *get_number(PyObject *self, void *closure) {
    (void)closure;
    curspan_answer answer = curspan_getmaxyx(HANDLE(self), NUMBER(self));
    return number((curspan_answer){answer.status, NUMBER(self), 0});
}

static PyObject *get_screen(PyObject *self, void *closure) {
    (void)closure;
    return curspan_itself((PyObject *)NUMBERED(self)->screen, NULL);
}

static PyObject *get_lines(PyObject *self, void *closure) {
    (void)closure;
    return number(curspan_getmaxyx(HANDLE(self), NUMBER(self)));
}

static PyObject *get_columns(PyObject *self, void *closure) {
    (void)closure;
    curspan_answer size = curspan_getmaxyx(HANDLE(self), NUMBER(self));
    return number((curspan_answer){size.status, size.second, 0});
}

static PyObject *get_parent(PyObject *self, void *closure) {
    (void)closure;
    curspan_answer answer = curspan_wgetparent(HANDLE(self), NUMBER(self));
    if (answer.status == CURSPAN_NOT_DERIVED) Py_RETURN_NONE;
    return curspan_found_window(NUMBERED(self)->screen, answer);
}

static PyObject *get_panel(PyObject *self, void *closure) {
    (void)closure;
    return curspan_found_panel(NUMBERED(self)->screen, curspan_window_panel(HANDLE(self), NUMBER(self)));
}

/* ---- settings */

static bool is_deleted(PyObject *value) {
    if (!value) PyErr_SetString(PyExc_AttributeError, "a setting can't be deleted");
    return !value;
}

static int done(curspan_answer answer) {
    if (answer.status == CURSPAN_OK) return 0;
    curspan_refuse(answer.status);
    return -1;
}

static PyObject *get_attrs(PyObject *self, void *closure) {
    (void)closure;
    curspan_answer answer = curspan_wattr_get(HANDLE(self), NUMBER(self));
    return answer.status == CURSPAN_OK ? curspan_attributes(answer.first) : curspan_refuse(answer.status);
}

static int set_attrs(PyObject *self, PyObject *value, void *closure) {
    (void)closure;
    uint8_t bits;
    if (is_deleted(value) || !curspan_take_attributes(value, &bits)) return -1;
    return done(curspan_wattrset(HANDLE(self), NUMBER(self), bits));
}

static PyObject *get_pair(PyObject *self, void *closure) {
    (void)closure;
    curspan_answer answer = curspan_wattr_get(HANDLE(self), NUMBER(self));
    return number((curspan_answer){answer.status, answer.second, 0});
}

static int set_pair(PyObject *self, PyObject *value, void *closure) {
    (void)closure;
    uint32_t pair;
    if (is_deleted(value) || !curspan_take_number(value, &pair)) return -1;
    return done(curspan_wcolor_set(HANDLE(self), NUMBER(self), pair));
}

static PyObject *get_background(PyObject *self, void *closure) {
    (void)closure;
    curspan_answer answer = curspan_getbkgd(HANDLE(self), NUMBER(self));
    return answer.status == CURSPAN_OK ? curspan_found_cell(answer.first) : curspan_refuse(answer.status);
}

static curspan_answer put_background(PyObject *self, uint32_t cell) {
    curspan_answer answer = curspan_wbkgdset(HANDLE(self), NUMBER(self), CURSPAN_ATTRIBUTES(cell), CURSPAN_CHARACTER(cell));
    return answer.status == CURSPAN_OK ? curspan_wbkgdpair(HANDLE(self), NUMBER(self), CURSPAN_PAIR(cell)) : answer;
}

/* Sets the background to a cell. Where the pair is refused the background stays. */
static int set_background(PyObject *self, PyObject *value, void *closure) {
    (void)closure;
    uint32_t cell;
    if (is_deleted(value) || !curspan_take_cell(value, &cell)) return -1;
    curspan_answer before = curspan_getbkgd(HANDLE(self), NUMBER(self)), answer = put_background(self, cell);
    if (answer.status == CURSPAN_BAD_PAIR) put_background(self, before.first);
    return done(answer);
}

static PyObject *get_region(PyObject *self, void *closure) {
    (void)closure;
    return curspan_two_numbers(curspan_wgetscrreg(HANDLE(self), NUMBER(self)));
}

static int set_region(PyObject *self, PyObject *value, void *closure) {
    (void)closure;
    uint32_t top, bottom;
    if (is_deleted(value)) return -1;
    if (!PyTuple_Check(value) || PyTuple_Size(value) != 2) {
        PyErr_Format(PyExc_TypeError, "a region is a tuple of its first and its last line, and not %R", value);
        return -1;
    }
    if (!curspan_take_number(PyTuple_GetItem(value, 0), &top) || !curspan_take_number(PyTuple_GetItem(value, 1), &bottom)) return -1;
    return done(curspan_wsetscrreg(HANDLE(self), NUMBER(self), top, bottom));
}

/* The two settings that are flags. */
typedef struct Flag {
    curspan_answer (*get)(const curspan *, uint32_t);
    curspan_answer (*set)(curspan *, uint32_t, bool);
} Flag;

static Flag scrolling = {curspan_is_scrollok, curspan_scrollok}, clearing = {curspan_is_cleared, curspan_clearok};

static PyObject *get_flag(PyObject *self, void *setting) { return flag(((Flag *)setting)->get(HANDLE(self), NUMBER(self))); }

static int set_flag(PyObject *self, PyObject *value, void *setting) {
    bool is_on;
    if (is_deleted(value) || !curspan_take_flag(value, &is_on)) return -1;
    return done(((Flag *)setting)->set(HANDLE(self), NUMBER(self), is_on));
}

static PyGetSetDef properties[] = {
    {"screen", get_screen, NULL, "The screen.", NULL},
    {"number", get_number, NULL, "The number that the window or pad has in a script: 0 is the standard screen.", NULL},
    {"lines", get_lines, NULL, "The number of lines.", NULL},
    {"columns", get_columns, NULL, "The number of columns.", NULL},
    {"parent", get_parent, NULL, "The window or pad from which this one derives, or None.", NULL},
    {"panel", get_panel, NULL, "The panel that has the window, or None.", NULL},
    {"attrs", get_attrs, set_attrs, "The attributes that written characters get.", NULL},
    {"pair", get_pair, set_pair, "The colour pair that written characters get.", NULL},
    {"background", get_background, set_background, "The background, a Cell. No cell is written where it is set.", NULL},
    {"region", get_region, set_region, "The first and the last line of the scroll region.", NULL},
    {"scrolling", get_flag, set_flag, "Whether the window scrolls where the cursor leaves the last line of its region.", &scrolling},
    {"clearing", get_flag, set_flag, "Whether the window asks for a clear screen where it is next taken into the virtual screen.", &clearing},
    {NULL, NULL, NULL, NULL, NULL},
};

static const char about_windows[] =
    "A window of a screen: a rectangle of cells with a cursor and settings, which Screen.newwin, derwin and subwin make.\n\n"
    "Going through it gives its lines as texts. At the end of `with` it is deleted. Once it is, each call is refused as NoSuchWindow.";
static const char about_pads[] = "A pad: a window that has no place on the screen, which Screen.newpad and subpad make.";

static PyType_Slot slots[] = {
    {Py_tp_doc, (void *)about_windows}, {Py_tp_new, curspan_no_constructor}, {Py_tp_dealloc, free_window}, {Py_tp_traverse, curspan_visit_object},
    {Py_tp_repr, represent}, {Py_tp_iter, iterate}, {Py_tp_methods, curspan_window_methods}, {Py_tp_getset, properties}, {0, NULL},
};

PyType_Spec curspan_window_spec = {"curspan.Window", sizeof(Numbered), 0, Py_TPFLAGS_DEFAULT | Py_TPFLAGS_HAVE_GC | Py_TPFLAGS_BASETYPE, slots};

static PyType_Slot pad_slots[] = {
    {Py_tp_doc, (void *)about_pads}, {Py_tp_new, curspan_no_constructor}, {Py_tp_dealloc, free_window}, {Py_tp_traverse, curspan_visit_object}, {Py_tp_methods, curspan_pad_methods}, {0, NULL},
};

PyType_Spec curspan_pad_spec = {"curspan.Pad", sizeof(Numbered), 0, Py_TPFLAGS_DEFAULT | Py_TPFLAGS_HAVE_GC, pad_slots};

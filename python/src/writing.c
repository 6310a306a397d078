/* The methods that may be given a place first, as those of Python's curses: addch, addstr, insch, delch and inch. */
#include "inside.h"

#include <string.h>

/* What a method that writes was given: ([y, x,] what, attrs=None, *, pair=None, y=None, x=None). */
typedef struct Written {
    PyObject *y, *x, *what, *attrs, *pair;
} Written;

/* Puts an argument that has a name in its place. */
static bool put_named(const char *method, PyObject *name, PyObject *object, Written *written) {
    static const char *const words[] = {"attrs", "pair", "y", "x"};
    PyObject **places[] = {&written->attrs, &written->pair, &written->y, &written->x};
    for (int i = 0; i < 4; i++) {
        if (PyUnicode_CompareWithASCIIString(name, words[i]) != 0) continue;
        if (*places[i]) PyErr_Format(PyExc_TypeError, "%s() got multiple values for argument '%s'", method, words[i]);
        *places[i] = object;
        return !PyErr_Occurred();
    }
    PyErr_Format(PyExc_TypeError, "%s() got an unexpected keyword argument %R", method, name);
    return false;
}

static bool sort(const char *method, PyObject *const *given, Py_ssize_t count, PyObject *names, Written *written) {
    Py_ssize_t first = count > 2 ? 2 : 0;
    if (count < 1 || count > 4) {
        PyErr_Format(PyExc_TypeError, "%s() takes a line and a column, if any, then what is written, and attributes, if any (%zd arguments given)", method, count);
        return false;
    }
    *written = (Written){first ? given[0] : NULL, first ? given[1] : NULL, given[first], count > first + 1 ? given[first + 1] : NULL, NULL};
    for (Py_ssize_t i = 0; names && i < PyTuple_Size(names); i++)
        if (!put_named(method, PyTuple_GetItem(names, i), given[count + i], written)) return false;
    written->attrs = unless_none(written->attrs);
    written->pair = unless_none(written->pair);
    if (!written->y == !written->x) return true;
    PyErr_Format(PyExc_TypeError, "%s() takes a line and a column, or neither", method);
    return false;
}

/* Whether a window can have a character of a text. */
static bool is_written(uint32_t ch) { return (ch >= ' ' && ch < 127) || ch == '\b' || ch == '\n' || ch == '\r'; }

/* Raises what a call that writes was refused for: where that is a character, with it and its place. */
static PyObject *refuse(curspan_answer answer, PyObject *what) {
    char message[120];
    Py_ssize_t at = 0, count = PyUnicode_Check(what) ? PyUnicode_GetLength(what) : 0;
    while (at < count && is_written(PyUnicode_ReadChar(what, at))) at++;
    PyObject *character = answer.status == CURSPAN_BAD_CHARACTER && at < count ? PyUnicode_Substring(what, at, at + 1) : NULL;
    if (!character) return PyErr_Occurred() ? NULL : curspan_refuse(answer.status);
    PyOS_snprintf(message, sizeof message, "%s: U+%04X, at %zd",
                  curspan_text(answer.status), (unsigned)PyUnicode_ReadChar(what, at), at);
    curspan_refuse_character(message, character, at);
    Py_DECREF(character);
    return NULL;
}

/* Puts other characters in the place of those that a window can't have, in a text that goes when `room` does. */
static bool replace(const Screen *screen, const char **text, size_t *length, PyObject **room) {
    if (!screen->replaces) return true;
    *room = PyBytes_FromStringAndSize(*text, (Py_ssize_t)*length);
    if (!*room) return false;
    *length = curspan_plain_text(*text, *length, PyBytes_AsString(*room));
    *text = PyBytes_AsString(*room);
    return true;
}

/* What is written, a character or a text, and the call. */
typedef struct Stroke {
    curspan_answer (*character)(curspan *, uint32_t, uint32_t);
    uint32_t ch;
    const char *text;
    size_t length;
} Stroke;

static curspan_answer make(PyObject *self, const Stroke *stroke) {
    if (stroke->character) return stroke->character(HANDLE(self), NUMBER(self), stroke->ch);
    return curspan_waddstr(HANDLE(self), NUMBER(self), stroke->text, stroke->length);
}

/* Writes with attributes and a pair of its own, if they are given. The window's are as before then. */
static curspan_answer make_in(PyObject *self, const Written *written, uint8_t bits, uint32_t pair, const Stroke *stroke) {
    curspan *handle = HANDLE(self);
    uint32_t win = NUMBER(self);
    curspan_answer before = curspan_wattr_get(handle, win), answer = before;
    if (answer.status == CURSPAN_OK && written->pair) answer = curspan_wcolor_set(handle, win, pair);
    if (answer.status != CURSPAN_OK) return answer;
    if (written->attrs) curspan_wattrset(handle, win, bits);
    answer = make(self, stroke);
    if (written->attrs) curspan_wattrset(handle, win, (uint8_t)before.first);
    if (written->pair) curspan_wcolor_set(handle, win, before.second);
    return answer;
}

/* Writes at the cursor, or at a place. Where that is refused the cursor stays. */
static PyObject *write_at(PyObject *self, const Written *written, const Stroke *stroke) {
    uint32_t y, x, pair = 0;
    uint8_t bits = 0;
    bool is_plain = !written->attrs && !written->pair;
    curspan_answer before = {0}, answer;
    if (!curspan_take_number(written->y, &y) || !curspan_take_number(written->x, &x)) return NULL;
    if (!curspan_take_attributes(written->attrs, &bits) || !curspan_take_number(written->pair, &pair)) return NULL;
    if (written->y) {
        before = curspan_getyx(HANDLE(self), NUMBER(self));
        answer = curspan_wmove(HANDLE(self), NUMBER(self), y, x);
        if (answer.status != CURSPAN_OK) return curspan_refuse(answer.status);
    }
    answer = is_plain ? make(self, stroke) : make_in(self, written, bits, pair, stroke);
    if (answer.status != CURSPAN_OK && written->y) curspan_wmove(HANDLE(self), NUMBER(self), before.first, before.second);
    if (answer.status != CURSPAN_OK) return refuse(answer, written->what);
    Py_RETURN_NONE;
}

PyObject *curspan_window_addstr(PyObject *self, PyObject *const *given, Py_ssize_t count, PyObject *names) {
    Written written;
    Stroke stroke = {0};
    PyObject *room = NULL;
    if (!sort("addstr", given, count, names, &written) || !curspan_take_text(written.what, &stroke.text, &stroke.length)) return NULL;
    if (!replace(NUMBERED(self)->screen, &stroke.text, &stroke.length, &room)) return NULL;
    PyObject *answer = write_at(self, &written, &stroke);
    Py_XDECREF(room);
    return answer;
}

static PyObject *write_character(PyObject *self, const char *method, PyObject *const *given, Py_ssize_t count, PyObject *names, Stroke stroke) {
    Written written;
    PyObject *room = NULL;
    const char *text;
    size_t length;
    if (!sort(method, given, count, names, &written) || !curspan_take_character(written.what, &stroke.ch)) return NULL;
    if (stroke.ch > 127 && PyUnicode_Check(written.what)) {
        if (!curspan_take_text(written.what, &text, &length) || !replace(NUMBERED(self)->screen, &text, &length, &room)) return NULL;
        if (room) stroke.ch = length > 0 ? (uint8_t)*text : '?';
        Py_XDECREF(room);
    }
    return write_at(self, &written, &stroke);
}

PyObject *curspan_window_addch(PyObject *self, PyObject *const *given, Py_ssize_t count, PyObject *names) {
    return write_character(self, "addch", given, count, names, (Stroke){.character = curspan_waddch});
}

PyObject *curspan_window_insch(PyObject *self, PyObject *const *given, Py_ssize_t count, PyObject *names) {
    return write_character(self, "insch", given, count, names, (Stroke){.character = curspan_winsch});
}

/* Sorts (y=None, x=None), of which both are given, or none. */
static bool sort_place(const char *method, PyObject *const *given, Py_ssize_t count, PyObject *names, PyObject **place) {
    const Parameters parameters = {method, 0, 2, {"y", "x"}};
    if (!curspan_put_in_order(&parameters, given, count, names, place)) return false;
    if (!place[0] == !place[1]) return true;
    PyErr_Format(PyExc_TypeError, "%s() takes a line and a column, or neither", method);
    return false;
}

PyObject *curspan_window_delch(PyObject *self, PyObject *const *given, Py_ssize_t count, PyObject *names) {
    PyObject *place[2];
    uint32_t y, x;
    if (!sort_place("delch", given, count, names, place) || !curspan_take_number(place[0], &y) || !curspan_take_number(place[1], &x)) return NULL;
    if (place[0]) {
        curspan_answer answer = curspan_wmove(HANDLE(self), NUMBER(self), y, x);
        if (answer.status != CURSPAN_OK) return curspan_refuse(answer.status);
    }
    return nothing(curspan_wdelch(HANDLE(self), NUMBER(self)));
}

/* The cell at a place, of its line. The cursor stays. */
static curspan_answer cell_at(PyObject *self, uint32_t y, uint32_t x) {
    uint32_t cells[LARGEST_PAD];
    curspan_answer answer = curspan_row(HANDLE(self), NUMBER(self), y, cells, x < LARGEST_PAD ? x + 1 : 0);
    if (answer.status != CURSPAN_OK) return answer;
    return x < answer.first ? (curspan_answer){CURSPAN_OK, cells[x], 0} : (curspan_answer){CURSPAN_OUTSIDE_WINDOW, 0, 0};
}

PyObject *curspan_window_inch(PyObject *self, PyObject *const *given, Py_ssize_t count, PyObject *names) {
    PyObject *place[2];
    uint32_t y, x;
    if (!sort_place("inch", given, count, names, place) || !curspan_take_number(place[0], &y) || !curspan_take_number(place[1], &x)) return NULL;
    curspan_answer answer = place[0] ? cell_at(self, y, x) : curspan_winch(HANDLE(self), NUMBER(self));
    return answer.status == CURSPAN_OK ? curspan_found_cell(answer.first) : curspan_refuse(answer.status);
}

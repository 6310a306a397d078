/* What methods are given: arguments by place and by name, and the types that they have in C. */
#include "inside.h"

#include <string.h>

/* The place of a parameter by its name, or -1. */
static Py_ssize_t place_of(const Parameters *parameters, PyObject *name) {
    for (Py_ssize_t i = 0; i < parameters->most; i++)
        if (PyUnicode_CompareWithASCIIString(name, parameters->names[i]) == 0) return i;
    return -1;
}

/* Puts an argument that has a name in its place. */
static bool put_named(const Parameters *parameters, PyObject *name, PyObject *object, PyObject **room) {
    Py_ssize_t place = place_of(parameters, name);
    if (place < 0) {
        PyErr_Format(PyExc_TypeError, "%s() got an unexpected keyword argument %R", parameters->method, name);
        return false;
    }
    if (room[place]) {
        PyErr_Format(PyExc_TypeError, "%s() got multiple values for argument %R", parameters->method, name);
        return false;
    }
    room[place] = object;
    return true;
}

PyObject *const *curspan_put_in_order(const Parameters *parameters, PyObject *const *given, Py_ssize_t count, PyObject *names, PyObject **room) {
    if (count > parameters->most) {
        PyErr_Format(PyExc_TypeError, "%s() takes at most %zd arguments (%zd given)", parameters->method, parameters->most, count);
        return NULL;
    }
    for (Py_ssize_t i = 0; i < parameters->most; i++) room[i] = i < count ? given[i] : NULL;
    for (Py_ssize_t i = 0; names && i < PyTuple_Size(names); i++)
        if (!put_named(parameters, PyTuple_GetItem(names, i), given[count + i], room)) return NULL;
    for (Py_ssize_t i = 0; i < parameters->fewest; i++)
        if (!room[i]) {
            PyErr_Format(PyExc_TypeError, "%s() missing required argument '%s'", parameters->method, parameters->names[i]);
            return NULL;
        }
    return room;
}

/* A whole number of any type that stands for one. */
static bool take_long(PyObject *object, long long *value, int *overflow) {
    if (Py_TYPE(object) == &PyLong_Type) {
        *value = PyLong_AsLongLongAndOverflow(object, overflow);
        return true;
    }
    PyObject *index = PyNumber_Index(object);
    if (!index) return false;
    *value = PyLong_AsLongLongAndOverflow(index, overflow);
    Py_DECREF(index);
    return true;
}

bool curspan_take_number(PyObject *object, uint32_t *number) {
    long long value;
    int overflow;
    if (!object) return true;
    if (!take_long(object, &value, &overflow)) return false;
    *number = overflow || value < 0 || value > NO_NUMBER ? NO_NUMBER : (uint32_t)value;
    return true;
}

/* A colour, or the terminal's own on a screen that one shows. */
bool curspan_take_colour(PyObject *object, const Screen *screen, int *colour) {
    long long value;
    int overflow;
    if (!take_long(object, &value, &overflow)) return false;
    bool is_own = !overflow && (value == -1 || value == DEFAULT_COLOUR);
    if (is_own && !screen->terminal) {
        PyErr_SetString(PyExc_ValueError, "Color.DEFAULT is for screens that a Terminal made: others have no colours of the terminal's own");
        return false;
    }
    *colour = is_own ? -1 : overflow || value < 0 || value > 7 ? 8 : (int)value;
    return true;
}

/* A number of lines that is too great scrolls all of them out, as the greatest does. */
bool curspan_take_signed(PyObject *object, int32_t *number) {
    long long value;
    int overflow;
    if (!object) return true;
    if (!take_long(object, &value, &overflow)) return false;
    if (overflow) value = overflow < 0 ? -INT32_MAX : INT32_MAX;
    *number = value > INT32_MAX ? INT32_MAX : value < -INT32_MAX ? -INT32_MAX : (int32_t)value;
    return true;
}

bool curspan_take_flag(PyObject *object, bool *flag) {
    int is_true = object ? PyObject_IsTrue(object) : *flag;
    *flag = is_true > 0;
    return is_true >= 0;
}

bool curspan_take_text(PyObject *object, const char **text, size_t *length) {
    Py_ssize_t count;
    char *bytes;
    if (PyUnicode_Check(object)) {
        const char *utf8 = PyUnicode_AsUTF8AndSize(object, &count);
        if (utf8) {
            *text = utf8;
            *length = (size_t)count;
            return true;
        }
        if (!PyErr_ExceptionMatches(PyExc_UnicodeEncodeError)) return false;
        /* a surrogate alone is no character that a window can have: a text with the byte 255 is refused */
        PyErr_Clear();
        *text = "\xff";
        *length = 1;
        return true;
    }
    if (!PyBytes_Check(object)) {
        PyErr_Format(PyExc_TypeError, "a text is str or bytes, and not %R", object);
        return false;
    }
    if (PyBytes_AsStringAndSize(object, &bytes, &count) < 0) return false;
    *text = bytes;
    *length = (size_t)count;
    return true;
}

/* A character is a text of one, or its number. */
bool curspan_take_character(PyObject *object, uint32_t *ch) {
    if (!object) return true;
    if (PyUnicode_Check(object) && PyUnicode_GetLength(object) == 1) {
        *ch = PyUnicode_ReadChar(object, 0);
        return true;
    }
    if (PyBytes_Check(object) && PyBytes_Size(object) == 1) {
        *ch = (uint8_t)PyBytes_AsString(object)[0];
        return true;
    }
    if (!PyUnicode_Check(object) && !PyBytes_Check(object)) return curspan_take_number(object, ch);
    PyErr_Format(PyExc_TypeError, "a character is a text of one, and not %R", object);
    return false;
}

/* A window of another screen has no number on this one. */
bool curspan_take_window(PyObject *object, const Screen *screen, uint32_t *number) {
    if (!PyObject_TypeCheck(object, (PyTypeObject *)curspan_window_type)) {
        PyErr_Format(PyExc_TypeError, "a curspan.Window or curspan.Pad is wanted, and not %R", object);
        return false;
    }
    *number = NUMBERED(object)->screen == screen ? NUMBER(object) : NO_NUMBER;
    return true;
}

bool curspan_take_cell(PyObject *object, uint32_t *cell) {
    uint32_t ch = 0, pair = 0;
    uint8_t bits = 0;
    if (!PyTuple_Check(object) || PyTuple_Size(object) != 3) {
        PyErr_Format(PyExc_TypeError, "a cell is a curspan.Cell, and not %R", object);
        return false;
    }
    if (!curspan_take_character(PyTuple_GetItem(object, 0), &ch) || !curspan_take_attributes(PyTuple_GetItem(object, 1), &bits)) return false;
    if (!curspan_take_number(PyTuple_GetItem(object, 2), &pair)) return false;
    *cell = curspan_packed(ch, bits, pair);
    return true;
}

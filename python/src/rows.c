/* Rows of cells as Python's lists and texts. */
#include "inside.h"

PyObject *curspan_list_of_cells(const uint32_t *cells, uint32_t count, PyObject *(*object)(uint32_t)) {
    PyObject *list = PyList_New(count), *item;
    for (uint32_t x = 0; list && x < count; x++) {
        if ((item = object(cells[x]))) PyList_SetItem(list, x, item);
        else Py_CLEAR(list);
    }
    return list;
}

PyObject *curspan_characters(const uint32_t *cells, uint32_t count) {
    char text[LARGEST_PAD];
    for (uint32_t x = 0; x < count; x++) text[x] = (char)CURSPAN_CHARACTER(cells[x]);
    return PyUnicode_FromStringAndSize(text, count);
}

/* Goes through lines, each as a text. They are read at the beginning. */
PyObject *curspan_iterate_lines(PyObject *self, uint32_t lines, PyObject *(*line)(PyObject *, PyObject *)) {
    PyObject *list = PyList_New(lines);
    for (uint32_t y = 0; list && y < lines; y++) {
        PyObject *number = PyLong_FromUnsignedLong(y), *text = number ? line(self, number) : NULL;
        Py_XDECREF(number);
        if (text) PyList_SetItem(list, y, text);
        else Py_CLEAR(list);
    }
    PyObject *iterator = list ? PyObject_GetIter(list) : NULL;
    Py_XDECREF(list);
    return iterator;
}

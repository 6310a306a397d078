/* Cells that are given, and lines and boxes. No method here moves the cursor. */
#include "inside.h"

PyObject *curspan_window_fill(PyObject *self, PyObject *const *given, Py_ssize_t count, PyObject *names) {
    const Parameters parameters = {"fill", 5, 5, {"top", "left", "bottom", "right", "cell"}};
    PyObject *room[5], *const *in = in_order(&parameters, given, count, names, room);
    uint32_t of[4], cell;
    for (int i = 0; i < 4; i++)
        if (!in || !curspan_take_number(in[i], &of[i])) return NULL;
    if (!curspan_take_cell(in[4], &cell)) return NULL;
    return nothing(curspan_fill(HANDLE(self), NUMBER(self), of[0], of[1], of[2], of[3], cell));
}

/* Puts the cells of a list, over a buffer for them. */
static PyObject *put(PyObject *self, uint32_t y, uint32_t x, PyObject *list, uint32_t *cells) {
    Py_ssize_t n = PyList_Size(list);
    for (Py_ssize_t i = 0; i < n; i++)
        if (!curspan_take_cell(PyList_GetItem(list, i), &cells[i])) return NULL;
    return nothing(curspan_put(HANDLE(self), NUMBER(self), y, x, cells, (size_t)n));
}

PyObject *curspan_window_put(PyObject *self, PyObject *const *given, Py_ssize_t count, PyObject *names) {
    const Parameters parameters = {"put", 3, 3, {"y", "x", "cells"}};
    PyObject *room[3], *const *in = in_order(&parameters, given, count, names, room);
    uint32_t y, x;
    if (!in || !curspan_take_number(in[0], &y) || !curspan_take_number(in[1], &x)) return NULL;
    PyObject *list = PySequence_List(in[2]);
    uint32_t *cells = list ? PyMem_Malloc(((size_t)PyList_Size(list) + 1) * sizeof *cells) : NULL;
    PyObject *answer = cells ? put(self, y, x, list, cells) : list ? PyErr_NoMemory() : NULL;
    PyMem_Free(cells);
    Py_XDECREF(list);
    return answer;
}

/* ---- lines and boxes, whose characters get attributes as written ones do */

/* How characters are written: in attributes and a pair of their own, or the window's, with those of the background. */
typedef struct Ink {
    uint8_t bits;
    uint32_t pair, blank;
} Ink;

static bool take_ink(PyObject *self, PyObject *attrs, PyObject *pair, Ink *ink) {
    curspan_answer has = curspan_wattr_get(HANDLE(self), NUMBER(self)), background = curspan_getbkgd(HANDLE(self), NUMBER(self));
    *ink = (Ink){(uint8_t)has.first, has.second, background.first};
    if (!curspan_take_attributes(unless_none(attrs), &ink->bits) || !curspan_take_number(unless_none(pair), &ink->pair)) return false;
    if (has.status != CURSPAN_OK) curspan_refuse(has.status);
    return has.status == CURSPAN_OK;
}

/* The cell that a window writes a character as. A space is the background's character. */
static uint32_t written(const Ink *ink, uint32_t ch) {
    uint32_t text = ch == ' ' ? CURSPAN_CHARACTER(ink->blank) : ch, pair = ink->pair ? ink->pair : CURSPAN_PAIR(ink->blank);
    return curspan_packed(text, ink->bits | CURSPAN_ATTRIBUTES(ink->blank), pair);
}

/* Draws from a place on, or from the cursor, to the right or downwards, as far as the window goes. */
static PyObject *draw(PyObject *self, PyObject *at_y, PyObject *at_x, int32_t n, uint32_t cell, bool down) {
    curspan_answer size = curspan_getmaxyx(HANDLE(self), NUMBER(self)), cursor = curspan_getyx(HANDLE(self), NUMBER(self));
    uint32_t y = cursor.first, x = cursor.second;
    if (!curspan_take_number(at_y, &y) || !curspan_take_number(at_x, &x)) return NULL;
    if (y >= size.first || x >= size.second) return curspan_refuse(CURSPAN_OUTSIDE_WINDOW);
    if (n < 1) Py_RETURN_NONE;
    uint32_t last = down ? size.first - y - 1 : size.second - x - 1;
    if ((uint32_t)n <= last) last = (uint32_t)n - 1;
    return nothing(curspan_fill(HANDLE(self), NUMBER(self), y, x, down ? y + last : y, down ? x : x + last, cell));
}

/* ([y, x, ]ch, n, attrs=None, *, pair=None, y=None, x=None) */
static PyObject *draw_line(PyObject *self, PyObject *const *given, Py_ssize_t count, PyObject *names, bool down) {
    const Parameters parameters = {down ? "vline" : "hline", 2, 6, {"ch", "n", "attrs", "pair", "y", "x"}};
    Py_ssize_t first = count > 3 ? 2 : 0;
    PyObject *room[6];
    Ink ink;
    uint32_t ch;
    int32_t n;
    if (!curspan_put_in_order(&parameters, given + first, count - first, names, room)) return NULL;
    if (first) {
        room[4] = given[0];
        room[5] = given[1];
    }
    if (!room[4] != !room[5]) return PyErr_Format(PyExc_TypeError, "%s() takes a line and a column, or neither", parameters.method);
    if (!curspan_take_character(room[0], &ch) || !curspan_take_signed(room[1], &n) || !take_ink(self, room[2], room[3], &ink)) return NULL;
    return draw(self, room[4], room[5], n, written(&ink, ch), down);
}

PyObject *curspan_window_hline(PyObject *self, PyObject *const *given, Py_ssize_t count, PyObject *names) {
    return draw_line(self, given, count, names, false);
}

PyObject *curspan_window_vline(PyObject *self, PyObject *const *given, Py_ssize_t count, PyObject *names) {
    return draw_line(self, given, count, names, true);
}

/* Draws a border, of characters in the order of curses: left, right, top, bottom, and the corners. All are looked at first. */
static PyObject *draw_border(PyObject *self, const uint32_t characters[8], PyObject *attrs, PyObject *pair) {
    Ink ink;
    if (!take_ink(self, attrs, pair, &ink)) return NULL;
    curspan_answer size = curspan_getmaxyx(HANDLE(self), NUMBER(self)), answer = size;
    uint32_t y = size.first - 1, x = size.second - 1;
    const uint32_t parts[8][4] = {{0, 0, y, 0}, {0, x, y, x}, {0, 0, 0, x}, {y, 0, y, x}, {0, 0, 0, 0}, {0, x, 0, x}, {y, 0, y, 0}, {y, x, y, x}};
    for (int i = 0; i < 8; i++)
        if (characters[i] < ' ' || characters[i] > '~') return curspan_refuse(CURSPAN_BAD_CHARACTER);
    for (int i = 0; i < 8 && answer.status == CURSPAN_OK; i++) {
        const uint32_t *of = parts[i];
        answer = curspan_fill(HANDLE(self), NUMBER(self), of[0], of[1], of[2], of[3], written(&ink, characters[i]));
    }
    return nothing(answer);
}

PyObject *curspan_window_border(PyObject *self, PyObject *const *given, Py_ssize_t count, PyObject *names) {
    const Parameters parameters = {"border", 0, 10, {"ls", "rs", "ts", "bs", "tl", "tr", "bl", "br", "attrs", "pair"}};
    uint32_t characters[8] = {'|', '|', '-', '-', '+', '+', '+', '+'};
    PyObject *room[10], *const *in = in_order(&parameters, given, count, names, room);
    for (int i = 0; i < 8; i++)
        if (!in || !curspan_take_character(in[i], &characters[i])) return NULL;
    return draw_border(self, characters, in[8], in[9]);
}

PyObject *curspan_window_box(PyObject *self, PyObject *const *given, Py_ssize_t count, PyObject *names) {
    const Parameters parameters = {"box", 0, 4, {"vertch", "horch", "attrs", "pair"}};
    uint32_t sides = '|', ends = '-';
    PyObject *room[4], *const *in = in_order(&parameters, given, count, names, room);
    if (!in || !curspan_take_character(in[0], &sides) || !curspan_take_character(in[1], &ends)) return NULL;
    return draw_border(self, (uint32_t[]){sides, sides, ends, ends, '+', '+', '+', '+'}, in[2], in[3]);
}

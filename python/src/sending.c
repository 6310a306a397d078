/* What a screen sends: to its file, or to whoever takes the bytes. */
#include "inside.h"

static bool is_instance(PyObject *object, const char *of_io, bool *answer) {
    PyObject *io = PyImport_ImportModule("io"), *type = io ? PyObject_GetAttrString(io, of_io) : NULL;
    int is_it = type ? PyObject_IsInstance(object, type) : -1;
    Py_XDECREF(type);
    Py_XDECREF(io);
    *answer = is_it > 0;
    return is_it >= 0;
}

/* Sets the file of a screen, if there is one: anything with a `write` that takes bytes. */
bool curspan_set_file(Screen *screen, PyObject *file) {
    bool is_text;
    if (file == Py_None) return true;
    if (!is_instance(file, "TextIOBase", &is_text) || !is_instance(file, "RawIOBase", &screen->file_is_raw)) return false;
    if (is_text) {
        PyErr_Format(PyExc_TypeError, "a file of bytes is wanted, as sys.stdout.buffer, and this one is of text: %R", file);
        return false;
    }
    if (!PyObject_HasAttrString(file, "write")) {
        PyErr_Format(PyExc_TypeError, "a file of bytes is wanted, and this has no write: %R", file);
        return false;
    }
    Py_INCREF(file);
    screen->file = file;
    return true;
}

/* Moves the bytes out that were not taken yet. */
static PyObject *take(Screen *screen) {
    size_t length = curspan_take(&screen->handle, NULL, 0);
    PyObject *bytes = PyBytes_FromStringAndSize(NULL, (Py_ssize_t)length);
    if (bytes) curspan_take(&screen->handle, (uint8_t *)PyBytes_AsString(bytes), length);
    return bytes;
}

PyObject *curspan_screen_take(PyObject *self, PyObject *none) {
    (void)none;
    return curspan_is_closed(SCREEN(self)) ? curspan_refuse(CURSPAN_CLOSED) : take(SCREEN(self));
}

/* How many of some bytes a `write` took, by what it answered, or -1 with an exception. */
static Py_ssize_t count_taken(PyObject *answer, bool is_raw, Py_ssize_t length) {
    if (answer == Py_None && !is_raw) return length;
    if (answer == Py_None) {
        PyErr_SetString(PyExc_BlockingIOError, "the file took nothing: a file that doesn't wait is none for a screen");
        return -1;
    }
    Py_ssize_t count = PyLong_AsSsize_t(answer);
    if (count == -1 && PyErr_Occurred()) return -1;
    if (count > 0 && count <= length) return count;
    PyErr_Format(PyExc_OSError, "the file's write answered %zd of %zd bytes", count, length);
    return -1;
}

/* Writes bytes to a file until it took all, and flushes it. */
static bool write_all(PyObject *file, PyObject *bytes, bool is_raw) {
    Py_ssize_t length = PyBytes_Size(bytes), done = 0;
    while (done < length) {
        PyObject *rest = done ? PyBytes_FromStringAndSize(PyBytes_AsString(bytes) + done, length - done) : bytes;
        PyObject *answer = rest ? PyObject_CallMethod(file, "write", "O", rest) : NULL;
        Py_ssize_t count = answer ? count_taken(answer, is_raw, length - done) : -1;
        Py_XDECREF(answer);
        if (done) Py_XDECREF(rest);
        if (count < 0) return false;
        done += count;
    }
    if (!PyObject_HasAttrString(file, "flush")) return true;
    PyObject *flushed = PyObject_CallMethod(file, "flush", NULL);
    Py_XDECREF(flushed);
    return flushed;
}

/* Writes what was not taken yet to the screen's file or terminal. Where that fails the terminal may show anything. */
static bool send(Screen *screen, bool *is_away) {
    PyObject *file = screen->file, *terminal = screen->terminal, *bytes = take(screen);
    if (!bytes) return false;
    Py_XINCREF(file);
    bool is_sent = terminal ? curspan_draw_on(terminal, bytes, is_away) : PyBytes_Size(bytes) == 0 || write_all(file, bytes, screen->file_is_raw);
    Py_XDECREF(file);
    Py_DECREF(bytes);
    if (!is_sent) curspan_invalidate(&screen->handle);
    return is_sent;
}

/* Where the terminal was given back meanwhile, the update is made again, of all. Where a wait is interrupted, what the
   terminal didn't take is written before the next update. */
PyObject *curspan_screen_doupdate(PyObject *self, PyObject *none) {
    (void)none;
    Screen *screen = SCREEN(self);
    if (screen->terminal && !curspan_wait_for_reader(screen->terminal)) return NULL;
    for (;;) {
        bool is_away = false;
        curspan_answer answer = curspan_doupdate(&screen->handle);
        bool goes_out = answer.status == CURSPAN_OK && (screen->terminal || screen->file);
        bool is_sent = !goes_out || send(screen, &is_away);
        if (is_sent && goes_out && screen->terminal) is_sent = curspan_wait_for_reader(screen->terminal);
        if (is_sent) return number(answer);
        if (!is_away) return NULL;
    }
}

/* Terminals: what takes one and gives it back, its keys, and the screen that it shows. */
#include "inside.h"

#include <errno.h>
#include <math.h>
#include <stddef.h>
#include <string.h>
#include <structmember.h>

typedef struct Terminal {
    PyObject_HEAD
    curspan_terminal handle;
    PyObject *file;      /* what it was opened over, or NULL */
    PyObject *screen;    /* the one that it shows, or NULL */
    PyObject *weak;      /* references to it */
    int waiting;         /* how many threads are within the library */
    char cut[4];         /* the first bytes of a character of a pasted text, whose rest is to come, */
    Py_ssize_t cut_size; /* and how many they are */
} Terminal;

#define TERMINAL(self) ((Terminal *)(self))

/* Milliseconds after which Python's handlers of signals are looked at, where a key is waited for, and where a terminal
   takes no bytes; and after which such a terminal is given up where an exception is on its way. */
enum { SLICE = 250, SHORT_SLICE = 50, PATIENCE = 1000 };

/* Waits in the library while other threads run, which don't close the terminal then. */
#define WAIT(self, call) \
    (self)->waiting++; \
    Py_BEGIN_ALLOW_THREADS \
    call; \
    Py_END_ALLOW_THREADS \
    (self)->waiting--

/* Raises the exception of a status. */
static PyObject *fail(uint32_t status) {
    if (status == CURSPAN_TERMINAL_FAILED) return PyErr_SetFromErrno(PyExc_OSError);
    if (status == CURSPAN_TERMINAL_NO_MEMORY) return PyErr_NoMemory();
    PyErr_SetString(curspan_terminal_error(), curspan_terminal_text(status));
    return NULL;
}

/* Calls a function of the package with the terminal. */
static PyObject *call(const char *name, PyObject *self) {
    PyObject *module = PyImport_ImportModule("curspan._terminals");
    PyObject *answer = module ? PyObject_CallMethod(module, name, "O", self) : NULL;
    Py_XDECREF(module);
    return answer;
}

/* Waits until the terminal has taken what is kept for it, and lets Python's handlers of signals run; where there is
   `patience`, as long as it takes something in so many milliseconds. */
static bool wait_for_reader(Terminal *self, int patience) {
    size_t kept, before = SIZE_MAX;
    int waited = 0;
    uint32_t status = curspan_terminal_flush(&self->handle, 0, &kept);
    while (status == CURSPAN_TERMINAL_OK && kept > 0) {
        waited = kept < before ? 0 : waited + SHORT_SLICE;
        before = kept;
        if (PyErr_CheckSignals() < 0) return false;
        if (patience > 0 && waited >= patience) return true;
        WAIT(self, status = curspan_terminal_flush(&self->handle, SHORT_SLICE, &kept));
    }
    if (status != CURSPAN_TERMINAL_OK) fail(status);
    return status == CURSPAN_TERMINAL_OK;
}

bool curspan_wait_for_reader(PyObject *self) { return wait_for_reader(TERMINAL(self), 0); }

/* What a call answers that writes. */
static PyObject *written(PyObject *self, uint32_t status) {
    if (status != CURSPAN_TERMINAL_OK) return fail(status);
    if (!curspan_wait_for_reader(self)) return NULL;
    Py_RETURN_NONE;
}

/* ---- opening and closing */

/* Opens over a descriptor, an object that has one, or two of them: of keys and for bytes. */
static uint32_t use(Terminal *self, PyObject *file, uint32_t options) {
    bool is_pair = PyTuple_Check(file) && PyTuple_Size(file) == 2;
    int in = PyObject_AsFileDescriptor(is_pair ? PyTuple_GetItem(file, 0) : file);
    int out = in < 0 || !is_pair ? in : PyObject_AsFileDescriptor(PyTuple_GetItem(file, 1));
    if (out < 0) return CURSPAN_TERMINAL_FAILED;
    return curspan_terminal_use(&self->handle, in, out, options);
}

static uint32_t open_path(Terminal *self, PyObject *path, uint32_t options) {
    PyObject *bytes = NULL;
    if (path && !PyUnicode_FSConverter(path, &bytes)) return CURSPAN_TERMINAL_FAILED;
    uint32_t status = curspan_terminal_open(&self->handle, bytes ? PyBytes_AsString(bytes) : NULL, options);
    Py_XDECREF(bytes);
    return status;
}

static PyObject *make(PyTypeObject *type, PyObject *arguments, PyObject *names) {
    static char *words[] = {"file", "raw", "page", "cursor", "paste", "signals", NULL};
    PyObject *file = Py_None, *signals = Py_None;
    int raw = 0, page = 1, cursor = 0, paste = 1;
    if (!PyArg_ParseTupleAndKeywords(arguments, names, "|O$ppppO:Terminal", words, &file, &raw, &page, &cursor, &paste, &signals)) return NULL;
    int owns = signals == Py_None ? file == Py_None : PyObject_IsTrue(signals);
    Terminal *self = owns < 0 ? NULL : TERMINAL(PyType_GenericAlloc(type, 0));
    if (!self) return NULL;
    uint32_t options = (raw ? CURSPAN_TERMINAL_RAW : 0u) | (page ? CURSPAN_TERMINAL_PAGE : 0u) | (cursor ? 0u : CURSPAN_TERMINAL_HIDE_CURSOR) |
                       (paste ? CURSPAN_TERMINAL_PASTE : 0u) | (owns ? CURSPAN_TERMINAL_SIGNALS : 0u) |
                       CURSPAN_TERMINAL_KEEP;
    bool is_path = file == Py_None || PyUnicode_Check(file) || PyBytes_Check(file) || PyObject_HasAttrString(file, "__fspath__");
    uint32_t status = is_path ? open_path(self, unless_none(file), options) : use(self, file, options);
    if (status == CURSPAN_TERMINAL_OK) {
        Py_INCREF(file);
        self->file = file;
        PyObject *noted = call("note", (PyObject *)self);
        Py_XDECREF(noted);
        if (noted) return (PyObject *)self;
    }
    if (!PyErr_Occurred()) fail(status);
    Py_DECREF(self);
    return NULL;
}

static int clear(PyObject *self) {
    Py_CLEAR(TERMINAL(self)->screen);
    Py_CLEAR(TERMINAL(self)->file);
    return 0;
}

/* Another thread than the one that opened it doesn't wait. */
static void free_terminal(PyObject *self) {
    PyTypeObject *type = Py_TYPE(self);
    curspan_terminal *handle = &TERMINAL(self)->handle;
    size_t kept;
    PyObject_GC_UnTrack(self);
    PyObject_ClearWeakRefs(self);
    if (curspan_terminal_suspend(handle) == CURSPAN_TERMINAL_OK) curspan_terminal_flush(handle, PATIENCE, &kept);
    curspan_terminal_close(handle);
    clear(self);
    PyObject_GC_Del(self);
    Py_DECREF(type);
}

static int visit(PyObject *self, visitproc visit, void *arg) {
    Py_VISIT(Py_TYPE(self));
    Py_VISIT(TERMINAL(self)->screen);
    Py_VISIT(TERMINAL(self)->file);
    return 0;
}

/* The terminal is closed also where waiting for it is interrupted: then it gets its modes back. */
static PyObject *close_within(PyObject *self, int patience) {
    Terminal *it = TERMINAL(self);
    PyObject *type, *value, *trace;
    if (it->waiting > 0) return fail(CURSPAN_TERMINAL_OTHER_THREAD);
    uint32_t status = curspan_terminal_suspend(&it->handle);
    if (status == CURSPAN_TERMINAL_FAILED) fail(status);
    if (status == CURSPAN_TERMINAL_OK) wait_for_reader(it, patience);
    PyErr_Fetch(&type, &value, &trace);
    curspan_terminal_close(&it->handle);
    Py_CLEAR(it->screen);
    PyObject *answer = call("forget", self);
    if (!type) return answer;
    Py_XDECREF(answer);
    PyErr_Restore(type, value, trace);
    return NULL;
}

static PyObject *terminal_close(PyObject *self, PyObject *none) {
    (void)none;
    return close_within(self, 0);
}

static PyObject *terminal_enter(PyObject *self, PyObject *none) {
    if (curspan_terminal_descriptor(&TERMINAL(self)->handle) < 0) return fail(CURSPAN_TERMINAL_CLOSED);
    return curspan_itself(self, none);
}

/* The terminal may be gone where an exception is on its way, which is told then. */
static PyObject *terminal_exit(PyObject *self, PyObject *arguments) {
    bool is_raised = PyTuple_Size(arguments) > 0 && PyTuple_GetItem(arguments, 0) != Py_None;
    PyObject *answer = close_within(self, is_raised ? PATIENCE : 0);
    if (!answer && !is_raised) return NULL;
    if (!answer) PyErr_Clear();
    Py_XDECREF(answer);
    Py_RETURN_FALSE;
}

static PyObject *terminal_suspend(PyObject *self, PyObject *none) {
    (void)none;
    return written(self, curspan_terminal_suspend(&TERMINAL(self)->handle));
}

static PyObject *terminal_resume(PyObject *self, PyObject *none) {
    (void)none;
    return written(self, curspan_terminal_resume(&TERMINAL(self)->handle));
}

static PyObject *terminal_fileno(PyObject *self, PyObject *none) {
    (void)none;
    int descriptor = curspan_terminal_descriptor(&TERMINAL(self)->handle);
    return descriptor < 0 ? fail(CURSPAN_TERMINAL_CLOSED) : PyLong_FromLong(descriptor);
}

static PyObject *terminal_write(PyObject *self, PyObject *bytes) {
    char *text;
    Py_ssize_t length;
    if (PyBytes_AsStringAndSize(bytes, &text, &length) < 0) return NULL;
    PyObject *none = written(self, curspan_terminal_write(&TERMINAL(self)->handle, text, (size_t)length));
    Py_XDECREF(none);
    return none ? PyLong_FromSsize_t(length) : NULL;
}

static PyObject *get_size(PyObject *self, void *closure) {
    int lines, columns;
    (void)closure;
    uint32_t status = curspan_terminal_size(&TERMINAL(self)->handle, &lines, &columns);
    return status == CURSPAN_TERMINAL_OK ? Py_BuildValue("(ii)", lines, columns) : fail(status);
}

static PyObject *get_closed(PyObject *self, void *closure) {
    (void)closure;
    return PyBool_FromLong(curspan_terminal_descriptor(&TERMINAL(self)->handle) < 0);
}

/* ---- keys */

static double now(void) {
    struct timespec time;
    clock_gettime(CLOCK_MONOTONIC, &time);
    return (double)time.tv_sec + (double)time.tv_nsec / 1e9;
}

/* Waits for a key until a time, or without end where there is none, and lets Python's handlers of signals run: but not
   once there is one, whose text goes with the terminal. */
static bool wait_for_key(Terminal *self, bool has_end, double end, curspan_key *key) {
    for (;;) {
        double left = has_end ? (end - now()) * 1000 : SLICE;
        uint32_t status;
        int slice = left < 0 ? 0 : left < SLICE ? (int)(left + 0.999) : SLICE;
        WAIT(self, status = curspan_terminal_key(&self->handle, slice, key));
        if (status != CURSPAN_TERMINAL_OK) {
            fail(status);
            return false;
        }
        if (key->code != CURSPAN_KEY_NONE && key->code != CURSPAN_KEY_INTERRUPTED) return true;
        if (PyErr_CheckSignals() < 0) return false;
        if (key->code == CURSPAN_KEY_NONE && has_end && now() >= end) return true;
    }
}

/* A pasted text, or a part of it. A character that is cut is whole in the next part. */
static PyObject *pasted(Terminal *self, const curspan_key *key) {
    bool is_ended = key->flags & CURSPAN_ENDED;
    Py_ssize_t size = self->cut_size + (Py_ssize_t)key->length, used = size;
    char *bytes = PyMem_Malloc((size_t)size + 1);
    if (!bytes) return PyErr_NoMemory();
    memcpy(bytes, self->cut, (size_t)self->cut_size);
    memcpy(bytes + self->cut_size, key->text, key->length);
    PyObject *text = PyUnicode_DecodeUTF8Stateful(bytes, size, "replace", is_ended ? NULL : &used);
    self->cut_size = size - used;
    memcpy(self->cut, bytes + used, (size_t)self->cut_size);
    PyMem_Free(bytes);
    return text ? curspan_paste(text, is_ended) : NULL;
}

static PyObject *terminal_key(PyObject *self, PyObject *const *given, Py_ssize_t count, PyObject *names) {
    static const Parameters parameters = {"key", 0, 1, {"timeout"}};
    PyObject *room[1];
    curspan_key key;
    if (!(given = in_order(&parameters, given, count, names, room))) return NULL;
    PyObject *timeout = given[0] ? unless_none(given[0]) : NULL;
    double seconds = timeout ? PyFloat_AsDouble(timeout) : 0;
    if (isnan(seconds)) PyErr_SetString(PyExc_ValueError, "the timeout is no number");
    if (PyErr_Occurred() || !wait_for_key(TERMINAL(self), timeout, now() + seconds, &key)) return NULL;
    if (key.code == CURSPAN_KEY_NONE) Py_RETURN_NONE;
    if (key.code == CURSPAN_KEY_EOF) {
        PyErr_SetString(PyExc_EOFError, "the terminal's input has ended");
        return NULL;
    }
    return key.code == CURSPAN_KEY_PASTE ? pasted(TERMINAL(self), &key) : curspan_key_object(&key);
}

/* Keys for `async for`. */
static PyObject *terminal_keys(PyObject *self) { return call("keys", self); }

/* ---- the screen */

/* A screen of the terminal's size has the pairs of the one before, and its standard screen what that one showed. */
static void take_over(Screen *screen, const Screen *before) {
    uint32_t cells[CURSPAN_LARGEST_SCREEN];
    memcpy(screen->colours, before->colours, sizeof screen->colours);
    screen->replaces = before->replaces;
    for (uint32_t own = 1; own < 64; own++) curspan_init_pair(&screen->handle, own, own / 8, own % 8);
    for (uint32_t y = 0; y < screen->lines; y++) {
        curspan_answer answer = curspan_shown_row(&before->handle, y, cells, CURSPAN_LARGEST_SCREEN);
        for (uint32_t x = 0; answer.status == CURSPAN_OK && x < answer.first && x < screen->columns; x++) {
            uint32_t foreground = CURSPAN_FOREGROUND(cells[x]), pair = foreground > 7 ? 0 : 8 * foreground + CURSPAN_BACKGROUND(cells[x]);
            curspan_wmove(&screen->handle, 0, y, x);
            curspan_wattrset(&screen->handle, 0, CURSPAN_ATTRIBUTES(cells[x]));
            curspan_wcolor_set(&screen->handle, 0, pair);
            curspan_waddch(&screen->handle, 0, CURSPAN_CHARACTER(cells[x]));
        }
    }
    curspan_wattrset(&screen->handle, 0, 0);
    curspan_wcolor_set(&screen->handle, 0, 0);
    curspan_wmove(&screen->handle, 0, 0, 0);
    curspan_wnoutrefresh(&screen->handle, 0);
}

static PyObject *terminal_screen(PyObject *self, PyObject *arguments, PyObject *names) {
    static char *words[] = {"errors", NULL};
    const char *errors = "strict";
    Terminal *terminal = TERMINAL(self);
    Screen *before = SCREEN(terminal->screen);
    int lines, columns;
    if (!PyArg_ParseTupleAndKeywords(arguments, names, "|$s:screen", words, &errors)) return NULL;
    uint32_t status = curspan_terminal_size(&terminal->handle, &lines, &columns);
    if (status != CURSPAN_TERMINAL_OK) return fail(status);
    bool is_open = before && !curspan_is_closed(before);
    if (!is_open || before->lines != (uint32_t)lines || before->columns != (uint32_t)columns) {
        PyObject *sizes = Py_BuildValue("(ii)", lines, columns), *how = Py_BuildValue("{ss}", words[0], errors);
        Screen *screen = sizes && how ? SCREEN(PyObject_Call(curspan_screen_type, sizes, how)) : NULL;
        Py_XDECREF(sizes);
        Py_XDECREF(how);
        if (!screen) return NULL;
        Py_INCREF(self);
        screen->terminal = self;
        if (is_open) take_over(screen, before);
        if (before) curspan_close(&before->handle);
        terminal->screen = (PyObject *)screen;
        Py_XDECREF(before);
    }
    Py_INCREF(terminal->screen);
    return terminal->screen;
}

bool curspan_draw_on(PyObject *self, PyObject *bytes, bool *is_away) {
    const uint8_t *first = (const uint8_t *)PyBytes_AsString(bytes);
    uint32_t status = curspan_terminal_draw(&TERMINAL(self)->handle, NULL, first, (size_t)PyBytes_Size(bytes));
    *is_away = status == CURSPAN_TERMINAL_AWAY;
    if (status != CURSPAN_TERMINAL_OK && !*is_away) fail(status);
    return status == CURSPAN_TERMINAL_OK;
}

PyObject *curspan_give_pair(PyObject *self, Screen *screen, uint32_t pair, int foreground, int background) {
    uint32_t status = curspan_terminal_init_pair(&TERMINAL(self)->handle, &screen->handle, pair, foreground, background);
    if (status == CURSPAN_TERMINAL_REFUSED) return curspan_refuse(curspan_is_closed(screen) ? CURSPAN_CLOSED : CURSPAN_BAD_PAIR);
    if (status != CURSPAN_TERMINAL_OK) return fail(status);
    Py_RETURN_NONE;
}

/* ---- the type */

static PyMethodDef methods[] = {
    {"key", AS_FUNCTION(terminal_key), METH_FASTCALL | METH_KEYWORDS,
     "key($self, timeout=None)\n--\n\n"
     "Waits for a Key, or for a Paste, for so many seconds, or without end. None where none came in that time, and 0\n"
     "waits not at all. Raises EOFError where the input has ended."},
    {"screen", AS_FUNCTION(terminal_screen), METH_VARARGS | METH_KEYWORDS,
     "screen($self, *, errors='strict')\n--\n\nThe Screen that the terminal shows. Where the terminal has another size since, it is a new one, whose standard\n"
     "screen has what the one before showed, and that is closed. Of errors see Screen, where it is made."},
    {"write", terminal_write, METH_O,
     "write($self, data, /)\n--\n\nWrites all of some bytes, as they are. Where an exception interrupts that, the\n"
     "rest is written before what comes next."},
    {"fileno", terminal_fileno, METH_NOARGS,
     "fileno($self)\n--\n\nA descriptor to wait for, which is ready to be read where key(0) has something to answer."},
    {"suspend", terminal_suspend, METH_NOARGS, "suspend($self)\n--\n\nGives the terminal back for a while, until resume() or the next doupdate()."},
    {"resume", terminal_resume, METH_NOARGS, "resume($self)\n--\n\nTakes the terminal again."},
    {"close", terminal_close, METH_NOARGS,
     "close($self)\n--\n\nGives the terminal back. Any thread may close it, but while another waits in a call of it."},
    {"__enter__", terminal_enter, METH_NOARGS, NULL},
    {"__exit__", terminal_exit, METH_VARARGS, NULL},
    {NULL, NULL, 0, NULL},
};

static PyGetSetDef properties[] = {
    {"size", get_size, NULL, "The lines and columns.", NULL},
    {"closed", get_closed, NULL, "Whether the terminal is closed.", NULL},
    {NULL, NULL, NULL, NULL, NULL},
};

static PyMemberDef members[] = {
    {"__weaklistoffset__", T_PYSSIZET, offsetof(Terminal, weak), READONLY, NULL},
    {NULL, 0, 0, 0, NULL},
};

static const char about[] =
    "Terminal(file=None, *, raw=False, page=True, cursor=False, paste=True, signals=None)\n--\n\n"
    "A terminal whose keys are read as they are typed, and which shows a screen. `async for` goes through its keys.\n\n"
    "The file is a path, a descriptor or what has one, or two of them, for keys and for bytes; without it /dev/tty. Raw, Ctrl-C and the like are\n"
    "keys. With a page of its own the terminal shows afterwards what it showed before. One terminal may own the signals: it does where no file is\n"
    "given. It is given back by close(), at the end of `with`, at exit, and before a signal ends or stops the program.";

static PyType_Slot slots[] = {
    {Py_tp_doc, (void *)about}, {Py_tp_new, make}, {Py_tp_dealloc, free_terminal}, {Py_tp_traverse, visit}, {Py_tp_clear, clear},
    {Py_tp_methods, methods}, {Py_tp_getset, properties}, {Py_tp_members, members}, {Py_am_aiter, terminal_keys},
    {0, NULL},
};

PyType_Spec curspan_terminal_spec = {"curspan.Terminal", sizeof(Terminal), 0, Py_TPFLAGS_DEFAULT | Py_TPFLAGS_HAVE_GC, slots};

/* What the files of the extension share. It is written for the stable ABI of Python 3.9. */
#ifndef CURSPAN_PYTHON_INSIDE_H
#define CURSPAN_PYTHON_INSIDE_H

#define PY_SSIZE_T_CLEAN
#define Py_LIMITED_API 0x03090000
#include <Python.h>

#include <stdbool.h>

#include "curspan_terminal.h"

/* Python 3.9 has these as 3.10 put them into the stable ABI. */
#ifndef METH_FASTCALL
#define METH_FASTCALL 0x0080
#endif
PyAPI_FUNC(const char *) PyUnicode_AsUTF8AndSize(PyObject *text, Py_ssize_t *length);

/* A number that no window, panel, line, column or pair has: the library refuses it as it refuses each that isn't there. */
#define NO_NUMBER UINT32_MAX

typedef struct Screen Screen;

/* A window or pad, or a panel. A screen has one object at most for each, and its number is NO_NUMBER once it is deleted: so an
   object never stands for what got its number later. */
typedef struct Numbered {
    PyObject_HEAD
    Screen *screen;
    uint32_t number;
} Numbered;

/* The objects of a screen by their numbers, as long as they are in use. The screen doesn't own them. */
typedef struct Objects {
    Numbered **at;
    uint32_t room;
} Objects;

struct Screen {
    PyObject_HEAD
    curspan handle;
    PyObject *file;       /* or NULL */
    PyObject *terminal;   /* that shows it, or NULL */
    bool replaces;        /* characters that a window can't have */
    bool file_is_raw;     /* its `write` may take a part, and None says that it took nothing */
    uint32_t lines, columns;
    Objects windows, panels;
    int8_t colours[64][2]; /* of each pair, as `init_pair` gave them, or DEFAULT_COLOUR */
};

#define DEFAULT_COLOUR 9
#define LARGEST_PAD 1000 /* lines or columns */

#define SCREEN(self) ((Screen *)(self))
#define NUMBERED(self) ((Numbered *)(self))
#define HANDLE(self) (&NUMBERED(self)->screen->handle)
#define NUMBER(self) (NUMBERED(self)->number)

/* A function as a row of a table of methods has it. */
#define AS_FUNCTION(it) (PyCFunction)(void (*)(void))(it)

/* The types of the module, once it is imported. */
extern PyObject *curspan_screen_type, *curspan_window_type, *curspan_pad_type, *curspan_panel_type;
extern PyMethodDef curspan_screen_methods[], curspan_window_methods[], curspan_pad_methods[], curspan_panel_methods[];
extern PyType_Spec curspan_terminal_spec, curspan_screen_spec, curspan_window_spec, curspan_pad_spec, curspan_panel_spec;

/* ---- values.c: values of Python's classes, and refusals */

bool curspan_find_values(void);
PyObject *curspan_refuse(uint32_t status);
PyObject *curspan_refuse_character(const char *message, PyObject *character, Py_ssize_t position);
PyObject *curspan_terminal_error(void);
PyObject *curspan_key_object(const curspan_key *key);
/* Takes the text over. */
PyObject *curspan_paste(PyObject *text, bool is_ended);
PyObject *curspan_attributes(uint32_t bits);
PyObject *curspan_found_cell(uint32_t cell);
PyObject *curspan_shown(uint32_t cell);
PyObject *curspan_two_numbers(curspan_answer answer);

/* ---- arguments.c: what a method is given. Each `take` answers whether the object was of the type, and sets an exception where it
   wasn't. Where an argument is left out, and there is no object, the value stays. */

typedef struct Parameters {
    const char *method;
    Py_ssize_t fewest, most;
    const char *names[10];
} Parameters;

PyObject *const *curspan_put_in_order(const Parameters *parameters, PyObject *const *given, Py_ssize_t count, PyObject *names, PyObject **room);
bool curspan_take_number(PyObject *object, uint32_t *number);
bool curspan_take_colour(PyObject *object, const Screen *screen, int *colour);
bool curspan_take_signed(PyObject *object, int32_t *number);
bool curspan_take_flag(PyObject *object, bool *flag);
bool curspan_take_attributes(PyObject *object, uint8_t *bits);
bool curspan_take_character(PyObject *object, uint32_t *ch);
bool curspan_take_text(PyObject *object, const char **text, size_t *length);
bool curspan_take_window(PyObject *object, const Screen *screen, uint32_t *number);
bool curspan_take_cell(PyObject *object, uint32_t *cell);

/* A cell in which the greatest numbers stand for all that are greater. */
static inline uint32_t curspan_packed(uint32_t ch, uint32_t bits, uint32_t pair) {
    return CURSPAN_CELL(ch > UINT8_MAX ? UINT8_MAX : ch, bits, pair > UINT16_MAX ? UINT16_MAX : pair);
}

static inline PyObject *unless_none(PyObject *object) { return object == Py_None ? NULL : object; }

/* The arguments of a method in the order of its parameters, with NULL for each that is left out. Where all are given in their order,
   that is how they came. */
static inline PyObject *const *in_order(const Parameters *parameters, PyObject *const *given, Py_ssize_t count, PyObject *names, PyObject **room) {
    if (!names && count == parameters->most) return given;
    return curspan_put_in_order(parameters, given, count, names, room);
}

/* ---- objects.c: the objects of windows and panels. What a call made goes again where there is no memory for its object. */

PyObject *curspan_window(Screen *screen, uint32_t number);
PyObject *curspan_found_window(Screen *screen, curspan_answer answer);
PyObject *curspan_found_panel(Screen *screen, curspan_answer answer);
PyObject *curspan_made_window(Screen *screen, curspan_answer answer);
PyObject *curspan_made_pad(Screen *screen, curspan_answer answer);
PyObject *curspan_made_panel(Screen *screen, curspan_answer answer);
PyObject *curspan_deleted(Numbered *self, Objects *objects, curspan_answer answer);
PyObject *curspan_delete_at_end(PyObject *self, PyObject *arguments, PyCFunction delete);
PyObject *curspan_itself(PyObject *self, PyObject *none);
PyObject *curspan_no_constructor(PyTypeObject *type, PyObject *arguments, PyObject *names);
void curspan_free_object(PyObject *self, Objects *objects);
int curspan_visit_object(PyObject *self, visitproc visit, void *arg);

/* ---- rows.c: lines of cells as lists and texts */

PyObject *curspan_list_of_cells(const uint32_t *cells, uint32_t count, PyObject *(*object)(uint32_t));
PyObject *curspan_characters(const uint32_t *cells, uint32_t count);
PyObject *curspan_iterate_lines(PyObject *self, uint32_t lines, PyObject *(*line)(PyObject *, PyObject *));

/* ---- terminal.c */

/* Writes bytes of a screen, with its colours; or none, without an exception, where the terminal was given back meanwhile. */
bool curspan_draw_on(PyObject *terminal, PyObject *bytes, bool *is_away);
/* Waits until the terminal has taken all of them. Other threads run meanwhile, and Python's handlers of signals. */
bool curspan_wait_for_reader(PyObject *terminal);
PyObject *curspan_give_pair(PyObject *terminal, Screen *screen, uint32_t pair, int foreground, int background);

/* ---- the other files: methods that are written by hand, in the order of their tables */

#define NAMED_ARGUMENTS PyObject *self, PyObject *const *given, Py_ssize_t count, PyObject *names

bool curspan_is_closed(const Screen *screen);
bool curspan_set_file(Screen *screen, PyObject *file);
PyObject *curspan_picture(PyObject *self);
PyObject *curspan_screen_init_pair(NAMED_ARGUMENTS);
PyObject *curspan_screen_doupdate(PyObject *self, PyObject *none);
PyObject *curspan_screen_bottom_panel(PyObject *self, PyObject *none);
PyObject *curspan_screen_top_panel(PyObject *self, PyObject *none);
PyObject *curspan_screen_line(PyObject *self, PyObject *y);
PyObject *curspan_screen_row(PyObject *self, PyObject *y);
PyObject *curspan_screen_take(PyObject *self, PyObject *none);
PyObject *curspan_screen_invalidate(PyObject *self, PyObject *none);
PyObject *curspan_screen_close(PyObject *self, PyObject *none);
PyObject *curspan_screen_enter(PyObject *self, PyObject *none);
PyObject *curspan_screen_exit(PyObject *self, PyObject *arguments);
PyObject *curspan_window_addch(NAMED_ARGUMENTS);
PyObject *curspan_window_addstr(NAMED_ARGUMENTS);
PyObject *curspan_window_insch(NAMED_ARGUMENTS);
PyObject *curspan_window_delch(NAMED_ARGUMENTS);
PyObject *curspan_window_inch(NAMED_ARGUMENTS);
PyObject *curspan_window_fill(NAMED_ARGUMENTS);
PyObject *curspan_window_put(NAMED_ARGUMENTS);
PyObject *curspan_window_hline(NAMED_ARGUMENTS);
PyObject *curspan_window_vline(NAMED_ARGUMENTS);
PyObject *curspan_window_box(NAMED_ARGUMENTS);
PyObject *curspan_window_border(NAMED_ARGUMENTS);
PyObject *curspan_window_delete(PyObject *self, PyObject *none);
PyObject *curspan_window_line(PyObject *self, PyObject *y);
PyObject *curspan_window_row(PyObject *self, PyObject *y);
PyObject *curspan_window_exit(PyObject *self, PyObject *arguments);
PyObject *curspan_panel_delete(PyObject *self, PyObject *none);
PyObject *curspan_panel_exit(PyObject *self, PyObject *arguments);

/* ---- what methods answer */

static inline PyObject *nothing(curspan_answer answer) {
    if (answer.status != CURSPAN_OK) return curspan_refuse(answer.status);
    Py_RETURN_NONE;
}

static inline PyObject *flag(curspan_answer answer) {
    return answer.status == CURSPAN_OK ? PyBool_FromLong(answer.first != 0) : curspan_refuse(answer.status);
}

static inline PyObject *number(curspan_answer answer) {
    return answer.status == CURSPAN_OK ? PyLong_FromUnsignedLong(answer.first) : curspan_refuse(answer.status);
}

#endif

/* The objects of windows and panels: one at most for each that a screen has. */
#include "inside.h"

#include <string.h>

PyObject *curspan_screen_type, *curspan_window_type, *curspan_pad_type, *curspan_panel_type;

static bool make_room(Objects *objects, uint32_t number) {
    uint32_t room = objects->room ? objects->room : 8;
    if (number < objects->room) return true;
    while (room <= number) room *= 2;
    Numbered **at = PyMem_Realloc(objects->at, room * sizeof *at);
    if (!at) {
        PyErr_NoMemory();
        return false;
    }
    memset(at + objects->room, 0, (room - objects->room) * sizeof *at);
    *objects = (Objects){at, room};
    return true;
}

static PyObject *object_in_use(const Objects *objects, uint32_t number) {
    PyObject *object = (PyObject *)objects->at[number];
    Py_XINCREF(object);
    return object;
}

/* The object of a number: the one that is in use, or a new one. To make one may collect garbage, and what is run then may make it too. */
static PyObject *object_of(Screen *screen, Objects *objects, PyObject *type, uint32_t number) {
    if (!make_room(objects, number)) return NULL;
    PyObject *found = object_in_use(objects, number), *object = found ? NULL : PyType_GenericAlloc((PyTypeObject *)type, 0);
    if (!object) return found;
    Py_INCREF(screen);
    NUMBERED(object)->screen = screen;
    NUMBERED(object)->number = NO_NUMBER;
    if ((found = object_in_use(objects, number))) {
        Py_DECREF(object);
        return found;
    }
    NUMBERED(object)->number = number;
    objects->at[number] = NUMBERED(object);
    return object;
}

/* The object of a window or pad that there is. */
PyObject *curspan_window(Screen *screen, uint32_t number) {
    bool is_pad = curspan_is_pad(&screen->handle, number).first;
    return object_of(screen, &screen->windows, is_pad ? curspan_pad_type : curspan_window_type, number);
}

/* What a query for a window answers. */
PyObject *curspan_found_window(Screen *screen, curspan_answer answer) {
    return answer.status == CURSPAN_OK ? curspan_window(screen, answer.first) : curspan_refuse(answer.status);
}

/* What a query for a panel answers, where 0 is none. */
PyObject *curspan_found_panel(Screen *screen, curspan_answer answer) {
    if (answer.status != CURSPAN_OK) return curspan_refuse(answer.status);
    if (answer.first == 0) Py_RETURN_NONE;
    return object_of(screen, &screen->panels, curspan_panel_type, answer.first);
}

/* The object of a window or pad that a call made, which goes again where there is no memory for the object. */
static PyObject *made(Screen *screen, curspan_answer answer, PyObject *type) {
    if (answer.status != CURSPAN_OK) return curspan_refuse(answer.status);
    PyObject *object = object_of(screen, &screen->windows, type, answer.first);
    if (!object) curspan_delwin(&screen->handle, answer.first);
    return object;
}

PyObject *curspan_made_window(Screen *screen, curspan_answer answer) { return made(screen, answer, curspan_window_type); }

PyObject *curspan_made_pad(Screen *screen, curspan_answer answer) { return made(screen, answer, curspan_pad_type); }

PyObject *curspan_made_panel(Screen *screen, curspan_answer answer) {
    PyObject *object = curspan_found_panel(screen, answer);
    if (!object && answer.status == CURSPAN_OK) curspan_del_panel(&screen->handle, answer.first);
    return object;
}

/* What a call answers that deletes the window or panel of an object. */
PyObject *curspan_deleted(Numbered *self, Objects *objects, curspan_answer answer) {
    if (answer.status == CURSPAN_OK) {
        objects->at[self->number] = NULL;
        self->number = NO_NUMBER;
    }
    return nothing(answer);
}

/* An object is no longer in use. Its window or panel stays. */
void curspan_free_object(PyObject *self, Objects *objects) {
    PyTypeObject *type = Py_TYPE(self);
    Screen *screen = NUMBERED(self)->screen;
    PyObject_GC_UnTrack(self);
    if (NUMBER(self) != NO_NUMBER) objects->at[NUMBER(self)] = NULL;
    PyObject_GC_Del(self);
    Py_DECREF(screen);
    Py_DECREF(type);
}

int curspan_visit_object(PyObject *self, visitproc visit, void *arg) {
    Py_VISIT(Py_TYPE(self));
    Py_VISIT(NUMBERED(self)->screen);
    return 0;
}

PyObject *curspan_no_constructor(PyTypeObject *type, PyObject *arguments, PyObject *names) {
    (void)arguments, (void)names;
    PyErr_Format(PyExc_TypeError, "%S has no constructor: windows and pads are made by newwin, newpad, derwin and subpad, and panels by new_panel", type);
    return NULL;
}

PyObject *curspan_itself(PyObject *self, PyObject *none) {
    (void)none;
    Py_INCREF(self);
    return self;
}

/* What a window or panel answers at the end of `with`: it is deleted, unless it or its screen is gone already. What refuses that is
   raised, unless another exception is. */
PyObject *curspan_delete_at_end(PyObject *self, PyObject *arguments, PyCFunction delete) {
    bool is_raised = PyTuple_Size(arguments) > 0 && PyTuple_GetItem(arguments, 0) != Py_None;
    if (NUMBER(self) == NO_NUMBER || curspan_is_closed(NUMBERED(self)->screen)) Py_RETURN_FALSE;
    PyObject *answer = delete(self, NULL);
    if (!answer && !is_raised) return NULL;
    if (!answer) PyErr_Clear();
    Py_XDECREF(answer);
    Py_RETURN_FALSE;
}

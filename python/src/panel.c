/* Panels. */
#include "inside.h"

static void free_panel(PyObject *self) { curspan_free_object(self, &NUMBERED(self)->screen->panels); }

static PyObject *represent(PyObject *self) {
    curspan_answer window = curspan_panel_window(HANDLE(self), NUMBER(self));
    if (window.status == CURSPAN_CLOSED) return PyUnicode_FromString("<curspan.Panel, closed>");
    if (window.status != CURSPAN_OK) return PyUnicode_FromString("<curspan.Panel, deleted>");
    return PyUnicode_FromFormat("<curspan.Panel %u of window %u>", NUMBER(self), window.first);
}

PyObject *curspan_panel_delete(PyObject *self, PyObject *none) {
    (void)none;
    return curspan_deleted(NUMBERED(self), &NUMBERED(self)->screen->panels, curspan_del_panel(HANDLE(self), NUMBER(self)));
}

PyObject *curspan_panel_exit(PyObject *self, PyObject *arguments) { return curspan_delete_at_end(self, arguments, curspan_panel_delete); }

static PyObject *get_number(PyObject *self, void *closure) {
    (void)closure;
    curspan_answer window = curspan_panel_window(HANDLE(self), NUMBER(self));
    return number((curspan_answer){window.status, NUMBER(self), 0});
}

static PyObject *get_screen(PyObject *self, void *closure) {
    (void)closure;
    return curspan_itself((PyObject *)NUMBERED(self)->screen, NULL);
}

static PyGetSetDef properties[] = {
    {"screen", get_screen, NULL, "The screen.", NULL},
    {"number", get_number, NULL, "The number that the panel has in a script, from 1 on.", NULL},
    {NULL, NULL, NULL, NULL, NULL},
};

static const char about[] =
    "A panel, which has a window, and lies above or below the others or is hidden. Window.new_panel makes one.\n\n"
    "At the end of `with` it is deleted. Once it is, each call is refused as NoSuchPanel.";

static PyType_Slot slots[] = {
    {Py_tp_doc, (void *)about}, {Py_tp_new, curspan_no_constructor}, {Py_tp_dealloc, free_panel}, {Py_tp_traverse, curspan_visit_object},
    {Py_tp_repr, represent}, {Py_tp_methods, curspan_panel_methods}, {Py_tp_getset, properties}, {0, NULL},
};

PyType_Spec curspan_panel_spec = {"curspan.Panel", sizeof(Numbered), 0, Py_TPFLAGS_DEFAULT | Py_TPFLAGS_HAVE_GC, slots};

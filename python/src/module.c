/* The module: its types, and what it says of the library. */
#include "inside.h"

static PyObject *terminal_type;

/* Makes a type, once. */
static bool make_type(PyObject **type, PyType_Spec *spec, PyObject *base) {
    if (*type) return true;
    PyObject *bases = base ? PyTuple_Pack(1, base) : NULL;
    if (base && !bases) return false;
    *type = PyType_FromSpecWithBases(spec, bases);
    Py_XDECREF(bases);
    return *type;
}

static bool make_types(void) {
    return make_type(&terminal_type, &curspan_terminal_spec, NULL) && make_type(&curspan_screen_type, &curspan_screen_spec, NULL) && make_type(&curspan_window_type, &curspan_window_spec, NULL) &&
           make_type(&curspan_pad_type, &curspan_pad_spec, curspan_window_type) && make_type(&curspan_panel_type, &curspan_panel_spec, NULL);
}

static bool add(PyObject *module, const char *name, PyObject *object) {
    Py_INCREF(object);
    if (PyModule_AddObject(module, name, object) == 0) return true;
    Py_DECREF(object);
    return false;
}

/* Fills the module. Types and values are those of the one interpreter that imported it first. */
static int fill(PyObject *module) {
    static PyInterpreterState *owner;
    if (owner && owner != PyInterpreterState_Get()) {
        PyErr_SetString(PyExc_ImportError, "curspan can be imported by one interpreter of a process, and another one has it");
        return -1;
    }
    if (!curspan_find_values() || !make_types()) return -1;
    owner = PyInterpreterState_Get();
    bool is_full = add(module, "Terminal", terminal_type) && add(module, "Screen", curspan_screen_type) && add(module, "Window", curspan_window_type) && add(module, "Pad", curspan_pad_type) && add(module, "Panel", curspan_panel_type);
    if (!is_full || PyModule_AddStringConstant(module, "version", curspan_version()) < 0 || PyModule_AddStringConstant(module, "commit", curspan_commit()) < 0) return -1;
    return 0;
}

static PyModuleDef_Slot slots[] = {{Py_mod_exec, fill}, {0, NULL}};

static PyModuleDef definition = {PyModuleDef_HEAD_INIT, "curspan._curspan", "The proved library, for the package curspan.", 0, NULL, slots, NULL, NULL, NULL};

PyMODINIT_FUNC PyInit__curspan(void) { return PyModuleDef_Init(&definition); }

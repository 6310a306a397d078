/* Values of Python's classes, attributes, cells and shown cells; and refusals, which are exceptions. */
#include "inside.h"

enum { ATTRIBUTES = 64, COLOURS = 8, KEPT = 256 };

static PyObject *attribute_type, *cell_type, *shown_type, *colour_type, *errors, *error_of_terminals;
static PyObject *paste_type, *key_type;
static PyObject *attributes[ATTRIBUTES]; /* of each sum of bits the one object of the enum */
static PyObject *colours[COLOURS];

/* Cells that were made last, as most cells of a row are those of others. */
static struct Kept {
    uint32_t cell;
    PyObject *object;
} kept_cells[KEPT], kept_shown[KEPT];

/* Takes an object in the place of the one before, if there is one to take. */
static bool put(PyObject **place, PyObject *object) {
    PyObject *before = *place;
    if (!object) return false;
    *place = object;
    Py_XDECREF(before);
    return true;
}

/* Finds an attribute of a module. */
static bool find(PyObject **place, const char *module, const char *name) {
    PyObject *imported = PyImport_ImportModule(module);
    bool is_found = imported && put(place, PyObject_GetAttrString(imported, name));
    Py_XDECREF(imported);
    return is_found;
}

/* Finds Python's classes: again where the package is imported anew. */
bool curspan_find_values(void) {
    if (!find(&attribute_type, "curspan._values", "Attr") || !find(&cell_type, "curspan._values", "Cell")) return false;
    if (!find(&shown_type, "curspan._values", "Shown") || !find(&colour_type, "curspan._values", "Color")) return false;
    if (!find(&errors, "curspan._statuses", "BY_STATUS") || !find(&error_of_terminals, "curspan._errors", "TerminalError")) return false;
    if (!find(&paste_type, "curspan._values", "Paste") || !find(&key_type, "curspan._values", "Key")) return false;
    for (int bits = 0; bits < ATTRIBUTES; bits++)
        if (!put(&attributes[bits], PyObject_CallFunction(attribute_type, "i", bits))) return false;
    for (int colour = 0; colour < COLOURS; colour++)
        if (!put(&colours[colour], PyObject_CallFunction(colour_type, "i", colour))) return false;
    for (int place = 0; place < KEPT; place++) {
        Py_CLEAR(kept_cells[place].object);
        Py_CLEAR(kept_shown[place].object);
    }
    return true;
}

/* Raises the exception of a status. */
PyObject *curspan_refuse(uint32_t status) {
    PyObject *key = PyLong_FromUnsignedLong(status);
    PyObject *error = key ? PyObject_GetItem(errors, key) : NULL;
    Py_XDECREF(key);
    if (error) PyErr_SetString(error, curspan_text(status));
    Py_XDECREF(error);
    return NULL;
}

/* Raises BadCharacter with the character and its place. */
PyObject *curspan_refuse_character(const char *message, PyObject *character, Py_ssize_t position) {
    PyObject *type, *value, *trace, *place = PyLong_FromSsize_t(position);
    curspan_refuse(CURSPAN_BAD_CHARACTER);
    PyErr_Fetch(&type, &value, &trace);
    Py_XDECREF(value);
    value = PyObject_CallFunction(type, "s", message);
    if (value && place && PyObject_SetAttrString(value, "character", character) == 0 && PyObject_SetAttrString(value, "position", place) == 0)
        PyErr_SetObject(type, value);
    Py_XDECREF(place);
    Py_XDECREF(value);
    Py_XDECREF(type);
    Py_XDECREF(trace);
    return NULL;
}

PyObject *curspan_terminal_error(void) { return error_of_terminals; }

PyObject *curspan_key_object(const curspan_key *key) {
    char name[48];
    PyObject *sent = PyBytes_FromStringAndSize(key->text, (Py_ssize_t)key->length);
    Py_ssize_t length = (Py_ssize_t)curspan_key_name(key, name, sizeof name);
    PyObject *object = sent ? PyObject_CallFunction(key_type, "s#", name, length) : NULL;
    if (object && PyObject_SetAttrString(object, "sent", sent) < 0) Py_CLEAR(object);
    Py_XDECREF(sent);
    return object;
}

PyObject *curspan_paste(PyObject *text, bool is_ended) {
    return PyObject_CallFunction(paste_type, "NO", text, is_ended ? Py_True : Py_False);
}

PyObject *curspan_attributes(uint32_t bits) {
    PyObject *value = attributes[bits % ATTRIBUTES];
    Py_INCREF(value);
    return value;
}

bool curspan_take_attributes(PyObject *object, uint8_t *bits) {
    if (!object) return true;
    for (int sum = 0; sum < ATTRIBUTES; sum++)
        if (attributes[sum] == object) {
            *bits = (uint8_t)sum;
            return true;
        }
    PyErr_Format(PyExc_TypeError, "attributes are of curspan.Attr, as Attr.BOLD, and not %R", object);
    return false;
}

/* Keeps the object that was made of a cell, and answers it. */
static PyObject *keep(struct Kept *kept, uint32_t cell, PyObject *made) {
    if (!made) return NULL;
    PyObject *before = kept->object;
    Py_INCREF(made);
    *kept = (struct Kept){cell, made};
    Py_XDECREF(before);
    return made;
}

static struct Kept *place_of(struct Kept *kept, uint32_t cell) { return &kept[(cell ^ cell >> 8 ^ cell >> 16) % KEPT]; }

static PyObject *kept_object(const struct Kept *kept, uint32_t cell) {
    if (!kept->object || kept->cell != cell) return NULL;
    Py_INCREF(kept->object);
    return kept->object;
}

PyObject *curspan_found_cell(uint32_t cell) {
    struct Kept *kept = place_of(kept_cells, cell);
    PyObject *found = kept_object(kept, cell);
    if (found) return found;
    PyObject *attrs = attributes[CURSPAN_ATTRIBUTES(cell) % ATTRIBUTES];
    return keep(kept, cell, PyObject_CallFunction(cell_type, "COi", CURSPAN_CHARACTER(cell), attrs, (int)CURSPAN_PAIR(cell)));
}

static PyObject *colour(uint32_t number) { return number < COLOURS ? colours[number] : Py_None; }

PyObject *curspan_shown(uint32_t cell) {
    struct Kept *kept = place_of(kept_shown, cell);
    PyObject *found = kept_object(kept, cell);
    if (found) return found;
    PyObject *attrs = attributes[CURSPAN_ATTRIBUTES(cell) % ATTRIBUTES];
    PyObject *foreground = colour(CURSPAN_FOREGROUND(cell)), *background = colour(CURSPAN_BACKGROUND(cell));
    return keep(kept, cell, PyObject_CallFunction(shown_type, "COOO", CURSPAN_CHARACTER(cell), attrs, foreground, background));
}

PyObject *curspan_two_numbers(curspan_answer answer) {
    if (answer.status != CURSPAN_OK) return curspan_refuse(answer.status);
    PyObject *pair = PyTuple_New(2), *first = PyLong_FromUnsignedLong(answer.first), *second = PyLong_FromUnsignedLong(answer.second);
    if (!pair || !first || !second) {
        Py_XDECREF(pair);
        Py_XDECREF(first);
        Py_XDECREF(second);
        return NULL;
    }
    PyTuple_SetItem(pair, 0, first);
    PyTuple_SetItem(pair, 1, second);
    return pair;
}

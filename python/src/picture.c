/* The text of a screen: the picture of the standard screen and the visible panels, as `curspan paint` prints it. */
#include "inside.h"

#include <stdio.h>

/* Copies the lines of a window to where it lies on the screen. */
static void lay(const Screen *screen, uint32_t win, uint32_t *cells) {
    curspan_answer size = curspan_getmaxyx(&screen->handle, win), place = curspan_getbegyx(&screen->handle, win);
    for (uint32_t y = 0; y < size.first; y++)
        curspan_row(&screen->handle, win, y, cells + (place.first + y) * screen->columns + place.second, size.second);
}

/* Lays the windows over one another, and answers the topmost. */
static uint32_t lay_all(const Screen *screen, uint32_t *cells) {
    uint32_t win = 0, panel = 0;
    lay(screen, win, cells);
    while ((panel = curspan_panel_above(&screen->handle, panel).first)) {
        win = curspan_panel_window(&screen->handle, panel).first;
        lay(screen, win, cells);
    }
    return win;
}

static char *put_characters(char *to, const uint32_t *cells, uint32_t count) {
    *to++ = '|';
    for (uint32_t x = 0; x < count; x++) *to++ = (char)CURSPAN_CHARACTER(cells[x]);
    *to++ = '|';
    *to++ = '\n';
    return to;
}

/* The attributes of a line, where some cell has one. */
static char *put_attributes(char *to, const uint32_t *cells, uint32_t count) {
    uint32_t some = 0;
    for (uint32_t x = 0; x < count; x++) some |= CURSPAN_ATTRIBUTES(cells[x]);
    if (!some) return to;
    *to++ = ':';
    for (uint32_t x = 0; x < count; x++) {
        *to++ = "0123456789abcdef"[CURSPAN_ATTRIBUTES(cells[x]) >> 4];
        *to++ = "0123456789abcdef"[CURSPAN_ATTRIBUTES(cells[x]) & 15];
    }
    *to++ = '\n';
    return to;
}

/* The colours of a line, where some cell has one. */
static char *put_colours(char *to, const Screen *screen, const uint32_t *cells, uint32_t count) {
    bool some = false;
    char *from = to;
    *to++ = '%';
    for (uint32_t x = 0; x < count; x++)
        for (int i = 0; i < 2; i++) {
            int colour = screen->colours[CURSPAN_PAIR(cells[x]) % 64][i];
            some = some || colour != DEFAULT_COLOUR;
            *to++ = colour == DEFAULT_COLOUR ? '-' : (char)('0' + colour);
        }
    *to++ = '\n';
    return some ? to : from;
}

/* The text of cells, with the cursor of a window. */
static PyObject *text_of(const Screen *screen, const uint32_t *cells, uint32_t win, char *room) {
    curspan_answer place = curspan_getbegyx(&screen->handle, win), cursor = curspan_getyx(&screen->handle, win);
    char *to = room;
    for (uint32_t y = 0; y < screen->lines; y++) {
        const uint32_t *line = cells + y * screen->columns;
        to = put_characters(to, line, screen->columns);
        to = put_attributes(to, line, screen->columns);
        to = put_colours(to, screen, line, screen->columns);
    }
    to += sprintf(to, "cursor %u %u\nrendition 00", place.first + cursor.first, place.second + cursor.second);
    return PyUnicode_FromStringAndSize(room, to - room);
}

PyObject *curspan_picture(PyObject *self) {
    const Screen *screen = SCREEN(self);
    if (curspan_is_closed(screen)) return curspan_refuse(CURSPAN_CLOSED);
    uint32_t *cells = PyMem_Malloc((size_t)screen->lines * screen->columns * sizeof *cells);
    char *room = PyMem_Malloc((size_t)screen->lines * (5 * screen->columns + 7) + 64);
    PyObject *text = cells && room ? text_of(screen, cells, lay_all(screen, cells), room) : PyErr_NoMemory();
    PyMem_Free(cells);
    PyMem_Free(room);
    return text;
}

/* Lines that are read and edited, and what is scanned of them. Nothing here is proved. */
#include "inside.h"
#include "terminal.h"

enum { LONGEST_LINE = 2047 };

struct line {
    WINDOW *win;
    char *text;
    int length, most;
    int y, x;      /* where it begins */
    unsigned left; /* how many lines the window's cursor had left there */
    bool echo;
};

/* How many columns there are from the first of the line where it begins to the cursor, however often it was wrapped. */
static int columns_to_cursor(const struct line *line) {
    return (int)(line->win->left - line->left) * (int)line->win->columns + line->win->x;
}

/* Writes the text once more from where the line begins. */
static void rewrite(struct line *line) {
    wmove(line->win, line->y, line->x);
    line->left = line->win->left;
    waddstr(line->win, line->text);
}

/* Takes the last character away, all its bytes, and writes spaces over it, however many columns it has. */
static void rub_out(struct line *line) {
    if (line->length == 0) return;
    while (--line->length > 0 && (line->text[line->length] & 0xc0) == 0x80) continue;
    line->text[line->length] = 0;
    if (!line->echo) return;
    WINDOW *win = line->win;
    int y = win->y, x = win->x, columns = columns_to_cursor(line);
    rewrite(line);
    int end_y = win->y, end_x = win->x;
    unsigned left = win->left;
    bool wraps_in_place = win->y > win->bottom;
    while (win->y < y || (win->y == y && win->x < x) || (wraps_in_place && columns_to_cursor(line) < columns))
        if (waddch(win, ' ') == ERR) break;
    wmove(win, end_y, end_x);
    line->left += win->left - left;
}

/* Writes a character that was added to the line. One that doesn't fit in the window is taken away again. */
static void show_last(struct line *line) {
    WINDOW *win = line->win;
    int y = win->y;
    unsigned left = win->left;
    if (waddch(win, (unsigned char)line->text[line->length - 1]) == ERR) {
        waddch(win, ' ');
        line->text[line->length] = 0;
        rub_out(line);
        return;
    }
    if (y == win->bottom) line->y = most(line->y - (int)(win->left - left), least(line->y, win->top));
    wrefresh(win);
}

static bool ends_line(int key) { return key == '\n' || key == '\r' || key == KEY_DOWN || key == KEY_ENTER; }

static void edit(struct line *line, int key) {
    if (key == (signed char)erasechar() || key == KEY_LEFT || key == KEY_BACKSPACE) {
        rub_out(line);
    } else if (key == (signed char)killchar()) {
        while (line->length > 0) rub_out(line);
    } else if (key >= KEY_MIN || line->length >= line->most) {
        beep();
    } else {
        line->text[line->length++] = (char)key;
        if (line->echo) show_last(line);
    }
}

int wgetnstr(WINDOW *win, char *text, int n) {
    struct curspan_modes modes;
    struct termios before;
    if (!is_there(win) || !text) return ERR;
    int room = n < 0 ? LONGEST_LINE : least(n, LONGEST_LINE);
    struct line line = {win, text, 0, room, win->y, win->x, win->left, curspan_modes.echo};
    curspan_begin_raw(&modes, &before);
    if (win->moved || is_wintouched(win)) wrefresh(win);
    int key = wgetch(win);
    while (key != ERR && key != KEY_RESIZE && !ends_line(key)) {
        edit(&line, key);
        key = wgetch(win);
    }
    if (ends_line(key) && line.echo && is_scrollok(win) && getcury(win) == getmaxy(win) - 1) wechochar(win, '\n');
    wmove(win, least(getcury(win) + 1, getmaxy(win) - 1), 0);
    wrefresh(win);
    curspan_end_raw(&modes, &before);
    text[line.length] = 0;
    return key == ERR || key == KEY_RESIZE ? key : OK;
}

int vw_scanw(WINDOW *win, const char *format, va_list arguments) {
    char text[LONGEST_LINE + 1];
    if (!format || wgetnstr(win, text, LONGEST_LINE) == ERR) return ERR;
    return vsscanf(text, format, arguments);
}

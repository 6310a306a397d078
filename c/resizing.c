/* Sizes that change, of the screen and of windows. In curspan.h each keeps its own. So windows are made anew, in a
   second screen where the screen's size changes, and take the place of the old ones when all are there: where one is
   refused, nothing has changed. Nothing here is proved. */
#include "inside.h"
#include "panel.h"
#include "terminal.h"

/* How large a window is, and where: a derived one in its parent, another on the screen. */
struct shape {
    int lines, columns, y, x;
    int begin_y, begin_x; /* on the screen */
    WINDOW *parent;
    bool is_pad, outlies;
    bool is_other; /* it has other columns, not only because its parent has */
};

/* Windows that are made anew, by their places in curspan_windows. */
struct remake {
    curspan *from, *to;
    int lines, columns; /* of the screen to which they come */
    WINDOW *family[MOST];
    int count;
    uint16_t numbers[MOST], old[MOST];
    struct shape shapes[MOST], before[MOST];
};

static struct remake remake;

static ptrdiff_t place_of(const WINDOW *win) { return win - curspan_windows; }

/* ---- which windows, and how large */

static struct shape shape_of(const WINDOW *win) {
    WINDOW *parent = wgetparent(win);
    bool pad = is_pad(win);
    int begin_y = pad ? 0 : getbegy(win), begin_x = pad ? 0 : getbegx(win);
    int y = parent ? getpary(win) : begin_y, x = parent ? getparx(win) : begin_x;
    return (struct shape){getmaxy(win), getmaxx(win), y, x, begin_y, begin_x, parent, pad, win->outlies, false};
}

/* Adds the windows that derive from those that are listed. Each comes after the one that it derives from. */
static void add_derived(void) {
    for (int i = 0; i < remake.count; i++)
        for (WINDOW *win = curspan_windows; win < curspan_windows + MOST; win++)
            if (wgetparent(win) == remake.family[i]) remake.family[remake.count++] = win;
}

static void note_shapes(void) {
    for (ptrdiff_t i = 0; i < MOST; i++) remake.numbers[i] = NUMBER;
    for (int i = 0; i < remake.count; i++) {
        const WINDOW *win = remake.family[i];
        remake.old[place_of(win)] = win->number;
        remake.shapes[place_of(win)] = remake.before[place_of(win)] = shape_of(win);
    }
}

static void cut(struct shape *shape, int lines, int columns) {
    shape->y = least(shape->y, lines - 1);
    shape->x = least(shape->x, columns - 1);
    shape->lines = least(shape->lines, lines - shape->y);
    shape->columns = least(shape->columns, columns - shape->x);
}

/* Cuts off what of derived windows lies outside of their parents. They outlie where those do. */
static void cut_derived(void) {
    for (int i = 0; i < remake.count; i++) {
        struct shape *shape = &remake.shapes[place_of(remake.family[i])];
        const struct shape *around = shape->parent ? &remake.shapes[place_of(shape->parent)] : NULL;
        if (!around || around->lines == 0) continue;
        cut(shape, around->lines, around->columns);
        shape->outlies = around->outlies;
    }
}

static bool fits_in(const struct shape *shape, int lines, int columns) {
    return shape->y + shape->lines <= lines && shape->x + shape->columns <= columns;
}

/* Decides of a window that derives from none whether it outlies. One in a panel never does. */
static void settle(const WINDOW *win) {
    struct shape *shape = &remake.shapes[place_of(win)];
    shape->outlies = !fits_in(shape, remake.lines, remake.columns);
    if (shape->outlies && curspan_window_panel(SCREEN_AND(win)).first > 0) {
        cut(shape, remake.lines, remake.columns);
        shape->outlies = false;
    }
    shape->begin_y = shape->y;
    shape->begin_x = shape->x;
}

/* A size that was the screen's is so again, and one that is larger is cut off. */
static int size_on(int size, int old, int new) { return size == old ? new : least(size, new); }

static void plan_all(void) {
    for (int i = 0; i < remake.count; i++) {
        const WINDOW *win = remake.family[i];
        struct shape *shape = &remake.shapes[place_of(win)];
        if (shape->is_pad) continue;
        shape->lines = size_on(shape->lines, curspan_lines(), remake.lines);
        shape->columns = size_on(shape->columns, curspan_columns(), remake.columns);
        shape->is_other = shape->columns != getmaxx(win);
        if (!shape->parent) settle(win);
    }
    cut_derived();
}

/* ---- windows made anew */

static uint16_t parent_of(const struct shape *shape) {
    uint16_t number = remake.numbers[place_of(shape->parent)];
    return number == NUMBER ? shape->parent->number : number;
}

static curspan_answer make(const WINDOW *win) {
    const struct shape *shape = &remake.shapes[place_of(win)];
    uint32_t lines = (uint32_t)shape->lines, columns = (uint32_t)shape->columns;
    uint32_t y = (uint32_t)shape->y, x = (uint32_t)shape->x;
    bool as_pad = shape->is_pad || shape->outlies;
    bool is_standard = win == stdscr && shape->lines == remake.lines && shape->columns == remake.columns;
    if (is_standard) return (curspan_answer){CURSPAN_OK, 0, 0};
    if (!shape->parent && as_pad) return curspan_newpad(remake.to, lines, columns);
    if (!shape->parent) return curspan_newwin(remake.to, lines, columns, y, x);
    return as_pad ? curspan_subpad(remake.to, parent_of(shape), lines, columns, y, x)
                  : curspan_derwin(remake.to, parent_of(shape), lines, columns, y, x);
}

static int make_all(void) {
    for (int i = 0; i < remake.count; i++) {
        curspan_answer answer = make(remake.family[i]);
        if (answer.status != CURSPAN_OK) {
            while (i-- > 0) curspan_delwin(remake.to, remake.numbers[place_of(remake.family[i])]);
            return ERR;
        }
        remake.numbers[place_of(remake.family[i])] = (uint16_t)answer.first;
    }
    return OK;
}

/* ---- what they have */

/* Brings the cells of a window to the new one, as far as they fit. What is new has the background. */
static void bring_cells(const WINDOW *win, uint16_t from, uint16_t to) {
    const struct shape *before = &remake.before[place_of(win)], *shape = &remake.shapes[place_of(win)];
    int lines = least(before->lines, shape->lines), columns = least(before->columns, shape->columns);
    uint32_t cells[LONGEST], last_y = (uint32_t)shape->lines - 1, last_x = (uint32_t)shape->columns - 1;
    if (shape->parent) return;
    curspan_fill(remake.to, to, 0, 0, last_y, last_x, curspan_written(win->background));
    if (remake.from == remake.to) {
        curspan_copywin(remake.to, from, to, 0, 0, 0, 0, (uint16_t)(lines - 1), (uint16_t)(columns - 1), false);
        return;
    }
    for (uint16_t y = 0; y < lines; y++) {
        curspan_row(remake.from, from, y, cells, (size_t)columns);
        curspan_put(remake.to, to, y, 0, cells, (size_t)columns);
    }
}

/* Brings what a window has. A derived one that isn't where its parent shows it comes to where it was, and a scroll
   region ends with the window where it did before. */
static void bring(WINDOW *win) {
    const struct shape *shape = &remake.shapes[place_of(win)];
    uint16_t from = remake.old[place_of(win)], to = remake.numbers[place_of(win)];
    int y = least(shape->begin_y, remake.lines - shape->lines);
    int x = least(shape->begin_x, remake.columns - shape->columns);
    int last = shape->lines - 1;
    win->top = least(win->top, last);
    win->bottom = win->bottom == remake.before[place_of(win)].lines - 1 ? last : least(win->bottom, last);
    bring_cells(win, from, to);
    if (shape->parent) curspan_mvwin(remake.to, to, (uint16_t)y, (uint16_t)x);
    win->y = least(win->y, last);
    win->x = least(win->x, shape->columns - 1);
    win->is_placed = false;
}

/* Touches what was touched, and what is new, and asks for a clear screen where that was asked for. */
static void bring_marks(const WINDOW *win) {
    const struct shape *before = &remake.before[place_of(win)], *shape = &remake.shapes[place_of(win)];
    uint16_t from = remake.old[place_of(win)], to = remake.numbers[place_of(win)];
    int more = shape->is_other ? shape->columns - before->columns : 0;
    curspan_clearok(remake.to, to, is_so(curspan_is_cleared(remake.from, from)));
    for (int y = 0; y < shape->lines; y++) {
        bool was_touched = curspan_is_linetouched(remake.from, from, (uint32_t)y).first == 1;
        bool touched = was_touched || y >= before->lines || more < 0;
        curspan_wtouchln(remake.to, to, (uint32_t)y, 1, touched);
        if (more > 0 && !touched) curspan_touch_cells(remake.to, to, y, before->columns, 1, more);
    }
}

static void renumber_all(void) {
    for (int i = 0; i < remake.count; i++) {
        WINDOW *win = remake.family[i];
        const struct shape *shape = &remake.shapes[place_of(win)];
        curspan_renumber(win, remake.numbers[place_of(win)]);
        win->has_ended = false;
        curspan_measure(win);
        if (shape->is_pad) continue;
        win->outlies = shape->outlies;
        if (!win->outlies) continue; /* else Curspan has told where it is */
        win->begin_y = shape->begin_y;
        win->begin_x = shape->begin_x;
    }
}

/* ---- one window */

static int remake_family(void) {
    cut_derived();
    if (make_all() == ERR) return ERR;
    for (int i = 0; i < remake.count; i++) {
        WINDOW *win = remake.family[i];
        bring(win);
        bring_marks(win);
        curspan_replace_panel(remake.to, curspan_window_panel(SCREEN_AND(win)).first, remake.numbers[place_of(win)]);
    }
    renumber_all();
    for (int i = remake.count - 1; i >= 0; i--) curspan_delwin(remake.from, remake.old[place_of(remake.family[i])]);
    return OK;
}

/* Begins to make a window anew in the same screen. It answers the shape that it has. */
static struct shape *begin_family(WINDOW *win) {
    remake.from = remake.to = curspan_settle();
    remake.lines = curspan_lines();
    remake.columns = curspan_columns();
    remake.family[0] = win;
    remake.count = 1;
    add_derived();
    for (int i = 0; i < MOST; i++) remake.shapes[i].lines = 0;
    note_shapes();
    return &remake.shapes[place_of(win)];
}

int wresize(WINDOW *win, int lines, int columns) {
    if (!is_there(win) || lines < 1 || columns < 1 || lines > LONGEST || columns > LONGEST) return ERR;
    if (lines == getmaxy(win) && columns == getmaxx(win)) return OK;
    struct shape *shape = begin_family(win);
    shape->is_other = shape->columns != columns;
    shape->lines = lines;
    shape->columns = columns;
    if (shape->parent && !fits_in(shape, getmaxy(shape->parent), getmaxx(shape->parent))) return ERR;
    if (!shape->parent && !shape->is_pad) settle(win);
    return remake_family();
}

int curspan_move_inside(WINDOW *win, int y, int x) {
    if (!is_there(win) || !curspan_fits(getmaxy(win), getmaxx(win), y, x)) return ERR;
    if (!is_subwin(win)) {
        struct shape *shape = begin_family(win);
        shape->y = y;
        shape->x = x;
        settle(win);
        if (remake_family() == ERR) return ERR;
    }
    win->begin_y = y;
    win->begin_x = x;
    return touchwin(win);
}

int curspan_cut_outside(WINDOW *win) {
    if (!is_there(win) || is_subwin(win)) return ERR;
    struct shape *shape = begin_family(win);
    cut(shape, remake.lines, remake.columns);
    settle(win);
    return remake_family();
}

/* ---- the screen */

/* A cell as it is shown, as a window has it: by the pair that curspan_number_pairs has given its colours. */
static uint32_t cell_of_shown(uint32_t shown) {
    uint32_t foreground = CURSPAN_FOREGROUND(shown), pair = 8 * foreground + CURSPAN_BACKGROUND(shown);
    return (shown & 0xffff) | (foreground > 7 ? 0 : pair << 16);
}

/* Brings the virtual screen, as far as it fits. As over ncurses nothing else comes into it before a refresh. */
static void bring_picture(void) {
    uint32_t cells[LONGEST];
    int lines = least(curspan_lines(), remake.lines), columns = least(curspan_columns(), remake.columns);
    for (int y = 0; y < lines; y++) {
        curspan_shown_row(remake.from, (uint32_t)y, cells, (size_t)columns);
        for (int x = 0; x < columns; x++) cells[x] = cell_of_shown(cells[x]);
        curspan_put(remake.to, 0, (uint32_t)y, 0, cells, (size_t)columns);
    }
    int cursor_y = least(curspan_shown_y, remake.lines - 1), cursor_x = least(curspan_shown_x, remake.columns - 1);
    curspan_wmove(remake.to, 0, (uint16_t)cursor_y, (uint16_t)cursor_x);
    curspan_wnoutrefresh(remake.to, 0);
    curspan_werase(remake.to, 0);
}

static int make_screen(void) {
    remake.count = 0;
    for (WINDOW *win = curspan_windows; win < curspan_windows + MOST; win++)
        if (is_there(win) && !is_subwin(win)) remake.family[remake.count++] = win;
    add_derived();
    note_shapes();
    plan_all();
    if (curspan_open(remake.to, (uint16_t)remake.lines, (uint16_t)remake.columns).status != CURSPAN_OK) return ERR;
    if (make_all() == OK && curspan_make_panels(remake.to, remake.numbers) == OK) return OK;
    curspan_close(remake.to);
    return ERR;
}

static void take_screen(void) {
    curspan old = *curspan_settle();
    curspan_number_pairs(remake.to);
    bring_picture();
    for (int i = 0; i < remake.count; i++) bring(remake.family[i]);
    *curspan_settle() = *remake.to;
    remake.from = &old;
    remake.to = curspan_settle();
    renumber_all();
    curspan_take_panels();
    LINES = remake.lines;
    COLS = remake.columns;
    curspan_tell_size(LINES);
    for (int i = 0; i < remake.count; i++) bring_marks(remake.family[i]);
    curspan_close(&old);
}

bool is_term_resized(int lines, int columns) {
    return stdscr && lines > 0 && columns > 0 && (lines != curspan_lines() || columns != curspan_columns());
}

int resize_term(int lines, int columns) {
    curspan other = CURSPAN_INIT;
    if (!stdscr || least(lines, columns) < 1 || most(lines, columns) > CURSPAN_LARGEST_SCREEN) return ERR;
    LINES = curspan_lines();
    COLS = curspan_columns();
    if (!is_term_resized(lines, columns)) return OK;
    remake.from = curspan_settle();
    remake.to = &other;
    remake.lines = lines;
    remake.columns = columns;
    if (make_screen() == ERR) return ERR;
    take_screen();
    return OK;
}

int resizeterm(int lines, int columns) {
    if (!stdscr || lines < 1 || columns < 1) return ERR;
    int answer = resize_term(lines, columns);
    ungetch(KEY_RESIZE);
    return answer;
}

void curspan_resize_to_terminal(bool is_told) {
    int lines, columns;
    curspan_find_screen_size(&lines, &columns);
    if (is_told || is_term_resized(lines, columns)) resizeterm(lines, columns);
}

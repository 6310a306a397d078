/* The names of panel.h over curspan.h. Nothing here is proved. */
#include "inside.h"
#include "panel.h"

/* What curspan.h doesn't keep of a panel; and its window, so that update_panels asks only where a cursor was moved. */
struct curspan_panel {
    uint16_t number; /* 0 where it isn't there */
    uint16_t next;   /* its number in the screen that will be */
    WINDOW *win;
    const void *pointer;
    bool is_left; /* it went from where it was, or came there, since the last update */
};

static PANEL panels[MOST], *end = panels; /* none is there from the end on */
static PANEL *numbered[MOST]; /* by their numbers */

/* The number of a panel, and for a pointer to none a number that no panel has. */
static uint16_t number_of(const PANEL *panel) {
    uintptr_t at = (uintptr_t)panel, first = (uintptr_t)panels;
    return at >= first && at < first + sizeof panels && panel->number > 0 ? panel->number : NUMBER;
}

#define SCREEN_AND_PANEL(panel) curspan_settle(), number_of(panel)

/* The panel of an answer that is its number, and NULL of none or of a refusal. */
static PANEL *panel_of(curspan_answer answer) {
    return answer.status == CURSPAN_OK && answer.first > 0 ? numbered[answer.first] : NULL;
}

static void give_number(PANEL *panel, uint16_t number) {
    panel->number = number;
    numbered[number] = panel;
}

PANEL *new_panel(WINDOW *win) {
    if (win && win->outlies && curspan_cut_outside(win) == ERR) return NULL;
    curspan_answer answer = curspan_new_panel(curspan_settle(), curspan_number(win));
    if (answer.status != CURSPAN_OK) return NULL;
    PANEL *panel = &panels[answer.first];
    if (panel->number > 0) /* another panel that changed its number has this place */
        for (panel = panels; panel->number > 0; panel++) continue;
    give_number(panel, (uint16_t)answer.first);
    panel->win = win;
    panel->pointer = NULL;
    panel->is_left = false;
    if (panel >= end) end = panel + 1;
    return panel;
}

/* ---- panels beside windows that are refreshed

   Where a program refreshes a window that the picture of panels doesn't have, or a pad, panels go on from there by what
   is touched, as ncurses' do: what it showed stays where nothing of them is touched. */

bool curspan_is_mixed;

/* Until then it is noted what panels left since the last update. */
enum { MOST_LEFT = 100 };

struct place {
    int y, x;
    unsigned lines, columns;
};
static struct {
    struct place places[MOST_LEFT];
    int count;
} noted;

/* Whether the picture of panels has a window: one in a visible panel, the standard screen, or one from these. */
static bool is_in_picture(const WINDOW *win) {
    while (is_subwin(win)) win = wgetparent(win);
    uint32_t panel = curspan_window_panel(SCREEN_AND(win)).first;
    return win == stdscr || (panel > 0 && panel_hidden(numbered[panel]) == FALSE);
}

/* Touches in one window what it has in common with touched lines of another. */
static void touch_common(WINDOW *touched, WINDOW *win) {
    curspan_common of;
    if (!curspan_find_common(touched, win, &of)) return;
    for (int from = 0, to; from < of.lines; from = to + 1) {
        for (to = from; to < of.lines && is_linetouched(touched, of.from_y + to); to++) continue;
        if (to > from) curspan_touch_cells(SCREEN_AND(win), of.to_y + from, of.to_x, to - from, of.columns);
    }
}

/* Touches what a window has in common with the other panels above one, or with all. */
static void touch_above(WINDOW *win, const PANEL *panel) {
    while ((panel = panel_above(panel)))
        if (panel->win != win) touch_common(win, panel->win);
}

/* Touches what a window covers of the standard screen and of the other panels. */
static void touch_all(WINDOW *win) {
    touchwin(win);
    touch_common(win, stdscr);
    touch_above(win, NULL);
}

/* Goes on by what is touched. What panels left is covered by windows for that. */
static void begin_to_mix(void) {
    curspan_is_mixed = true;
    for (PANEL *panel = panels; panel < end; panel++)
        if (panel->number > 0 && (panel->is_left || panel_hidden(panel))) touchwin(panel->win);
    while (noted.count-- > 0) {
        const struct place *left = &noted.places[noted.count];
        WINDOW *win = newwin((int)left->lines, (int)left->columns, left->y, left->x);
        if (win) touch_all(win);
        delwin(win);
    }
}

void curspan_note_refreshed(const WINDOW *win) {
    if (is_there(win) && !is_in_picture(win)) begin_to_mix();
}

static void note_left(PANEL *panel) {
    panel->is_left = true;
    const WINDOW *win = panel->win;
    if (noted.count == MOST_LEFT) return;
    noted.places[noted.count++] = (struct place){win->begin_y, win->begin_x, win->lines, win->columns};
}

/* Touches what a visible panel covers, before it goes. The first from an end of the order that it would go to stays. */
static void uncover(PANEL *panel, PANEL *(*first)(const PANEL *)) {
    if (panel_hidden(panel) != FALSE || (first && first(NULL) == panel)) return;
    if (curspan_is_mixed) touch_all(panel->win);
    else note_left(panel);
}

/* Takes what is touched into the virtual screen, from the standard screen upwards. */
static void update_touched(void) {
    PANEL *panel = NULL;
    if (is_wintouched(stdscr)) touch_above(stdscr, NULL);
    while ((panel = panel_above(panel)))
        if (is_wintouched(panel->win)) touch_above(panel->win, panel);
    wnoutrefresh(stdscr);
    while ((panel = panel_above(panel))) wnoutrefresh(panel->win);
}

/* ---- the names of panel(3) */

int del_panel(PANEL *panel) {
    uncover(panel, NULL);
    if (done(curspan_del_panel(SCREEN_AND_PANEL(panel))) == ERR) return ERR;
    panel->number = 0;
    return touchwin(panel->win);
}

static int reorder(PANEL *panel, PANEL *(*first)(const PANEL *), curspan_answer (*call)(curspan *, uint32_t)) {
    uncover(panel, first);
    return done(call(SCREEN_AND_PANEL(panel)));
}

int show_panel(PANEL *panel) { return reorder(panel, panel_below, curspan_show_panel); }
int hide_panel(PANEL *panel) { return reorder(panel, NULL, curspan_hide_panel); }
int top_panel(PANEL *panel) { return reorder(panel, panel_below, curspan_top_panel); }
int bottom_panel(PANEL *panel) { return reorder(panel, panel_above, curspan_bottom_panel); }

int move_panel(PANEL *panel, int y, int x) {
    if (!is_number(y) || !is_number(x)) return ERR;
    uncover(panel, NULL);
    if (done(curspan_move_panel(SCREEN_AND_PANEL(panel), (uint16_t)y, (uint16_t)x)) == ERR) return ERR;
    panel->win->begin_y = y;
    panel->win->begin_x = x;
    return curspan_is_mixed ? touchwin(panel->win) : OK;
}

int panel_hidden(const PANEL *panel) { return first_of(curspan_panel_hidden(SCREEN_AND_PANEL(panel))); }

int replace_panel(PANEL *panel, WINDOW *win) {
    uncover(panel, NULL);
    if (done(curspan_replace_panel(SCREEN_AND_PANEL(panel), curspan_number(win))) == ERR) return ERR;
    touchwin(panel->win);
    panel->win = win;
    return OK;
}

WINDOW *panel_window(const PANEL *panel) { return number_of(panel) == NUMBER ? NULL : panel->win; }

/* What waits to be written has no part in the order. */
PANEL *panel_above(const PANEL *panel) {
    return panel_of(curspan_panel_above(&curspan_kept_screen, panel ? number_of(panel) : 0));
}

PANEL *panel_below(const PANEL *panel) {
    return panel_of(curspan_panel_below(&curspan_kept_screen, panel ? number_of(panel) : 0));
}

int set_panel_userptr(PANEL *panel, const void *pointer) {
    if (panel_hidden(panel) == ERR) return ERR;
    panel->pointer = pointer;
    return OK;
}

const void *panel_userptr(const PANEL *panel) { return panel_hidden(panel) == ERR ? NULL : panel->pointer; }

/* Puts a standard screen of another size than the screen's where update_panels takes it from. */
static void put_standard(void) {
    int lines = least(getmaxy(stdscr), curspan_lines()), columns = least(getmaxx(stdscr), curspan_columns());
    curspan_werase(curspan_settle(), 0);
    curspan_copywin(SCREEN_AND(stdscr), 0, 0, 0, 0, 0, (uint16_t)(lines - 1), (uint16_t)(columns - 1), false);
}

/* Takes the whole picture of the standard screen and the panels. */
static void update_all(void) {
    PANEL *top = panel_below(NULL);
    WINDOW *topmost = top ? top->win : stdscr;
    if (stdscr && stdscr->number > 0) put_standard();
    (void)curspan_placed(topmost);
    curspan_update_panels(curspan_settle());
    if (stdscr) stdscr->moved = false;
    for (PANEL *panel = panels; panel < end; panel++) {
        panel->is_left = false;
        if (panel->number > 0 && panel->win->moved) panel->win->moved = panel_hidden(panel) == TRUE;
    }
    if (topmost) curspan_note_cursor(topmost);
}

/* Beside windows that are refreshed nothing is taken where there never was a panel. */
void update_panels(void) {
    if (!curspan_is_mixed) update_all();
    else if (end > panels) update_touched();
    noted.count = 0;
}

/* ---- windows and screens that are made anew */

void curspan_forget_panels(void) {
    curspan_is_mixed = false;
    noted.count = 0;
    while (end > panels) (--end)->number = 0;
}

/* The panel after one by their numbers, the first after none, and NULL after the last. */
static PANEL *next_panel(const PANEL *panel) {
    return panel_of(curspan_next_panel(curspan_settle(), panel ? panel->number : 0));
}

/* Puts the visible panels into their order, and hides the others. All are visible before. */
static void order_panels(curspan *screen) {
    for (PANEL *panel = next_panel(NULL); panel; panel = next_panel(panel))
        if (panel_hidden(panel) == TRUE) curspan_hide_panel(screen, panel->next);
    for (PANEL *panel = panel_above(NULL); panel; panel = panel_above(panel)) curspan_top_panel(screen, panel->next);
}

int curspan_make_panels(curspan *screen, const uint16_t windows[MOST]) {
    for (PANEL *panel = next_panel(NULL); panel; panel = next_panel(panel)) {
        curspan_answer answer = curspan_new_panel(screen, windows[panel_window(panel) - curspan_windows]);
        if (answer.status != CURSPAN_OK) return ERR;
        panel->next = (uint16_t)answer.first;
    }
    order_panels(screen);
    return OK;
}

void curspan_take_panels(void) {
    for (PANEL *panel = panels; panel < end; panel++)
        if (panel->number > 0) give_number(panel, panel->next);
}

/* Calls by chance on windows beside panels: the windows 1 and 2, a pad and a derived window are refreshed where they are in no panel. Where
   ncurses is known to do otherwise (curspan(3)), no call is made. */
#include "shot.h"

enum { WINDOWS = 9, FREE = 3, ROUNDS = 30, CALLS = 40 };

static WINDOW *windows[WINDOWS], *part, *pad;
static PANEL *panels[WINDOWS]; /* of the windows from FREE on */
static unsigned state, sum;

/* A number below n. */
static int below(int n) {
    state = state * 1103515245u + 12345u;
    return (int)((state >> 16) % (unsigned)n);
}

static int write_text(int i) {
    WINDOW *win = windows[i];
    return mvwprintw(win, below(getmaxy(win)), below(getmaxx(win)), "%c%d", 'a' + i, below(100)), OK;
}

static int fill_window(int i) {
    wbkgd(windows[i], (chtype)(' ' | (below(3) ? A_NORMAL : A_REVERSE)));
    fill(windows[i], (chtype)(below(2) ? 'a' : 'A'));
    return OK;
}

static int frame(int i) { return box(windows[i], '|', '-'); }
static int clear_window(int i) { return werase(windows[i]); }
static int touch(int i) { return touchwin(windows[i]); }
static int untouch(int i) { return untouchwin(windows[i]); }
static int refresh_window(int i) { return below(2) ? wnoutrefresh(windows[i]) : wrefresh(windows[i]); }

static int refresh_pad(int i) {
    mvwprintw(pad, i, below(30), "pad %d", below(100));
    int y = below(15), x = below(50);
    return pnoutrefresh(pad, below(4), below(9), y, x, y + below(6), x + below(20));
}

static int refresh_part(int i) {
    mvwaddch(part, below(3), i, 'p');
    return wnoutrefresh(part);
}

/* ---- panels: those of other windows are left out */

static int make(int i) {
    if (i < FREE || panels[i]) return OK;
    panels[i] = new_panel(windows[i]);
    return panels[i] ? OK : ERR;
}

static int unmake(int i) {
    if (!panels[i] || below(3)) return OK;
    PANEL *panel = panels[i];
    panels[i] = NULL;
    return del_panel(panel);
}

static bool is_visible(int i) { return panels[i] && !panel_hidden(panels[i]); }
static int hide(int i) { return is_visible(i) ? hide_panel(panels[i]) : OK; }
static int show(int i) { return panels[i] ? show_panel(panels[i]) : OK; }
static int raise_up(int i) { return is_visible(i) ? top_panel(panels[i]) : OK; }
static int lower(int i) { return is_visible(i) ? bottom_panel(panels[i]) : OK; }

static int go(int i) {
    if (!panels[i]) return OK;
    int y = below(24 - getmaxy(windows[i])), x = below(80 - getmaxx(windows[i]));
    return move_panel(panels[i], y, x);
}

static int replace(int i) {
    int other = FREE + below(WINDOWS - FREE);
    if (!panels[i] || panels[other]) return OK;
    panels[other] = panels[i];
    panels[i] = NULL;
    return replace_panel(panels[other], windows[other]);
}

static int update(int i) {
    update_panels();
    return i % 2 ? OK : doupdate();
}

static int (*const calls[])(int) = {write_text,  write_text, fill_window,  frame, clear_window, touch, untouch, refresh_window, refresh_window,
                                    refresh_pad, refresh_part, make, make, unmake, hide, show, raise_up, lower, go, go, replace, update, update};

static void play(unsigned seed) {
    state = seed;
    for (int i = 0; i < CALLS; i++) {
        int place = below(WINDOWS);
        sum = sum * 31 + (unsigned)calls[below((int)(sizeof calls / sizeof calls[0]))](place);
        if (is_visible(place)) sum = sum * 31 + (panel_above(panels[place]) != NULL);
    }
    update(0);
}

int main(void) {
    initscr();
    windows[0] = stdscr;
    for (int i = 1; i < WINDOWS; i++) windows[i] = newwin(3 + i, 14 + 2 * i, (5 * i) % 12, (23 * i) % 50);
    part = derwin(windows[FREE], 3, 9, 1, 2);
    pad = newpad(12, 40);
    fill(pad, '0');
    wrefresh(windows[1]);
    for (unsigned seed = 1; seed <= ROUNDS; seed++) {
        play(seed);
        mvwprintw(windows[1], 1, 1, "%u: %08x", seed, sum);
        wrefresh(windows[1]);
        shot();
    }
    endwin();
    return 0;
}

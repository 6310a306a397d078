/* What doupdate and its kin send to the terminal of curses.h. Nothing here is proved. */
#include "inside.h"
#include "terminal.h"

struct curspan_tty curspan_the_tty = {.in = -1, .out = -1, .own = -1, .line = -1, .bell = -1};
FILE *curspan_stream;

static int visibility_now = 1;
static struct curspan_outgoing outgoing;

/* Takes the terminal's size over where it may be another, comes to the picture's page, and writes what has changed. */
static int update(void) {
    if (!stdscr) return ERR;
    bool is_told = CURSPAN_TAKE(curspan_the_tty.was_resized), was_away = CURSPAN_TAKE(curspan_the_tty.was_away);
    if (is_told || was_away) curspan_resize_to_terminal(is_told);
    bool is_shown = curspan_is_shown(&curspan_the_tty) && !was_away;
    if (!is_shown) curspan_palette_now()->is_alternate = false;
    if (!curspan_come_back(&curspan_the_tty)) return ERR;
    if (!is_shown) curspan_invalidate(curspan_settle());
    curspan_answer answer = curspan_doupdate(curspan_settle());
    curscr->begin_y = curspan_shown_y;
    curscr->begin_x = curspan_shown_x;
    bool is_sent = curspan_hand_on(&curspan_the_tty, curspan_settle(), curspan_palette_now(), &outgoing);
    return is_sent ? done(answer) : ERR;
}

int doupdate(void) {
    curspan_hold_stop(&curspan_the_tty);
    int answer = update();
    curspan_let_stop(&curspan_the_tty);
    return answer;
}

bool curspan_redraw_after_stop(void) {
    bool was_stopped = CURSPAN_TAKE(curspan_the_tty.was_stopped);
    if (was_stopped) doupdate();
    return was_stopped;
}

int curs_set(int visibility) {
    static const char hide[] = "\033[?25l", show[] = "\033[?25h";
    struct curspan_tty *tty = &curspan_the_tty;
    int before = visibility_now;
    if (!stdscr || visibility < 0 || visibility > 2) return ERR;
    if (visibility == before) return before;
    bool changes = (visibility > 0) != (before > 0) && curspan_is_shown(tty);
    if (changes && !curspan_send_text(tty, visibility > 0 ? show : hide)) return ERR;
    snprintf(tty->enter, sizeof tty->enter, CURSPAN_ENTER "%s", visibility > 0 ? "" : hide);
    visibility_now = visibility;
    return before;
}

/* The cursor comes elsewhere than Curspan knows, so that the next refresh draws all. As over ncurses the stream may
   keep the bytes until it is flushed, as at the program's end. */
int mvcur(int old_y, int old_x, int y, int x) {
    (void)old_y;
    (void)old_x;
    if (!stdscr || y < 0 || y >= LINES || x < 0 || x >= COLS) return ERR;
    curspan_invalidate(curspan_settle());
    return fprintf(curspan_stream, "\033[%d;%dH", y + 1, x + 1) < 0 ? ERR : OK;
}

int beep(void) { return stdscr && curspan_send_text(&curspan_the_tty, "\a") ? OK : ERR; }
int flash(void) { return beep(); }

void curspan_forget_output(void) {
    free(outgoing.bytes);
    outgoing = (struct curspan_outgoing){NULL, 0};
    visibility_now = 1;
}

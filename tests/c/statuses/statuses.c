/* The calls of curspan.h: each status that its header names, what is answered, and the bytes that are taken. It looks at all of it itself,
   and tells what is wrong. */
#include <curspan.h>
#include <stdio.h>
#include <string.h>

static curspan screen = CURSPAN_INIT;
static int wrong;

static void want(curspan_answer answer, uint32_t status, uint32_t first, uint32_t second, const char *what) {
    if (answer.status == status && answer.first == first && answer.second == second) return;
    printf("statuses: %s: %s, %u %u; wanted: %s, %u %u\n", what, curspan_text(answer.status), (unsigned)answer.first,
           (unsigned)answer.second, curspan_text(status), (unsigned)first, (unsigned)second);
    wrong++;
}

#define REFUSED(call, status) want(curspan_##call, CURSPAN_##status, 0, 0, #call)
#define ANSWERS(call, first, second) want(curspan_##call, CURSPAN_OK, first, second, #call)

static void see_closed(void) {
    uint8_t byte = 7;
    REFUSED(newwin(&screen, 1, 1, 0, 0), CLOSED);
    REFUSED(waddch(&screen, 0, 'x'), CLOSED);
    REFUSED(doupdate(&screen), CLOSED);
    REFUSED(getyx(&screen, 0), CLOSED);
    REFUSED(wattr_get(&screen, 0), CLOSED);
    REFUSED(next_panel(&screen, 0), CLOSED);
    REFUSED(row(&screen, 0, 0, NULL, 0), CLOSED);
    REFUSED(shown_row(&screen, 0, NULL, 0), CLOSED);
    REFUSED(fill(&screen, 0, 0, 0, 0, 0, 'x'), CLOSED);
    REFUSED(put(&screen, 0, 0, 0, NULL, 0), CLOSED);
    curspan_invalidate(&screen);
    curspan_close(&screen);
    if (curspan_take(&screen, &byte, 1) != 0 || byte != 7) wrong++;
}

static void see_refusals(void) {
    ANSWERS(open(&screen, 10, 20), 0, 0);
    ANSWERS(newwin(&screen, 3, 5, 1, 1), 1, 0);
    ANSWERS(newpad(&screen, 30, 40), 2, 0);
    ANSWERS(derwin(&screen, 1, 2, 2, 1, 1), 3, 0);
    ANSWERS(newwin(&screen, 2, 2, 5, 5), 4, 0);
    ANSWERS(new_panel(&screen, 4), 1, 0);
    REFUSED(waddch(&screen, 9, 'x'), NO_SUCH_WINDOW);
    REFUSED(del_panel(&screen, 5), NO_SUCH_PANEL);
    REFUSED(newwin(&screen, 20, 20, 0, 0), OFF_SCREEN);
    REFUSED(derwin(&screen, 1, 9, 9, 0, 0), OUTSIDE_PARENT);
    REFUSED(wmove(&screen, 1, 3, 0), OUTSIDE_WINDOW);
    REFUSED(delwin(&screen, 1), HAS_DERIVED);
    REFUSED(delwin(&screen, 4), IN_PANEL);
    REFUSED(mvwin(&screen, 2, 0, 0), IS_PAD);
    REFUSED(subpad(&screen, 1, 1, 1, 0, 0), NOT_PAD);
    REFUSED(getparyx(&screen, 1), NOT_DERIVED);
    REFUSED(newpad(&screen, 0, 5), BAD_SIZE);
    REFUSED(wsetscrreg(&screen, 1, 2, 1), BAD_REGION);
    REFUSED(waddch(&screen, 1, 200), BAD_CHARACTER);
    REFUSED(delwin(&screen, 0), STANDARD_SCREEN);
    ANSWERS(hide_panel(&screen, 1), 0, 0);
    REFUSED(top_panel(&screen, 1), HIDDEN);
    REFUSED(wscrl(&screen, 1, 1), SCROLLING_OFF);
    REFUSED(copywin(&screen, 0, 1, 0, 0, 2, 2, 1, 1, false), BAD_RECTANGLE);
    REFUSED(init_pair(&screen, 64, 0, 0), BAD_PAIR);
    REFUSED(open(&screen, 0, 20), BAD_SIZE);
    REFUSED(open(&screen, 10, 1000), BAD_SIZE);
    for (uint32_t n = 5; n <= 1000; n++) ANSWERS(newwin(&screen, 1, 1, 0, 0), n, 0);
    REFUSED(newwin(&screen, 1, 1, 0, 0), TOO_MANY);
}

static void see_answers(void) {
    ANSWERS(wmove(&screen, 1, 2, 4), 0, 0);
    ANSWERS(getyx(&screen, 1), 2, 4);
    ANSWERS(getbegyx(&screen, 4), 5, 5);
    ANSWERS(getmaxyx(&screen, 2), 30, 40);
    ANSWERS(getparyx(&screen, 3), 1, 1);
    ANSWERS(panel_hidden(&screen, 1), 1, 0);
    ANSWERS(show_panel(&screen, 1), 0, 0);
    ANSWERS(panel_hidden(&screen, 1), 0, 0);
    ANSWERS(panel_window(&screen, 1), 4, 0);
    ANSWERS(panel_above(&screen, 1), 0, 0);
    ANSWERS(panel_above(&screen, 0), 1, 0);
    ANSWERS(wattrset(&screen, 1, CURSPAN_BOLD | CURSPAN_INVIS), 0, 0);
    ANSWERS(wcolor_set(&screen, 1, 9), 0, 0);
    ANSWERS(waddch(&screen, 1, 'A'), 0, 0);
    ANSWERS(wmove(&screen, 1, 2, 4), 0, 0);
    uint32_t cell = curspan_winch(&screen, 1).first;
    if (CURSPAN_CHARACTER(cell) != 'A' || CURSPAN_ATTRIBUTES(cell) != 0x21 || CURSPAN_PAIR(cell) != 9) wrong++;
    ANSWERS(is_linetouched(&screen, 1, 2), 1, 0);
    ANSWERS(is_linetouched(&screen, 1, 0), 0, 0);
}

/* A screen of 4 by 10, a window with a panel, a pad, and one that derives from each. */
static void make_windows(void) {
    ANSWERS(open(&screen, 4, 10), 0, 0);
    ANSWERS(newwin(&screen, 2, 6, 1, 2), 1, 0);
    ANSWERS(newpad(&screen, 3, 8), 2, 0);
    ANSWERS(derwin(&screen, 1, 1, 3, 1, 2), 3, 0);
    ANSWERS(subpad(&screen, 2, 1, 1, 1, 3), 4, 0);
    ANSWERS(new_panel(&screen, 1), 1, 0);
}

static void see_settings(void) {
    const curspan *asked = &screen;
    make_windows();
    ANSWERS(wattr_get(asked, 1), 0, 0);
    ANSWERS(wattrset(&screen, 1, CURSPAN_BOLD | CURSPAN_REVERSE), 0, 0);
    ANSWERS(wcolor_set(&screen, 1, 5), 0, 0);
    ANSWERS(wattr_get(asked, 1), 0x11, 5);
    ANSWERS(getbkgd(asked, 1), ' ', 0);
    ANSWERS(wbkgdset(&screen, 1, CURSPAN_DIM, '.'), 0, 0);
    ANSWERS(wbkgdpair(&screen, 1, 63), 0, 0);
    ANSWERS(getbkgd(asked, 1), 63 * 65536 + 0x02 * 256 + '.', 0);
    ANSWERS(wgetscrreg(asked, 2), 0, 2);
    ANSWERS(wsetscrreg(&screen, 2, 1, 2), 0, 0);
    ANSWERS(wgetscrreg(asked, 2), 1, 2);
    ANSWERS(is_scrollok(asked, 2), 0, 0);
    ANSWERS(scrollok(&screen, 2, true), 0, 0);
    ANSWERS(is_scrollok(asked, 2), 1, 0);
    ANSWERS(is_cleared(asked, 1), 0, 0);
    ANSWERS(wclear(&screen, 1), 0, 0);
    ANSWERS(is_cleared(asked, 1), 1, 0);
    REFUSED(wattr_get(asked, 5), NO_SUCH_WINDOW);
    REFUSED(getbkgd(asked, 5), NO_SUCH_WINDOW);
    REFUSED(wgetscrreg(asked, 5), NO_SUCH_WINDOW);
    REFUSED(is_scrollok(asked, 5), NO_SUCH_WINDOW);
    REFUSED(is_cleared(asked, 5), NO_SUCH_WINDOW);
}

static void see_kinships(void) {
    const curspan *asked = &screen;
    make_windows();
    ANSWERS(is_pad(asked, 1), 0, 0);
    ANSWERS(is_pad(asked, 2), 1, 0);
    ANSWERS(is_pad(asked, 4), 1, 0);
    ANSWERS(wgetparent(asked, 3), 1, 0);
    ANSWERS(wgetparent(asked, 4), 2, 0);
    REFUSED(wgetparent(asked, 2), NOT_DERIVED);
    REFUSED(wgetparent(asked, 5), NO_SUCH_WINDOW);
    ANSWERS(window_panel(asked, 1), 1, 0);
    ANSWERS(window_panel(asked, 3), 0, 0);
    REFUSED(is_pad(asked, 5), NO_SUCH_WINDOW);
    REFUSED(window_panel(asked, 5), NO_SUCH_WINDOW);
    ANSWERS(delwin(&screen, 3), 0, 0);
    ANSWERS(next_window(asked, 0), 1, 0);
    ANSWERS(next_window(asked, 1), 2, 0);
    ANSWERS(next_window(asked, 2), 4, 0);
    ANSWERS(next_window(asked, 4), 0, 0);
    ANSWERS(next_window(asked, UINT32_MAX), 0, 0);
    ANSWERS(newwin(&screen, 1, 1, 0, 0), 3, 0);
    ANSWERS(new_panel(&screen, 3), 2, 0);
    ANSWERS(hide_panel(&screen, 2), 0, 0);
    ANSWERS(next_panel(asked, 0), 1, 0);
    ANSWERS(next_panel(asked, 1), 2, 0);
    ANSWERS(next_panel(asked, 2), 0, 0);
    ANSWERS(del_panel(&screen, 1), 0, 0);
    ANSWERS(next_panel(asked, 0), 2, 0);
    ANSWERS(next_panel(asked, UINT32_MAX), 0, 0);
}

static void want_cells(const uint32_t *cells, const uint32_t *wanted, size_t count, const char *what) {
    for (size_t i = 0; i < count; i++) {
        if (cells[i] == wanted[i]) continue;
        printf("statuses: %s: cell %u is %x; wanted: %x\n", what, (unsigned)i, (unsigned)cells[i], (unsigned)wanted[i]);
        wrong++;
    }
}

/* Rows are read from their first cell on, as far as there is room, and no cursor moves. */
static void see_rows(void) {
    enum { H = 7 * 65536 + 0x04 * 256 + 'h', I = 7 * 65536 + 0x04 * 256 + 'i', OTHER = 77 };
    static const uint32_t all[10] = {' ', ' ', H, I, ' ', ' ', ' ', ' ', OTHER, OTHER};
    static const uint32_t three[4] = {' ', ' ', H, OTHER};
    static const uint32_t shown[10] = {0x04010468, 0x04010469, 0x09090020, 0x09090020, 0x09090020,
                                       0x09090020, 0x09090020, 0x09090020, 0x09090020, 0x09090020};
    const curspan *asked = &screen;
    uint32_t cells[10];
    make_windows();
    ANSWERS(init_pair(&screen, 7, 1, 4), 0, 0);
    ANSWERS(wattrset(&screen, 2, CURSPAN_UNDERLINE), 0, 0);
    ANSWERS(wcolor_set(&screen, 2, 7), 0, 0);
    ANSWERS(wmove(&screen, 2, 1, 2), 0, 0);
    ANSWERS(waddstr(&screen, 2, "hi", 2), 0, 0);
    for (size_t i = 0; i < 10; i++) cells[i] = OTHER;
    ANSWERS(row(asked, 2, 1, NULL, 0), 8, 0);
    ANSWERS(row(asked, 2, 1, cells, 3), 8, 0);
    want_cells(cells, three, 4, "a row for which there is little room");
    ANSWERS(row(asked, 2, 1, cells, 10), 8, 0);
    want_cells(cells, all, 10, "a row");
    REFUSED(row(asked, 2, 3, cells, 10), OUTSIDE_WINDOW);
    REFUSED(row(asked, 5, 0, cells, 10), NO_SUCH_WINDOW);
    REFUSED(shown_row(asked, 4, cells, 10), OUTSIDE_WINDOW);
    want_cells(cells, all, 10, "a row after refusals");
    ANSWERS(row(asked, 4, 0, cells, 10), 1, 0);
    want_cells(cells, &all[3], 1, "a derived pad's row");
    ANSWERS(getyx(asked, 2), 1, 4);
    ANSWERS(cell(asked, 2, 1, 2), H, 0);
    ANSWERS(cell(asked, 4, 0, 0), I, 0);
    REFUSED(cell(asked, 2, 3, 7), OUTSIDE_WINDOW);
    REFUSED(cell(asked, 2, 2, 8), OUTSIDE_WINDOW);
    REFUSED(cell(asked, 5, 0, 0), NO_SUCH_WINDOW);
    ANSWERS(pnoutrefresh(&screen, 2, 1, 2, 3, 0, 3, 1), 0, 0);
    ANSWERS(shown_row(asked, 3, NULL, 0), 10, 0);
    ANSWERS(shown_row(asked, 3, cells, 10), 10, 0);
    want_cells(cells, shown, 10, "a row as it is shown");
    if (CURSPAN_CHARACTER(cells[0]) != 'h' || CURSPAN_ATTRIBUTES(cells[0]) != CURSPAN_UNDERLINE) wrong++;
    if (CURSPAN_FOREGROUND(cells[0]) != 1 || CURSPAN_BACKGROUND(cells[0]) != 4 || CURSPAN_FOREGROUND(cells[2]) != 9) wrong++;
}

static void want_row(uint32_t win, uint32_t y, const uint32_t *wanted, uint32_t count, const char *what) {
    uint32_t cells[10];
    ANSWERS(row(&screen, win, y, cells, 10), count, 0);
    want_cells(cells, wanted, count, what);
}

/* A rectangle is refused by the first of its tests, and so is a row. */
static void see_refused_cells(void) {
    static const uint32_t bad[2] = {CURSPAN_CELL('x', 0, 64), CURSPAN_CELL(31, 0, 0)};
    make_windows();
    REFUSED(fill(&screen, 9, 1, 0, 0, 99, 0), NO_SUCH_WINDOW);
    REFUSED(fill(&screen, 1, 1, 0, 0, 99, 0), BAD_RECTANGLE);
    REFUSED(fill(&screen, 1, 0, 2, 99, 1, 0), BAD_RECTANGLE);
    REFUSED(fill(&screen, 1, 0, 0, 2, 5, 0), OUTSIDE_WINDOW);
    REFUSED(fill(&screen, 1, 0, 0, 1, 6, 0), OUTSIDE_WINDOW);
    REFUSED(fill(&screen, 1, 0, 0, 1, 5, CURSPAN_CELL(127, 0, 64)), BAD_CHARACTER);
    REFUSED(fill(&screen, 1, 0, 0, 1, 5, CURSPAN_CELL('x', 0, 64)), BAD_PAIR);
    REFUSED(fill(&screen, 65536, 0, 0, 0, 0, 'x'), NO_SUCH_WINDOW);
    REFUSED(fill(&screen, 1, 0, 0, UINT32_MAX, UINT32_MAX, 'x'), OUTSIDE_WINDOW);
    REFUSED(put(&screen, 9, 2, 0, bad, 2), NO_SUCH_WINDOW);
    REFUSED(put(&screen, 1, 2, 0, bad, 2), OUTSIDE_WINDOW);
    REFUSED(put(&screen, 1, 0, 5, bad, 2), OUTSIDE_WINDOW);
    REFUSED(put(&screen, 1, 0, 7, NULL, 0), OUTSIDE_WINDOW);
    REFUSED(put(&screen, 1, 0, 0, bad, 2), BAD_CHARACTER);
    REFUSED(put(&screen, 1, 0, 0, bad, 1), BAD_PAIR);
    ANSWERS(is_wintouched(&screen, 1), 0, 0);
}

/* Cells are written as they are, in windows that share them too, and no cursor moves. */
static void see_given_cells(void) {
    enum { A = 5 * 65536 + 0x01 * 256 + 'a', B = 63 * 65536 + 'b' };
    static const uint32_t given[3] = {CURSPAN_CELL('a', CURSPAN_BOLD, 5), CURSPAN_CELL('b', 0, 63), 'x'};
    static const uint32_t filled[6] = {' ', ' ', ' ', ' ', A, A};
    static const uint32_t put[6] = {' ', ' ', A, B, 'x', A};
    static const uint32_t of_pad[8] = {CURSPAN_CELL('y', 0x21, 0), ' ', ' ', ' ', ' ', ' ', A, B};
    static const uint32_t shown[10] = {0x09090020, 0x09090020, 0x09090020, 0x09090020, 0x09090161,
                                       0x09090062, 0x09090078, 0x09090161, 0x09090020, 0x09090020};
    uint32_t cells[10];
    make_windows();
    ANSWERS(wbkgdset(&screen, 1, CURSPAN_DIM, '.'), 0, 0);
    ANSWERS(wattrset(&screen, 1, CURSPAN_REVERSE), 0, 0);
    ANSWERS(scrollok(&screen, 1, true), 0, 0);
    ANSWERS(wmove(&screen, 1, 1, 3), 0, 0);
    ANSWERS(fill(&screen, 1, 0, 4, 1, 5, given[0]), 0, 0);
    want_row(1, 0, filled, 6, "a filled line");
    want_row(1, 1, filled, 6, "the last filled line");
    want_row(3, 0, &filled[2], 3, "a line of a window that shares cells");
    ANSWERS(is_wintouched(&screen, 3), 0, 0);
    ANSWERS(put(&screen, 3, 0, 0, given, 3), 0, 0);
    want_row(1, 1, put, 6, "a row that was put through a derived window");
    ANSWERS(getyx(&screen, 1), 1, 3);
    ANSWERS(getyx(&screen, 3), 0, 0);
    ANSWERS(put(&screen, 2, 2, 6, given, 2), 0, 0);
    ANSWERS(fill(&screen, 2, 2, 0, 2, 0, CURSPAN_CELL('y', 0xE1, 0)), 0, 0);
    want_row(2, 2, of_pad, 8, "a pad's row, whose attributes are of the six");
    ANSWERS(put(&screen, 2, 0, 8, NULL, 0), 0, 0);
    ANSWERS(is_linetouched(&screen, 2, 0), 0, 0);
    curspan_update_panels(&screen);
    ANSWERS(shown_row(&screen, 2, cells, 10), 10, 0);
    want_cells(cells, shown, 10, "given cells as they are shown");
    ANSWERS(fill(&screen, 1, 0, 0, 1, 0, 'z'), 0, 0);
    ANSWERS(update_panels(&screen), 2, 0);
}

/* Numbers of more than 16 bits, and characters of more than 8, are refused, and not cut. */
static void see_too_great(void) {
    make_windows();
    REFUSED(wmove(&screen, 65536, 0, 0), NO_SUCH_WINDOW);
    REFUSED(wmove(&screen, 0, 65536, 0), OUTSIDE_WINDOW);
    REFUSED(wmove(&screen, 0, 0, UINT32_MAX), OUTSIDE_WINDOW);
    REFUSED(wmove(&screen, UINT32_MAX, 0, 0), NO_SUCH_WINDOW);
    REFUSED(newwin(&screen, 65537, 1, 0, 0), OFF_SCREEN);
    REFUSED(newwin(&screen, 1, 1, 0, 65536), OFF_SCREEN);
    REFUSED(newpad(&screen, 65537, 1), BAD_SIZE);
    REFUSED(derwin(&screen, 1, 65536, 1, 0, 0), OUTSIDE_PARENT);
    REFUSED(open(&screen, 65536 + 24, 80), BAD_SIZE);
    REFUSED(waddch(&screen, 0, 256 + 'A'), BAD_CHARACTER);
    REFUSED(winsch(&screen, 0, 65536 + 'A'), BAD_CHARACTER);
    REFUSED(wbkgdset(&screen, 0, 0, 256 + ' '), BAD_CHARACTER);
    REFUSED(wcolor_set(&screen, 0, 65536), BAD_PAIR);
    REFUSED(init_pair(&screen, 65537, 0, 0), BAD_PAIR);
    REFUSED(init_pair(&screen, 1, 65536, 0), BAD_PAIR);
    REFUSED(wsetscrreg(&screen, 0, 65536, 65537), BAD_REGION);
    REFUSED(touchline(&screen, 0, 0, 65537), OUTSIDE_WINDOW);
    REFUSED(copywin(&screen, 0, 1, 65536, 0, 0, 0, 0, 0, false), OUTSIDE_WINDOW);
    REFUSED(is_linetouched(&screen, 0, 65536), OUTSIDE_WINDOW);
    REFUSED(row(&screen, 65536, 0, NULL, 0), NO_SUCH_WINDOW);
    REFUSED(row(&screen, 0, 65536, NULL, 0), OUTSIDE_WINDOW);
    REFUSED(shown_row(&screen, 65536, NULL, 0), OUTSIDE_WINDOW);
    REFUSED(is_pad(&screen, 65536), NO_SUCH_WINDOW);
    REFUSED(del_panel(&screen, 65537), NO_SUCH_PANEL);
    REFUSED(panel_above(&screen, 65536), NO_SUCH_PANEL);
    ANSWERS(scrollok(&screen, 0, true), 0, 0);
    ANSWERS(waddch(&screen, 0, 'A'), 0, 0);
    ANSWERS(wscrl(&screen, 0, 65536), 0, 0);
    ANSWERS(wmove(&screen, 0, 0, 0), 0, 0);
    ANSWERS(winch(&screen, 0), ' ', 0);
    ANSWERS(waddch(&screen, 0, 'A'), 0, 0);
    ANSWERS(wscrl(&screen, 0, INT32_MIN), 0, 0);
    ANSWERS(wmove(&screen, 0, 0, 0), 0, 0);
    ANSWERS(winch(&screen, 0), ' ', 0);
}

static void want_text(const char *text, const char *wanted) {
    if (strcmp(text, wanted) == 0) return;
    printf("statuses: a text is \"%s\"; wanted: \"%s\"\n", text, wanted);
    wrong++;
}

static void see_texts(void) {
    want_text(curspan_text(CURSPAN_OK), "done");
    want_text(curspan_text(CURSPAN_NO_SUCH_WINDOW), "there is no such window or pad");
    want_text(curspan_text(CURSPAN_WRITE_FAILED), "there is no memory for the bytes of a doupdate");
    want_text(curspan_text(CURSPAN_CLOSED), "the screen is closed");
    want_text(curspan_text(23), "there is no such status");
    want_text(curspan_version(), CURSPAN_VERSION);
    if (*curspan_commit() == '\0') wrong++;
}

/* The bytes are kept until there is room, and each is taken once. */
static void see_bytes(void) {
    static const char wanted[] = "\033[0m\033[2J\033[1;1Hhi";
    char bytes[100];
    memset(bytes, '.', sizeof bytes);
    ANSWERS(open(&screen, 2, 5), 0, 0);
    ANSWERS(waddstr(&screen, 0, NULL, 0), 0, 0);
    ANSWERS(waddstr(&screen, 0, "hi", 2), 0, 0);
    curspan_update_panels(&screen);
    ANSWERS(doupdate(&screen), 16, 0);
    if (curspan_take(&screen, NULL, 0) != 16) wrong++;
    if (curspan_take(&screen, (uint8_t *)bytes, 15) != 16 || bytes[0] != '.') wrong++;
    if (curspan_take(&screen, (uint8_t *)bytes, 16) != 16 || memcmp(bytes, wanted, 16) != 0 || bytes[16] != '.') wrong++;
    if (curspan_take(&screen, (uint8_t *)bytes, 16) != 0) wrong++;
    ANSWERS(doupdate(&screen), 0, 0);
    curspan_invalidate(&screen);
    ANSWERS(doupdate(&screen), 16, 0);
    if (curspan_take(&screen, (uint8_t *)bytes, 100) != 16 || memcmp(bytes, wanted, 16) != 0) wrong++;
}

/* A screen is opened over another, which is given back, of any size up to the largest. */
static void see_screens(void) {
    static uint8_t bytes[4096];
    static uint32_t cells[CURSPAN_LARGEST_SCREEN];
    static const uint32_t sizes[][2] = {{999, 999}, {1, 1}, {501, 2}, {2, 501}, {999, 1}, {1, 999}, {24, 80}};
    for (size_t i = 0; i < sizeof sizes / sizeof sizes[0]; i++) {
        uint32_t lines = sizes[i][0], columns = sizes[i][1];
        ANSWERS(open(&screen, lines, columns), 0, 0);
        ANSWERS(getmaxyx(&screen, 0), lines, columns);
        ANSWERS(wmove(&screen, 0, lines - 1, columns - 1), 0, 0);
        ANSWERS(waddch(&screen, 0, '#'), 0, 0);
        curspan_update_panels(&screen);
        uint32_t sent = curspan_doupdate(&screen).first;
        if (sent < 21 || curspan_take(&screen, bytes, sizeof bytes) != sent || memchr(bytes, '#', sent) == NULL) {
            printf("statuses: a screen of %d by %d isn't drawn\n", (int)lines, (int)columns);
            wrong++;
        }
        ANSWERS(row(&screen, 0, lines - 1, cells, CURSPAN_LARGEST_SCREEN), columns, 0);
        if (cells[columns - 1] != '#') wrong++;
        ANSWERS(shown_row(&screen, lines - 1, cells, columns), columns, 0);
        if (cells[columns - 1] != 0x09090023) wrong++;
    }
}

int main(void) {
    see_closed();
    see_refusals();
    see_answers();
    see_settings();
    see_kinships();
    see_rows();
    see_refused_cells();
    see_given_cells();
    see_too_great();
    see_texts();
    see_bytes();
    see_screens();
    curspan_close(&screen);
    see_closed();
    printf("statuses: %d times wrong\n", wrong);
    return wrong > 0;
}

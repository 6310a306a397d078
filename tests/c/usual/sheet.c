/* A table of cells with lines between them, of which rows and columns go in and out. */
#include "../shot.h"

enum { ROWS = 9, WIDTH = 9, COLUMNS_OF = 8 };

static void draw_lines(void) {
    for (int row = 0; row <= ROWS; row++) {
        mvhline(2 * row + 1, 0, ACS_HLINE, COLUMNS_OF * WIDTH + 1);
        for (int column = 0; column <= COLUMNS_OF; column++) {
            chtype end = row == 0 ? ACS_TTEE : row == ROWS ? ACS_BTEE : ACS_PLUS;
            if (column == 0) end = row == 0 ? ACS_ULCORNER : row == ROWS ? ACS_LLCORNER : ACS_LTEE;
            if (column == COLUMNS_OF) end = row == 0 ? ACS_URCORNER : row == ROWS ? ACS_LRCORNER : ACS_RTEE;
            mvaddch(2 * row + 1, column * WIDTH, end);
            if (row < ROWS) mvaddch(2 * row + 2, column * WIDTH, ACS_VLINE);
        }
    }
}

static void draw_cells(void) {
    for (int row = 0; row < ROWS; row++)
        for (int column = 0; column < COLUMNS_OF; column++) {
            int value = (row + 2) * (column + 3) * 17 % 211 - 60;
            if (value < 0) attron(COLOR_PAIR(1));
            mvprintw(2 * row + 2, column * WIDTH + 1, "%7.2f", value / 4.0);
            attroff(COLOR_PAIR(1));
        }
}

static void look(void) {
    refresh();
    shot();
}

int main(void) {
    initscr();
    start_color();
    use_default_colors();
    init_pair(1, COLOR_RED, -1);
    init_pair(2, COLOR_BLACK, COLOR_GREEN);
    draw_lines();
    draw_cells();
    attron(A_STANDOUT);
    mvprintw(0, 0, "%-79s", " A1: 12.5");
    attroff(A_STANDOUT);
    look();
    for (int i = 0; i < 4; i++) {
        mvchgat(2 + 2 * i, 1 + WIDTH * i, WIDTH - 1, A_REVERSE, 0, NULL);
        move(2 + 2 * i, 1 + WIDTH * i);
        look();
        mvchgat(2 + 2 * i, 1 + WIDTH * i, WIDTH - 1, A_NORMAL, i == 2 ? 2 : 0, NULL);
    }
    move(5, 0);
    insdelln(2);
    look();
    move(5, 0);
    insdelln(-2);
    look();
    move(4, 20);
    insertln();
    look();
    deleteln();
    look();
    for (int row = 0; row < ROWS; row++)
        for (int i = 0; i < WIDTH; i++) mvdelch(2 * row + 2, WIDTH);
    look();
    for (int row = 0; row < ROWS; row++) mvinsstr(2 * row + 2, WIDTH, "    new ");
    look();
    attrset(COLOR_PAIR(2));
    mvaddstr(23, 0, "A status line to the end of the screen's last line, whose last place is written.");
    look();
    attrset(A_NORMAL);
    for (int row = 0; row < 3; row++) mvprintw(2 * row + 2, 75, "%c%d", "xyz"[row], row);
    look();
    move(11, 30);
    clrtobot();
    look();
    char found[20] = "";
    chtype cells[12];
    mvinnstr(2, 1, found, 8);
    mvinchnstr(2, 1, cells, 10);
    mvprintw(20, 5, "read: '%s' %c", found, (int)(cells[3] & A_CHARTEXT));
    mvaddchnstr(21, 5, cells, 8);
    look();
    endwin();
    return 0;
}

/* A pager: a long text in a pad, of which the screen shows a part, with a search. It follows the terminal's size. */
#include "shot.h"

enum { TEXT_LINES = 120, TEXT_COLUMNS = 100 };

static WINDOW *text;
static int top, left;
static char searched[20];

static void fill_text(void) {
    for (int y = 0; y < TEXT_LINES; y++) {
        wattrset(text, (int)(y % 10 == 0 ? A_BOLD | COLOR_PAIR(1) : A_NORMAL));
        mvwprintw(text, y, 0, "%3d  %s", y, y % 10 == 0 ? "a heading" : "and so on, in lines that all say the same, but for their number, and are long: ");
        if (y % 7 == 3) waddstr(text, "seven");
    }
}

static int lines_shown(void) { return LINES - 1; }

static void draw(void) {
    int last = TEXT_LINES - lines_shown();
    if (top > last) top = last;
    if (top < 0) top = 0;
    move(LINES - 1, 0);
    clrtoeol();
    attron(A_REVERSE);
    printw("lines %d to %d", top, top + lines_shown() - 1);
    attroff(A_REVERSE);
    if (*searched) printw(" of %s", searched);
    pnoutrefresh(text, top, left, 0, 0, lines_shown() - 1, COLS - 1);
    wnoutrefresh(stdscr);
    doupdate();
}

static void search(void) {
    char line[TEXT_COLUMNS + 1];
    move(LINES - 1, 0);
    clrtoeol();
    addch('/');
    echo();
    getnstr(searched, sizeof searched - 1);
    noecho();
    for (int y = top + 1; y < TEXT_LINES; y++) {
        mvwinnstr(text, y, 0, line, TEXT_COLUMNS);
        if (strstr(line, searched)) {
            top = y;
            return;
        }
    }
    beep();
}

/* Does what a key asks for, and answers whether the pager goes on. */
static bool obey(int key) {
    switch (key) {
    case KEY_DOWN: top++; break;
    case KEY_UP: top--; break;
    case KEY_NPAGE: top += lines_shown(); break;
    case KEY_PPAGE: top -= lines_shown(); break;
    case KEY_RIGHT: if (left + COLS < TEXT_COLUMNS) left += 10; break;
    case KEY_LEFT: if (left > 0) left -= 10; break;
    case KEY_HOME: top = 0; break;
    case KEY_END: top = TEXT_LINES; break;
    case '/': search(); break;
    case KEY_RESIZE:
        erase();
        refresh();
        break;
    case ERR:
    case 'q': return false;
    }
    return true;
}

int main(void) {
    initscr();
    cbreak();
    noecho();
    keypad(stdscr, TRUE);
    start_color();
    init_pair(1, COLOR_YELLOW, COLOR_BLUE);
    refresh();
    text = newpad(TEXT_LINES, TEXT_COLUMNS);
    fill_text();
    bool goes_on = true;
    while (goes_on) {
        draw();
        shot();
        for (int key; goes_on && (key = getch()) != ' ';) goes_on = obey(key);
    }
    delwin(text);
    endwin();
    return 0;
}

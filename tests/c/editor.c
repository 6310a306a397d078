/* An editor: a text in a window that scrolls, a line that says where the cursor is, and a question at the end. */
#include "shot.h"

enum { MOST_LINES = 60, MOST_COLUMNS = 70 };

static char text[MOST_LINES][MOST_COLUMNS + 1] = {"An editor for a text", "of a few lines.", "", "\tIt knows tabs, too."};
static int count = 4, line, column, top;
static WINDOW *page, *status;

static void draw(void) {
    int lines = getmaxy(page);
    if (line < top) top = line;
    if (line >= top + lines) top = line - lines + 1;
    werase(page);
    for (int y = 0; y < lines && top + y < count; y++) mvwaddstr(page, y, 0, text[top + y]);
    mvwprintw(status, 0, 0, "line %d of %d, column %d", line + 1, count, column + 1);
    wclrtoeol(status);
    int x = 0;
    for (int i = 0; i < column; i++) x = text[line][i] == '\t' ? x / 8 * 8 + 8 : x + 1;
    wmove(page, line - top, x);
    wnoutrefresh(status);
    wnoutrefresh(page);
    doupdate();
}

static void insert(char ch) {
    size_t length = strlen(text[line]);
    if (length == MOST_COLUMNS - 8) {
        beep();
        return;
    }
    memmove(&text[line][column + 1], &text[line][column], length - (size_t)column + 1);
    text[line][column++] = ch;
}

static void split(void) {
    if (count == MOST_LINES) {
        beep();
        return;
    }
    memmove(text[line + 2], text[line + 1], sizeof text[0] * (size_t)(count - line - 1));
    strcpy(text[line + 1], &text[line][column]);
    text[line++][column] = 0;
    column = 0;
    count++;
}

/* Joins a line to the one before it. */
static void join(void) {
    if (line == 0 || strlen(text[line - 1]) + strlen(text[line]) >= MOST_COLUMNS - 8) {
        beep();
        return;
    }
    column = (int)strlen(text[line - 1]);
    strcat(text[line - 1], text[line]);
    memmove(text[line], text[line + 1], sizeof text[0] * (size_t)(count - line - 1));
    line--;
    count--;
}

static void delete_before(void) {
    if (column == 0) {
        join();
        return;
    }
    memmove(&text[line][column - 1], &text[line][column], strlen(&text[line][column]) + 1);
    column--;
}

static void move_by(int lines, int columns) {
    line += lines;
    if (line < 0) line = 0;
    if (line >= count) line = count - 1;
    int length = (int)strlen(text[line]);
    column += columns;
    if (column > length) column = length;
    if (column < 0) column = 0;
}

/* Whether the answer to a question is yes. */
static bool is_answered(const char *question) {
    mvwaddstr(status, 0, 0, question);
    wclrtoeol(status);
    wrefresh(status);
    return wgetch(status) == 'y';
}

/* Does what a key asks for, and answers whether the editor goes on. */
static bool obey(int key) {
    switch (key) {
    case KEY_UP: move_by(-1, 0); break;
    case KEY_DOWN: move_by(1, 0); break;
    case KEY_LEFT: move_by(0, -1); break;
    case KEY_RIGHT: move_by(0, 1); break;
    case KEY_HOME: column = 0; break;
    case KEY_END: column = (int)strlen(text[line]); break;
    case KEY_PPAGE: move_by(-getmaxy(page), 0); break;
    case KEY_NPAGE: move_by(getmaxy(page), 0); break;
    case '\r': split(); break;
    case KEY_BACKSPACE: delete_before(); break;
    case KEY_DC:
        if (text[line][column]) {
            column++;
            delete_before();
        }
        break;
    case ERR: return false;
    case 17: return !is_answered("Leave it? (y or n)");
    default:
        if ((key >= ' ' && key <= '~') || key == '\t') insert((char)key);
    }
    return true;
}

int main(void) {
    initscr();
    raw();
    noecho();
    nonl();
    page = newwin(8, MOST_COLUMNS, 1, 2);
    status = newwin(1, 0, LINES - 1, 0);
    wattron(status, A_REVERSE);
    keypad(page, TRUE);
    mvaddstr(0, 0, "Control-Q ends it.");
    wnoutrefresh(stdscr);
    bool goes_on = true;
    while (goes_on) {
        draw();
        shot();
        for (int key; goes_on && (key = wgetch(page)) != 12;) goes_on = obey(key); /* up to Control-L is one picture */
    }
    endwin();
    return 0;
}

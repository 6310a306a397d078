/* A file browser: a list, a part of what is chosen, and a line that says where one is. It follows the terminal's size. */
#include "shot.h"

struct entry {
    const char *name;
    int above; /* the folder that holds it */
    bool is_folder;
};

static const struct entry entries[] = {
    {"/", 0, true},           {"bin", 0, true},         {"docs", 0, true},       {"notes.txt", 0, false}, {"plan.txt", 0, false},
    {"copy", 1, false},       {"list", 1, false},       {"move", 1, false},      {"manual", 2, true},     {"names.txt", 2, false},
    {"chapter-1.txt", 8, false}, {"chapter-2.txt", 8, false}, {"chapter-3.txt", 8, false}, {"chapter-4.txt", 8, false}, {"chapter-5.txt", 8, false},
    {"chapter-6.txt", 8, false}, {"chapter-7.txt", 8, false}, {"chapter-8.txt", 8, false}, {"chapter-9.txt", 8, false}, {"index.txt", 8, false},
};

enum { ENTRIES = sizeof entries / sizeof entries[0], LIST_COLUMNS = 20 };

static WINDOW *list, *view, *status;
static int folder, chosen, first;

/* The entry at a place of the folder, or -1. */
static int entry_at(int place) {
    for (int i = 1; i < ENTRIES; i++)
        if (entries[i].above == folder && place-- == 0) return i;
    return -1;
}

static void draw_list(void) {
    int lines = getmaxy(list);
    if (chosen < first) first = chosen;
    if (chosen >= first + lines) first = chosen - lines + 1;
    werase(list);
    for (int y = 0; y < lines; y++) {
        int entry = entry_at(first + y);
        if (entry < 0) break;
        if (first + y == chosen) wattron(list, A_REVERSE);
        mvwaddstr(list, y, 0, entries[entry].name);
        if (entries[entry].is_folder) waddch(list, '/');
        wattroff(list, A_REVERSE);
    }
    wmove(list, chosen - first, 0);
}

static void draw_view(void) {
    int entry = entry_at(chosen);
    werase(view);
    wborder(view, '|', ' ', ' ', ' ', '|', ' ', '|', ' ');
    if (entry < 0) return;
    for (int y = 0; y < getmaxy(view); y++)
        mvwprintw(view, y, 2, "%.*s", getmaxx(view) - 3, entries[entry].is_folder ? "(a folder)" : "what the file of this name has to say");
}

static void draw(void) {
    draw_list();
    draw_view();
    werase(status);
    wprintw(status, "%.30s, %d of the entries, %d by %d", entries[folder].name, chosen + 1, LINES, COLS);
    wnoutrefresh(stdscr);
    wnoutrefresh(view);
    wnoutrefresh(status);
    wnoutrefresh(list);
    doupdate();
}

/* Gives each window its part of the screen. */
static void arrange(void) {
    wresize(list, LINES - 1, LIST_COLUMNS);
    wresize(view, LINES - 1, COLS - LIST_COLUMNS);
    wresize(status, 1, COLS);
    mvwin(status, LINES - 1, 0);
    erase();
}

static void open_entry(void) {
    int entry = entry_at(chosen);
    if (entry < 0 || !entries[entry].is_folder) {
        beep();
        return;
    }
    folder = entry;
    chosen = first = 0;
}

static void leave_folder(void) {
    int left = folder;
    folder = entries[folder].above;
    for (chosen = 0; entry_at(chosen) >= 0 && entry_at(chosen) != left; chosen++) continue;
    if (entry_at(chosen) < 0) chosen = 0;
    first = 0;
}

/* Does what a key asks for, and answers whether the browser goes on. */
static bool obey(int key) {
    switch (key) {
    case KEY_DOWN: if (entry_at(chosen + 1) >= 0) chosen++; break;
    case KEY_UP: if (chosen > 0) chosen--; break;
    case KEY_END: while (entry_at(chosen + 1) >= 0) chosen++; break;
    case KEY_HOME: chosen = 0; break;
    case '\n':
    case KEY_RIGHT: open_entry(); break;
    case KEY_BACKSPACE:
    case KEY_LEFT: leave_folder(); break;
    case KEY_RESIZE: arrange(); break;
    case ERR:
    case 'q': return false;
    }
    return true;
}

int main(void) {
    initscr();
    cbreak();
    noecho();
    list = newwin(LINES - 1, LIST_COLUMNS, 0, 0);
    view = newwin(LINES - 1, COLS - LIST_COLUMNS, 0, LIST_COLUMNS);
    status = newwin(1, COLS, LINES - 1, 0);
    wbkgd(status, A_REVERSE);
    keypad(list, TRUE);
    bool goes_on = true;
    while (goes_on) {
        draw();
        shot();
        /* All that is typed until a space belongs to one picture. */
        for (int key; goes_on && (key = wgetch(list)) != ' ';) goes_on = obey(key);
    }
    endwin();
    return 0;
}

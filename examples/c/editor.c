/* An editor of one page: editor FILE. Arrows move, letters are written over, Enter goes to the next line, Backspace erases to the left,
   ^N inserts a line, ^K deletes one, ^S writes the file, ^Q ends. What is past the page's edges isn't read. */
#include <curses.h>
#include <stdio.h>
#include <string.h>

#define CONTROL(letter) ((letter) - 'A' + 1)

static WINDOW *page, *status;

/* Writes into the last line, but for its last column, past which no text goes on in the same way over each curses. */
static void tell(const char *text, const char *name) {
    char line[1000];
    snprintf(line, sizeof line, " %s %s   ^S write  ^N insert line  ^K delete line  ^Q end", text, name);
    werase(status);
    mvwaddnstr(status, 0, 0, line, getmaxx(status) - 1);
}

/* Reads as much of a file as the page shows. */
static void read_page(const char *name) {
    char line[1000];
    FILE *file = fopen(name, "r");
    if (!file) return;
    for (int y = 0; y < getmaxy(page) && fgets(line, sizeof line, file); y++) {
        line[strcspn(line, "\r\n")] = 0;
        mvwaddnstr(page, y, 0, line, getmaxx(page) - 1);
    }
    fclose(file);
    wmove(page, 0, 0);
}

/* Writes the page without the blanks at the ends of lines and of the page, and answers whether that went well. */
static bool write_page(const char *name) {
    char line[1001];
    int y = getcury(page), x = getcurx(page), empty = 0;
    FILE *file = fopen(name, "w");
    if (!file) return false;
    for (int i = 0; i < getmaxy(page); i++) {
        mvwinnstr(page, i, 0, line, getmaxx(page));
        size_t length = strlen(line);
        while (length > 0 && line[length - 1] == ' ') length--;
        line[length] = 0;
        empty++;
        if (length == 0) continue;
        while (--empty > 0) putc('\n', file);
        fprintf(file, "%s\n", line);
    }
    wmove(page, y, x);
    return fclose(file) == 0;
}

static void move_by(int down, int right) { wmove(page, getcury(page) + down, getcurx(page) + right); }

/* Does what a key says, and answers whether the editor goes on. */
static bool obey(int key, const char *name) {
    switch (key) {
    case KEY_UP: move_by(-1, 0); break;
    case KEY_DOWN: move_by(1, 0); break;
    case KEY_RIGHT: move_by(0, 1); break;
    case KEY_LEFT: move_by(0, -1); break;
    case '\n':
    case KEY_ENTER: wmove(page, getcury(page) + 1, 0); break;
    case KEY_BACKSPACE:
    case '\b':
        if (getcurx(page) > 0) {
            move_by(0, -1);
            wdelch(page);
        }
        break;
    case CONTROL('N'): winsertln(page); break;
    case CONTROL('K'): wdeleteln(page); break;
    case CONTROL('S'): tell(write_page(name) ? "written:" : "not written:", name); break;
    case CONTROL('Q'):
    case ERR: return false;
    default:
        if (key >= ' ' && key <= '~' && getcurx(page) < getmaxx(page) - 1) waddch(page, (chtype)key);
    }
    return true;
}

int main(int count, char **words) {
    if (count != 2) {
        fputs("usage: editor FILE\n", stderr);
        return 2;
    }
    initscr();
    raw();
    noecho();
    page = newwin(LINES - 1, COLS, 0, 0);
    status = newwin(1, COLS, LINES - 1, 0);
    if (!page || !status) {
        endwin();
        fputs("editor: there is no room for a page\n", stderr);
        return 1;
    }
    wbkgd(status, A_REVERSE | ' ');
    tell("one page of", words[1]);
    read_page(words[1]);
    keypad(page, TRUE);
    do {
        wnoutrefresh(status);
        wnoutrefresh(page);
        doupdate();
    } while (obey(wgetch(page), words[1]));
    endwin();
    return 0;
}

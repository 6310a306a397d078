/* A list that scrolls: the arrows, Page Up, Page Down, Home and End choose a line of a file, Enter
   ends the list and puts that line out, and q ends it. It follows the size of the terminal. */
#include <curses.h>
#include <stdio.h>
#include <string.h>

enum { MOST = 1000 };

static char lines[MOST][256];
static int count, chosen, first;

/* Draws the lines that there is room for, the chosen one in reverse. */
static void draw(void) {
    chosen = chosen >= count ? count - 1 : chosen < 0 ? 0 : chosen;
    first = chosen < first ? chosen : chosen >= first + LINES ? chosen - LINES + 1 : first;
    erase();
    for (int y = 0; y < LINES && first + y < count; y++) {
        attrset(first + y == chosen ? A_REVERSE : A_NORMAL);
        mvprintw(y, 0, "%-*.*s", COLS, COLS, lines[first + y]);
    }
}

int main(int argc, char **argv) {
    FILE *file = argc == 2 ? fopen(argv[1], "r") : NULL;
    if (!file) return puts("usage: list FILE"), 2;
    while (count < MOST && fgets(lines[count], sizeof lines[0], file)) {
        lines[count][strcspn(lines[count], "\n")] = 0;
        count++;
    }
    fclose(file);
    if (!count) return 1;
    initscr();
    noecho();
    keypad(stdscr, TRUE);
    curs_set(0);
    int key = 0;
    while (key != '\n' && key != 'q' && key != ERR) {
        draw();
        key = getch();
        if (key == KEY_UP) chosen--;
        if (key == KEY_DOWN) chosen++;
        if (key == KEY_PPAGE) chosen -= LINES;
        if (key == KEY_NPAGE) chosen += LINES;
        if (key == KEY_HOME) chosen = 0;
        if (key == KEY_END) chosen = count - 1;
    }
    endwin();
    if (key == '\n') puts(lines[chosen]);
    return key != '\n';
}

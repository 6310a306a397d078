/* Lines that are typed in the last line, below a region that scrolls as in a chat, and in a window that scrolls as a
   whole: with bytes that move the cursor back, tabs and wraps, and rubbed out. */
#include "shot.h"

static void read_below(int bottom) {
    char text[80] = "";
    setscrreg(0, bottom);
    for (int y = 0; y < LINES - 1; y++) mvprintw(y, 0, "message %d", y);
    for (int i = 0; i < 3; i++) {
        move(LINES - 1, 0);
        clrtoeol();
        addstr("> ");
        refresh();
        shot();
        getnstr(text, 70);
        mvprintw(i, 40, "\"%s\"", text);
    }
}

int main(void) {
    initscr();
    cbreak();
    scrollok(stdscr, TRUE);
    read_below(LINES - 2);
    read_below(LINES - 1);
    refresh();
    shot();
    endwin();
    return 0;
}

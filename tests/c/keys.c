/* The keys of a type of terminal: fast and slow, cut at each byte, and a lone escape. A full stop ends each picture, and q the program. */
#include "shot.h"

/* Shows the keys up to a full stop, and answers whether there are more. */
static bool show_keys(void) {
    int key = 0;
    erase();
    while (key != '.' && key != 'q' && key != ERR) {
        key = getch();
        if (key == 'e') ESCDELAY = 50;
        if (key == 's') set_escdelay(2000);
        if (key == 'k') keypad(stdscr, !is_keypad(stdscr));
        if (key == 'n') notimeout(stdscr, !is_notimeout(stdscr));
        printw("%d ", key);
    }
    printw("%d %d", ESCDELAY, is_keypad(stdscr));
    refresh();
    shot();
    return key == '.';
}

int main(void) {
    initscr();
    raw();
    noecho();
    keypad(stdscr, TRUE);
    refresh();
    shot();
    while (show_keys()) continue;
    endwin();
    return 0;
}

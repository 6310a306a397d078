/* Copies from window to window. */
#include "shot.h"

int main(void) {
    initscr();
    WINDOW *letters = newwin(8, 30, 2, 2), *words = newwin(8, 30, 5, 12);
    fill(letters, 'A');
    wattron(words, A_UNDERLINE);
    for (int y = 0; y < 8; y++) mvwaddstr(words, y, 0, "some words with spaces");
    wmove(words, 0, 0);
    wnoutrefresh(letters);
    wnoutrefresh(words);
    doupdate();
    shot();
    overlay(words, letters);
    wrefresh(letters);
    shot();
    overwrite(words, letters);
    wrefresh(letters);
    shot();
    fill(letters, 'A');
    copywin(words, letters, 0, 5, 1, 1, 6, 20, FALSE);
    wrefresh(letters);
    shot();
    fill(letters, 'A');
    copywin(words, letters, 0, 5, 1, 1, 6, 20, TRUE);
    wrefresh(letters);
    shot();
    WINDOW *pad = newpad(3, 20);
    fill(pad, 'a');
    copywin(pad, words, 0, 0, 2, 2, 4, 19, FALSE);
    touchwin(words);
    wrefresh(words);
    shot();
    mvprintw(20, 0, "outside: %d, no window: %d %d", copywin(pad, words, 0, 0, 6, 0, 9, 5, FALSE), overlay(NULL, words), overwrite(words, NULL));
    refresh();
    shot();
    endwin();
    return 0;
}

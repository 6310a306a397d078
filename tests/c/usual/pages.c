/* A viewer of texts: lines that are longer than it, tabs, control characters, and scrolling within a region. */
#include "../shot.h"

static const char text[] =
    "A text\nof several lines,\twith tabs\tin them\n\n  and blanks at the begin. It has a line that is so long that it "
    "goes over the end of the screen's line, and goes on below.\nBackspace: abc\b\bX. Return: abc\rX. Bell: \a. "
    "Others: \001 \037 \177.\nThe end.";

static void look(void) {
    refresh();
    shot();
}

int main(void) {
    initscr();
    addstr(text);
    look();
    mvprintw(12, 0, "%s", text + 10);
    look();
    erase();
    scrollok(stdscr, TRUE);
    for (int i = 0; i < 30; i++) printw("line %d\n", i);
    look();
    scrl(5);
    look();
    scrl(-3);
    look();
    setscrreg(5, 15);
    move(15, 0);
    for (int i = 0; i < 4; i++) printw("in the region %d\n", i);
    look();
    mvaddstr(5, 0, "its first line");
    scrl(2);
    look();
    move(8, 4);
    insertln();
    insertln();
    look();
    move(8, 4);
    deleteln();
    look();
    setscrreg(0, 23);
    move(23, 70);
    addstr("over the end of the screen");
    look();
    scrollok(stdscr, FALSE);
    mvaddstr(23, 70, "over the end again");
    look();
    mvaddstr(22, 75, "once\nmore\nand more");
    look();
    move(10, 40);
    clrtoeol();
    mvaddstr(11, 79, "ab");
    mvaddstr(12, 75, "wrapped here");
    look();
    move(14, 0);
    clrtobot();
    mvprintw(14, 3, "%5d|%-5d|%05d|%x|%s|%c", 42, 42, 42, 255, "text", 'c');
    look();
    for (int i = 0; i < 20; i++) mvaddch(16, 4 * i, (chtype)(i * 7));
    look();
    mvaddstr(18, 0, unctrl(7));
    addstr(keyname(KEY_UP));
    addstr(keyname('a'));
    addstr(keyname(1));
    look();
    delay_output(1);
    scroll(stdscr);
    move(0, 0);
    insstr("inserted before ");
    insch('>' | A_BOLD);
    look();
    endwin();
    return 0;
}

/* Formatted texts, control characters in texts, and texts longer than a line. */
#include "shot.h"

static int print(WINDOW *win, int old, const char *format, ...) {
    va_list arguments;
    va_start(arguments, format);
    int answer = old ? vwprintw(win, format, arguments) : vw_printw(win, format, arguments);
    va_end(arguments);
    return answer;
}

int main(void) {
    char many[400];
    initscr();
    WINDOW *win = newwin(8, 30, 12, 40);
    printw("%d, %s, %c, %5.2f, %x\n", 12, "text", 'c', 3.14159, 255);
    mvprintw(2, 4, "%-10s|%10s|", "left", "right");
    memset(many, 'm', sizeof many - 1);
    many[sizeof many - 1] = 0;
    mvprintw(4, 10, "%s.", many);
    mvaddstr(11, 0, "a\ttab\tand\tmore\n\rthe next line\bE");
    mvaddstr(14, 0, "control \001 \033 \177 characters");
    mvprintw(16, 4, "%c", 'c');
    for (int i = 0; i < 5; i++) printw("%c", "\t\003\0\bd"[i]);
    wprintw(win, "%s %d", "in a window", 1);
    mvwprintw(win, 1, 2, "%03d", 7);
    wmove(win, 2, 0);
    print(win, 0, "by %s ", "a list");
    print(win, 1, "and %s", "another");
    mvwaddstr(win, 3, 0, "this text is longer than the window is wide, so that it goes on below");
    mvwaddstr(win, 7, 0, "\tx\n");
    mvwaddch(win, 6, 3, '\t');
    waddch(win, 'y');
    waddch(win, '\b');
    waddch(win, '\003');
    look_over_screen(win);
    endwin();
    return 0;
}

/* A program of this folder draws, and wherever it calls shot() its screen is looked at: tests/library runs it over ncurses and over
   Curspan, and compares what is on both terminals. */
#ifndef SHOT_H
#define SHOT_H

#include <curses.h>
#include <fcntl.h>
#include <panel.h>
#include <stdlib.h>
#include <string.h>
#include <termios.h>
#include <unistd.h>

/* Most programs have the terminal's own colours in pair 0, so that a blank looks as one that isn't written. */
#define start_color() (start_color(), use_default_colors())

/* Waits until the terminal has read all that was sent: it answers where its cursor is only then. */
static void wait_for_terminal(void) {
    static const char question[] = "\033[6n";
    struct termios before, raw;
    char answer = 0;
    tcgetattr(0, &before);
    raw = before;
    raw.c_lflag &= ~(tcflag_t)(ICANON | ECHO);
    tcsetattr(0, TCSANOW, &raw);
    if (write(1, question, sizeof question - 1) < 0) exit(3);
    while (answer != 'R')
        if (read(0, &answer, 1) != 1) exit(3);
    tcsetattr(0, TCSANOW, &before);
}

/* Lets the screen be looked at: makes the file of SHOT, and waits until it is gone. Without SHOT nobody looks. */
static void shot(void) {
    const char *name = getenv("SHOT");
    if (!name) return;
    wait_for_terminal();
    int file = open(name, O_WRONLY | O_CREAT, 0600);
    if (file < 0 || close(file) < 0) exit(3);
    while (access(name, F_OK) == 0) usleep(1000);
}

/* Fills a window with a letter for each place. */
static inline void fill(WINDOW *win, chtype first) {
    for (int y = 0; y < getmaxy(win); y++)
        for (int x = 0; x < getmaxx(win) - (y == getmaxy(win) - 1); x++) mvwaddch(win, y, x, first + (chtype)((3 * y + x) % 26));
    wmove(win, 0, 0);
}

/* Shows a window with its cursor at its first place, and lets the screen be looked at. */
static inline void look_at(WINDOW *win) {
    wmove(win, 0, 0);
    wrefresh(win);
    shot();
}

/* Shows a window over the standard screen, and lets the screen be looked at. */
static inline void look_over_screen(WINDOW *win) {
    wnoutrefresh(stdscr);
    wnoutrefresh(win);
    doupdate();
    shot();
}

#endif

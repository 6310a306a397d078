/* <ncurses.h>, as many programs have it. See curses.h. */
#include "curses.h"

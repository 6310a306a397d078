/* <ncurses/curses.h>, as some programs have it. See ../curses.h. */
#include "../curses.h"

/* <ncurses/unctrl.h>, as some programs have it. See ../curses.h. */
#include "../curses.h"

/* <unctrl.h>, as X/Open has it. See curses.h. */
#include "curses.h"

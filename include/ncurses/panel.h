/* <ncurses/panel.h>, as some programs have it. See ../panel.h. */
#include "../panel.h"

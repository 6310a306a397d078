/* <menu.h>, as ncurses has it. See curses.h. */
#error Curspan has no menus: a program makes them of windows, panels and keys

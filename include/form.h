/* <form.h>, as ncurses has it. See curses.h. */
#error Curspan has no forms: a program makes them of windows, panels and keys

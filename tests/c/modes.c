/* The modes of the terminal's line after each call that sets one, as termios tells them. */
#include "shot.h"

/* Tells the flags of the line, with what was done. */
static void tell(const char *what) {
    struct termios modes = {0};
    tcgetattr(0, &modes);
    printw("%-18s %5x %4x %6x %d %d\n", what, modes.c_iflag, modes.c_oflag, modes.c_lflag, modes.c_cc[VMIN], modes.c_cc[VTIME]);
}

#define TRY(call) (printw("%d ", call), tell(#call))

/* What is typed is read as bytes, lines, and with time. */
static void try_input(void) {
    TRY(cbreak());
    TRY(nocbreak());
    TRY(raw());
    TRY(noraw());
    TRY(halfdelay(5));
    TRY(halfdelay(0));
    TRY(nocbreak());
    TRY(cbreak());
    TRY(noecho());
    TRY(echo());
    TRY(nonl());
    TRY(nl());
    TRY(meta(NULL, TRUE));
    TRY(intrflush(stdscr, FALSE));
    qiflush();
    tell("qiflush()");
    noqiflush();
    tell("noqiflush()");
    TRY(intrflush(NULL, TRUE));
    TRY(typeahead(-1));
    TRY(flushinp());
}

/* Modes that are kept and put back. */
static void try_keeping(void) {
    struct termios other = {0};
    TRY(raw());
    TRY(savetty());
    TRY(reset_shell_mode());
    TRY(reset_prog_mode());
    TRY(noraw());
    TRY(resetty());
    tcgetattr(0, &other);
    other.c_lflag |= ECHOCTL | NOFLSH;
    tcsetattr(0, TCSANOW, &other);
    TRY(def_prog_mode());
    TRY(cbreak());
    TRY(reset_shell_mode());
    TRY(def_shell_mode());
    TRY(reset_prog_mode());
    printw("%d %d %d %d %d", erasechar(), killchar(), baudrate() > 0, delay_output(1), getnstr(NULL, 3));
}

int main(void) {
    initscr();
    tell("initscr()");
    try_input();
    refresh();
    shot();
    erase();
    try_keeping();
    refresh();
    shot();
    endwin();
    tell("endwin()");
    refresh();
    tell("refresh()");
    refresh();
    shot();
    endwin();
    return 0;
}

/* A program that has Curspan and libtinfo, as one with readline has: neither finds a name of the other in place of its own. */
#include <curses.h>
#include <stdlib.h>
#include <string.h>

/* of libtinfo */
int tgetent(char *entry, const char *type);
int tgetnum(const char *name);
int setupterm(const char *type, int descriptor, int *error);

static int wrong;

static void want(bool holds, const char *what) {
    if (holds) return;
    printf("beside: not so: %s\n", what);
    wrong++;
}

int main(void) {
    char entry[4096];
    int error = 0;
    FILE *out = tmpfile();
    setenv("LINES", "10", 1);
    setenv("COLUMNS", "40", 1);
    want(setupterm("curspan-profile", fileno(out), &error) == OK && error == 1, "terminfo is found before there is a screen");
    SCREEN *screen = newterm(NULL, out, stdin);
    WINDOW *standard = stdscr;
    want(screen && LINES == 10 && COLS == 40, "the screen has its size");
    unsetenv("LINES");
    unsetenv("COLUMNS");
    want(tgetent(entry, "curspan-profile") == 1 && tgetnum("co") == 80, "termcap's names are those of libtinfo");
    want(LINES == 10 && COLS == 40 && stdscr == standard, "it changes nothing of Curspan");
    want(strcmp(curses_version(), "curspan " CURSPAN_VERSION) == 0 && acs_map['q'] == ACS_HLINE, "names that both have are Curspan's");
    mvaddstr(9, 0, "still ten lines");
    want(refresh() == OK && addch('x') == OK && endwin() == OK, "the screen works on");
    delscreen(screen);
    printf("beside: %d times wrong\n", wrong);
    return wrong > 0;
}

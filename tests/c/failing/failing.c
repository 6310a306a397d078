/* A terminal that takes nothing, one that takes little at a time, one that has what it is asked for, and a screen that is not there: refreshes
   answer ERR, the next one that works draws all anew, and no call without a screen does anything. It looks at all of it itself, and tells
   what is wrong. */
#include <curses.h>
#include <fcntl.h>
#include <panel.h>
#include <stdlib.h>
#include <string.h>
#include <sys/wait.h>
#include <unistd.h>

static int wrong;

static void want(bool holds, const char *what) {
    if (holds) return;
    printf("failing: not so: %s\n", what);
    wrong++;
}

/* Whether a file holds a text after its first bytes. */
static bool holds(FILE *file, long from, const char *text) {
    static char bytes[100000];
    fseek(file, from, SEEK_SET);
    size_t length = fread(bytes, 1, sizeof bytes - 1, file);
    bytes[length] = 0;
    return strstr(bytes, text) != NULL;
}

/* The terminal's descriptor is another for a while: a full device, and then the terminal again. */
static void fail_and_mend(void) {
    FILE *out = tmpfile();
    int terminal = dup(fileno(out)), full = open("/dev/full", O_WRONLY);
    SCREEN *screen = newterm(NULL, out, stdin);
    mvaddstr(1, 2, "before");
    want(refresh() == OK, "a refresh on a terminal that takes all is OK");
    long length = lseek(terminal, 0, SEEK_CUR);
    dup2(full, fileno(out));
    mvaddstr(2, 2, "lost");
    want(refresh() == ERR, "a refresh on a full device is ERR");
    want(endwin() == ERR, "endwin on a full device is ERR");
    want(refresh() == ERR, "and a refresh after it");
    dup2(terminal, fileno(out));
    mvaddstr(3, 2, "after");
    want(refresh() == OK, "a refresh on the terminal again is OK");
    FILE *sent = fdopen(terminal, "r");
    want(holds(sent, length, "before") && holds(sent, length, "lost") && holds(sent, length, "after"), "it draws all anew");
    want(holds(sent, length, "\033[2J"), "it clears the terminal");
    delscreen(screen);
    fclose(sent);
    fclose(out);
    close(full);
}

/* A pipe that doesn't wait for its reader, who is slow. */
static void write_slowly(void) {
    int ends[2];
    if (pipe(ends) != 0) exit(3);
    fcntl(ends[1], F_SETPIPE_SZ, 4096);
    fcntl(ends[1], F_SETFL, O_NONBLOCK);
    pid_t reader = fork();
    if (reader == 0) {
        char few[64], last = 0;
        close(ends[1]);
        for (ssize_t count; (count = read(ends[0], few, sizeof few)) > 0; usleep(50)) last = few[count - 1];
        _exit(last == 'l');
    }
    close(ends[0]);
    setenv("LINES", "200", 1);
    setenv("COLUMNS", "200", 1);
    FILE *out = fdopen(ends[1], "w");
    SCREEN *screen = newterm(NULL, out, stdin);
    for (int y = 0; y < LINES; y++) mvhline(y, 0, (chtype)('a' + y % 26), COLS);
    want(refresh() == OK, "a refresh through a slow pipe is OK");
    want(endwin() == OK, "and endwin");
    delscreen(screen);
    fclose(out);
    int status = 0;
    waitpid(reader, &status, 0);
    want(WEXITSTATUS(status) == 1, "the last byte that endwin sends comes through");
}

/* A cursor that is hidden, and is to be hidden. */
static void hide_once(void) {
    FILE *out = tmpfile();
    SCREEN *screen = newterm(NULL, out, stdin);
    want(refresh() == OK && curs_set(0) == 1, "the cursor was shown");
    off_t length = lseek(fileno(out), 0, SEEK_CUR);
    want(curs_set(0) == 0 && refresh() == OK && lseek(fileno(out), 0, SEEK_CUR) == length, "hiding it again sends nothing");
    want(curs_set(1) == 0 && lseek(fileno(out), 0, SEEK_CUR) == length + 6, "showing it sends 6 bytes");
    delscreen(screen);
    fclose(out);
}

/* Calls without a screen, a window or a panel. */
static void without(void) {
    chtype row[2];
    char text[2];
    WINDOW *none = NULL;
    want(!stdscr && addstr("x") == ERR && refresh() == ERR && doupdate() == ERR && endwin() == ERR, "there is no screen");
    want(!newwin(1, 1, 0, 0) && !newpad(1, 1) && !new_panel(stdscr) && !dupwin(stdscr), "no window and no panel are made");
    want(init_pair(1, 1, 1) == ERR && start_color() == ERR && !has_colors() && curs_set(0) == ERR && beep() == ERR, "nor colours");
    want(move(0, 0) == ERR && erase() == ERR && inch() == (chtype)ERR && instr(text) == ERR && inchstr(row) == ERR, "nor cells");
    want(wattron(none, A_BOLD) == ERR && scrollok(none, TRUE) == ERR && clearok(none, TRUE) == ERR && touchwin(none) == ERR, "of no window");
    want(wborder(none, 0, 0, 0, 0, 0, 0, 0, 0) == ERR && whline(none, 0, 1) == ERR && wvline(none, 0, 1) == ERR, "no lines");
    want(del_panel(NULL) == ERR && !panel_window(NULL) && !panel_userptr(NULL) && set_panel_userptr(NULL, "") == ERR, "of no panel");
    update_panels();
}

int main(void) {
    setenv("LINES", "10", 1);
    setenv("COLUMNS", "40", 1);
    without();
    fail_and_mend();
    without();
    hide_once();
    write_slowly();
    want(newterm(NULL, NULL, NULL) == NULL, "no terminal is none");
    printf("failing: %d times wrong\n", wrong);
    return wrong > 0;
}

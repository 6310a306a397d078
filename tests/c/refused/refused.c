/* Refuses each allocation of a job in turn, the first, the second and so on, until none is left. The job makes a screen and all that
   takes memory; each of its calls answers well or is refused. After it nothing is refused any more, and the screen must work on: the
   bytes that draw it anew must be those that were sent where nothing was refused. Linked with --wrap=malloc,--wrap=realloc. */
#include <curses.h>
#include <panel.h>
#include <stdlib.h>
#include <string.h>
#include <unistd.h>

static long allocations, refused_one;
static int refusals, wrong;

void *__real_malloc(size_t size);
void *__real_realloc(void *old, size_t size);
void *__wrap_malloc(size_t size);
void *__wrap_realloc(void *old, size_t size);

void *__wrap_malloc(size_t size) { return ++allocations == refused_one ? NULL : __real_malloc(size); }
void *__wrap_realloc(void *old, size_t size) { return ++allocations == refused_one ? NULL : __real_realloc(old, size); }

static void answered(int answer) {
    if (answer == ERR) refusals++;
    if (answer != ERR && answer != OK) wrong++;
}

static void made(const void *thing) {
    if (!thing) refusals++;
}

/* The job: windows, pads and panels, long texts, borders, refreshes, and sizes that change. */
static SCREEN *work(FILE *out) {
    char long_text[2000];
    SCREEN *screen = newterm(NULL, out, stdin);
    if (!screen) return NULL;
    memset(long_text, 'x', sizeof long_text - 1);
    long_text[sizeof long_text - 1] = 0;
    WINDOW *win = newwin(5, 20, 1, 1), *part = win ? derwin(win, 2, 5, 1, 1) : NULL, *pad = newpad(30, 90);
    WINDOW *copy = win ? dupwin(win) : NULL, *below = pad ? subpad(pad, 3, 3, 0, 0) : NULL;
    made(win);
    made(pad);
    made(part);
    made(copy);
    made(below);
    answered(printw("%s", long_text));
    answered(define_key("\033xy", KEY_MAX));
    if (win) answered(box(win, 0, 0));
    if (win) answered(wbkgd(win, A_REVERSE | ' '));
    if (copy) made(new_panel(copy));
    update_panels();
    answered(doupdate());
    if (pad) answered(prefresh(pad, 0, 0, 3, 3, 10, 40));
    if (win) answered(wresize(win, 8, 30));
    if (win) answered(wresize(win, 30, 100));
    if (win) answered(wrefresh(win));
    answered(resize_term(20, 70));
    answered(doupdate());
    if (win) answered(mvwin(win, 0, 0));
    return screen;
}

/* Draws the standard screen anew, and answers how many bytes that took, or -1 where they don't fit. */
static long draw(FILE *out, char *bytes, long room) {
    fseek(out, 0, SEEK_SET);
    if (ftruncate(fileno(out), 0) != 0) return -1;
    erase();
    mvaddstr(2, 3, "it works on");
    touchwin(stdscr);
    wnoutrefresh(stdscr);
    if (wrefresh(curscr) == ERR || doupdate() == ERR) return -1;
    fseek(out, 0, SEEK_SET);
    return (long)fread(bytes, 1, (size_t)room, out);
}

int main(void) {
    static char wanted[100000], came[100000];
    long length = 0;
    bool is_refused = true;
    for (refused_one = -1; is_refused; refused_one = refused_one < 0 ? 1 : refused_one + 1) {
        FILE *out = tmpfile();
        if (!out) return 3;
        allocations = refusals = 0;
        SCREEN *screen = work(out);
        is_refused = refused_one < 0 || refused_one <= allocations;
        if (refused_one > 0 && is_refused && screen && refusals == 0) printf("allocation %ld: no call was refused\n", refused_one);
        const long before = refused_one;
        refused_one = 0;
        if (!screen) screen = newterm(NULL, out, stdin);
        if (!screen || resize_term(24, 80) == ERR || refresh() == ERR) return 1;
        long count = draw(out, came, sizeof came);
        refused_one = before;
        if (before < 0) {
            length = count;
            memcpy(wanted, came, sizeof came);
        }
        if (count < 1 || count != length || memcmp(wanted, came, (size_t)count) != 0) {
            printf("allocation %ld: the screen doesn't work on: %ld bytes, %ld wanted\n", before, count, length);
            wrong++;
        }
        delscreen(screen);
        fclose(out);
    }
    printf("%ld allocations refused, %d times wrong\n", refused_one - 2, wrong);
    return wrong > 0;
}

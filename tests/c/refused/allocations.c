/* What calls of curspan.h do with memory. To open a screen gives nothing back, so nothing is made there for nothing. No call allocates but
   those that make a window, a pad or a panel, and doupdate, whose bytes wait to be taken; nor does what is asked, or taken. And what a
   screen took is given back. Linked with --wrap=malloc,--wrap=realloc,--wrap=free. */
#include <curspan.h>
#include <stdio.h>
#include <stdlib.h>

static long allocations, frees;
static int wrong;

void *__real_malloc(size_t size);
void *__real_realloc(void *old, size_t size);
void __real_free(void *old);
void *__wrap_malloc(size_t size);
void *__wrap_realloc(void *old, size_t size);
void __wrap_free(void *old);

void *__wrap_malloc(size_t size) {
    allocations++;
    return __real_malloc(size);
}

void *__wrap_realloc(void *old, size_t size) {
    allocations++;
    if (old) frees++;
    return __real_realloc(old, size);
}

void __wrap_free(void *old) {
    if (old) frees++;
    __real_free(old);
}

static curspan screen = CURSPAN_INIT;

static void done(curspan_answer answer, const char *what) {
    if (answer.status == CURSPAN_OK) return;
    printf("allocations: %s: %s\n", what, curspan_text(answer.status));
    wrong++;
}

static void is(long count, long wanted, const char *what) {
    if (count == wanted) return;
    printf("allocations: %ld, and not %ld: %s\n", count, wanted, what);
    wrong++;
}

#define DO(call) done(curspan_##call, #call)

/* Window 1 scrolls and has a panel, 2 derives from it, and 3 is a pad. */
static void make_things(void) {
    DO(newwin(&screen, 4, 8, 1, 1));
    DO(derwin(&screen, 1, 2, 4, 1, 1));
    DO(newpad(&screen, 5, 9));
    DO(new_panel(&screen, 1));
    DO(scrollok(&screen, 1, true));
}

/* Calls that make nothing. */
static void call(void) {
    DO(wmove(&screen, 1, 1, 1));
    DO(waddch(&screen, 1, 'x'));
    DO(waddstr(&screen, 1, "some text that goes on below", 28));
    DO(winsch(&screen, 2, 'y'));
    DO(wscrl(&screen, 1, 1));
    DO(winsertln(&screen, 1));
    DO(wclrtobot(&screen, 1));
    DO(wattrset(&screen, 1, 1));
    DO(init_pair(&screen, 1, 2, 3));
    DO(overwrite(&screen, 0, 1));
    DO(wsyncup(&screen, 2));
    DO(mvderwin(&screen, 2, 0, 0));
    DO(hide_panel(&screen, 1));
    DO(show_panel(&screen, 1));
    DO(wnoutrefresh(&screen, 0));
    DO(pnoutrefresh(&screen, 3, 0, 0, 1, 1, 3, 4));
    DO(update_panels(&screen));
    curspan_invalidate(&screen);
}

/* What only asks. */
static void ask(void) {
    static uint32_t cells[80];
    DO(getyx(&screen, 1));
    DO(winch(&screen, 1));
    DO(is_wintouched(&screen, 1));
    DO(panel_above(&screen, 0));
    DO(wattr_get(&screen, 1));
    DO(next_window(&screen, 0));
    DO(row(&screen, 1, 0, cells, 80));
    DO(shown_row(&screen, 0, cells, 80));
}

static void see_calls(void) {
    static uint8_t bytes[65536];
    const long before = allocations;
    for (int i = 0; i < 3; i++) {
        call();
        ask();
    }
    is(allocations - before, 0, "calls that make nothing");
    DO(doupdate(&screen));
    const long sent = allocations;
    if (curspan_take(&screen, bytes, 1) < 2 || curspan_take(&screen, bytes, sizeof bytes) < 2) wrong++;
    is(allocations - sent, 0, "bytes are taken");
}

int main(void) {
    DO(open(&screen, 24, 80));
    is(frees, 0, "a screen that is opened gives something back");
    make_things();
    see_calls();
    DO(open(&screen, 24, 80));
    curspan_close(&screen);
    is(allocations - frees, 0, "closed screens keep something");
    return wrong > 0;
}

/* Many screens of 24 by 80 with three panels each: SCREENS ROUNDS opens and shows them, and then in each round changes one word in each, shows
   it and takes its bytes. It puts out what one screen takes of memory and sends in a round, and the microseconds of processor time. */
#include <curspan.h>
#include <malloc.h>
#include <stdio.h>
#include <stdlib.h>
#include <time.h>

static uint8_t bytes[100000];

/* Ends the program where a call was refused. */
static uint32_t need(curspan_answer answer) {
    if (answer.status != CURSPAN_OK) {
        fprintf(stderr, "many: %s\n", curspan_text(answer.status));
        exit(1);
    }
    return answer.first;
}

/* Shows a screen, and answers how many bytes that takes. */
static size_t show(curspan *screen) {
    need(curspan_update_panels(screen));
    need(curspan_doupdate(screen));
    return curspan_take(screen, bytes, sizeof bytes);
}

/* Opens a screen with a text in each line, and three panels that overlap, with texts too. */
static void open_screen(curspan *screen) {
    need(curspan_open(screen, 24, 80));
    for (uint32_t y = 0; y < 24; y++) {
        need(curspan_wmove(screen, 0, y, 0));
        need(curspan_waddstr(screen, 0, "what is below all panels", 24));
    }
    for (uint32_t i = 0; i < 3; i++) {
        uint32_t win = need(curspan_newwin(screen, 8, 30, 3 + 3 * i, 5 + 12 * i));
        for (uint32_t y = 0; y < 8; y++) {
            need(curspan_wmove(screen, win, y, 0));
            need(curspan_waddstr(screen, win, "a text that fills the panel's", 29));
        }
        need(curspan_new_panel(screen, win));
    }
    show(screen);
}

/* The bytes that malloc has given out. */
static size_t allocated(void) {
    struct mallinfo2 all = mallinfo2();
    return all.uordblks + all.hblkhd;
}

/* Changes a word that is seen in the panel in the middle. */
static size_t change_word(curspan *screen, unsigned round) {
    static const char words[][6] = {"tiger", "zebra", "koala", "bison"};
    need(curspan_wmove(screen, 2, 1, 2));
    need(curspan_waddstr(screen, 2, words[round % 4], 5));
    return show(screen);
}

int main(int count, char **given) {
    if (count != 3) return 2;
    size_t screens = (size_t)atoi(given[1]), sent = 0;
    unsigned rounds = (unsigned)atoi(given[2]);
    curspan *all = calloc(screens, sizeof *all);
    if (!all) return 1;
    size_t before = allocated();
    for (size_t i = 0; i < screens; i++) open_screen(&all[i]);
    size_t after = allocated();
    clock_t began = clock();
    for (unsigned round = 0; round < rounds; round++)
        for (size_t i = 0; i < screens; i++) sent += change_word(&all[i], round);
    double microseconds = 1e6 * (double)(clock() - began) / CLOCKS_PER_SEC;
    if (rounds > 0)
        printf("%zu %.1f %.2f\n", (after - before) / screens, (double)sent / (double)screens / rounds, microseconds / (double)screens / rounds);
    for (size_t i = 0; i < screens; i++) curspan_close(&all[i]);
    return 0;
}

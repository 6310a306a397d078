/* Makes the calls of a script by curspan.h, and puts out what `curspan run` does: the bytes, and the log, in which a refusal has its number
   alone. tests/trial/replaying.py writes the script plainly: a line for each call has the number of the script's line, the call's name in C,
   numbers, and a text in hexadecimal digits. Between them it asks what curspan.h tells beside the calls. The words are the lines and the
   columns of the screen. */
#include <curspan.h>
#include <stdio.h>
#include <stdlib.h>
#include <string.h>

static curspan screen = CURSPAN_INIT;
static const char *number; /* of the script's line */

/* Tells what a call answers, as the log does. */
static void tell_nothing(curspan_answer answer) { (void)answer; }
static void tell_window(curspan_answer answer) { fprintf(stderr, "line %s: %u\n", number, answer.first); }
static void tell_flag(curspan_answer answer) { fprintf(stderr, "line %s: %s\n", number, answer.first ? "true" : "false"); }
static void tell_two_numbers(curspan_answer answer) { fprintf(stderr, "line %s: %u %u\n", number, answer.first, answer.second); }

static void tell_number(curspan_answer answer) { tell_window(answer); }

static void tell_panel(curspan_answer answer) {
    if (answer.first)
        tell_window(answer);
    else
        fprintf(stderr, "line %s: none\n", number);
}

static void tell_cell(curspan_answer answer) {
    fprintf(stderr, "line %s: %u %02x %u\n", number, CURSPAN_CHARACTER(answer.first), CURSPAN_ATTRIBUTES(answer.first),
            (unsigned)CURSPAN_PAIR(answer.first));
}

/* Writes the bytes that a doupdate sent. */
static void tell_bytes(curspan_answer answer) {
    static uint8_t bytes[1 << 24];
    size_t length = curspan_take(&screen, bytes, sizeof bytes);
    if (length != answer.first || fwrite(bytes, 1, length, stdout) != length) exit(3);
}

static uint32_t cells[2000];
static size_t cells_there; /* for how many there was room */

/* Tells how many columns a line has, and the cells that were read. */
static void tell_cells(curspan_answer answer) {
    fprintf(stderr, "line %s: %u", number, answer.first);
    for (size_t x = 0; x < cells_there && x < answer.first; x++)
        fprintf(stderr, " %02x%02x%02x", CURSPAN_CHARACTER(cells[x]), CURSPAN_ATTRIBUTES(cells[x]), (unsigned)CURSPAN_PAIR(cells[x]));
    fputs("\n", stderr);
}

static void tell_shown_cells(curspan_answer answer) {
    fprintf(stderr, "line %s: %u", number, answer.first);
    for (size_t x = 0; x < cells_there && x < answer.first; x++)
        fprintf(stderr, " %02x%02x%u%u", CURSPAN_CHARACTER(cells[x]), CURSPAN_ATTRIBUTES(cells[x]), CURSPAN_FOREGROUND(cells[x]),
                CURSPAN_BACKGROUND(cells[x]));
    fputs("\n", stderr);
}

static void tell(curspan_answer answer, void (*what)(curspan_answer)) {
    if (answer.status == CURSPAN_OK)
        what(answer);
    else
        fprintf(stderr, "line %s: E%u\n", number, answer.status);
}

#define CALL(name, what, ...) \
    if (strcmp(word, #name) == 0) { \
        tell(curspan_##name(&screen, ##__VA_ARGS__), tell_##what); \
        return; \
    }

/* Where so many cells are read to. */
static uint32_t *room_of(long count) {
    cells_there = (size_t)count;
    return count > 0 ? cells : NULL;
}

/* Makes a call of numbers and a text, or asks a question. */
static void make(const char *word, const long *n, const char *text, size_t length) {
#include "written_calls.h"
    CALL(row, cells, n[0], n[1], room_of(n[2]), n[2])
    CALL(shown_row, shown_cells, n[0], room_of(n[1]), n[1])
    CALL(cell, cell, n[0], n[1], n[2])
    CALL(wattr_get, two_numbers, n[0])
    CALL(getbkgd, cell, n[0])
    CALL(wgetscrreg, two_numbers, n[0])
    CALL(is_scrollok, flag, n[0])
    CALL(is_cleared, flag, n[0])
    CALL(is_pad, flag, n[0])
    CALL(wgetparent, number, n[0])
    CALL(window_panel, number, n[0])
    CALL(next_window, number, n[0])
    CALL(next_panel, number, n[0])
    exit(4);
}

/* Reads the bytes of hexadecimal digits, and answers how many they are. */
static size_t read_text(const char *digits, char *text) {
    size_t length = 0;
    unsigned byte;
    for (; sscanf(digits, "%2x", &byte) == 1; digits += 2) text[length++] = (char)byte;
    return length;
}

int main(int count, char **words) {
    char line[2000];
    if (count != 3 || curspan_open(&screen, atoi(words[1]), atoi(words[2])).status != CURSPAN_OK) return 2;
    while (fgets(line, sizeof line, stdin)) {
        const char *arguments[10];
        long n[10];
        char text[1000];
        line[strcspn(line, "\n")] = 0;
        number = strtok(line, " ");
        const char *word = strtok(NULL, " ");
        for (size_t i = 0; i < 10; i++) {
            arguments[i] = strtok(NULL, " ");
            if (!arguments[i]) arguments[i] = "";
            n[i] = strtol(arguments[i], NULL, 10);
        }
        size_t length = read_text(arguments[1], text);
        make(word, n, length > 0 ? text : NULL, length);
    }
    curspan_close(&screen);
    return 0;
}

/* A form as people write them: fields that are read by getnstr, checked, and shown again. */
#include "shot.h"
#include <ctype.h>

enum { FIELDS = 4, WIDTH = 24 };

static struct {
    const char *label;
    int longest;
    bool is_number, is_hidden;
    char text[WIDTH + 1];
} fields[FIELDS] = {
    {"Name", WIDTH, false, false, ""}, {"Age", 3, true, false, ""}, {"Town", 12, false, false, ""}, {"Password", 8, false, true, ""},
};

/* Whether a text is one of a field. */
static bool is_good(int i) {
    const char *text = fields[i].text;
    if (*text == 0) return false;
    for (; fields[i].is_number && *text; text++)
        if (!isdigit((unsigned char)*text)) return false;
    return true;
}

static void say(WINDOW *form, const char *text) {
    wmove(form, FIELDS * 2 + 1, 2);
    wclrtoeol(form);
    wattron(form, A_BOLD);
    waddstr(form, text);
    wattroff(form, A_BOLD);
}

/* Reads a field until it is good, and answers whether it is: it isn't where nothing more is typed. */
static bool fill_field(WINDOW *form, int i) {
    int y = 1 + 2 * i, answer;
    do {
        wattron(form, A_UNDERLINE);
        mvwhline(form, y, 14, ' ', fields[i].longest);
        wattroff(form, A_UNDERLINE);
        wrefresh(form);
        shot();
        if (fields[i].is_hidden) noecho();
        answer = mvwgetnstr(form, y, 14, fields[i].text, fields[i].longest);
        echo();
        say(form, is_good(i) ? "" : "try again");
    } while (answer != ERR && !is_good(i));
    return answer != ERR;
}

int main(void) {
    initscr();
    cbreak();
    WINDOW *form = newwin(FIELDS * 2 + 3, 50, 4, 10);
    wbkgd(form, ' ');
    mvaddstr(1, 10, "Please fill in the form.");
    refresh();
    for (int i = 0; i < FIELDS; i++) mvwprintw(form, 1 + 2 * i, 2, "%-10s:", fields[i].label);
    bool is_filled = true;
    for (int i = 0; i < FIELDS && is_filled; i++) is_filled = fill_field(form, i);
    say(form, "Is this right (y/n)? ");
    wrefresh(form);
    shot();
    int answer = wgetch(form);
    clear();
    for (int i = 0; i < FIELDS; i++) mvprintw(2 + i, 4, "%s is \"%s\"", fields[i].label, fields[i].text);
    mvprintw(10, 4, "answer %c", answer);
    refresh();
    shot();
    endwin();
    return 0;
}

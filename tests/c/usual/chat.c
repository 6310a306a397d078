/* A chat: lines that scroll, names in colours, and a line that is edited. */
#include "../shot.h"

static void say(WINDOW *talk, int who, const char *text) {
    wattron(talk, COLOR_PAIR(1 + who % 4) | A_BOLD);
    wprintw(talk, "\n<%s> ", who % 2 ? "ann" : "bartholomew");
    wattroff(talk, COLOR_PAIR(1 + who % 4) | A_BOLD);
    waddstr(talk, text);
}

static void look(WINDOW *talk, WINDOW *line) {
    wnoutrefresh(talk);
    wnoutrefresh(line);
    doupdate();
    shot();
}

int main(void) {
    static const char *const texts[] = {
        "hello",
        "A longer one, which has so many words that it doesn't fit in a line of this window, and goes on below.",
        "tabs:\ta\tb\tc", "a line\nand another of the same", "", "trailing blanks    ", "ctrl: \001\002\033[",
    };
    initscr();
    start_color();
    for (short i = 1; i < 5; i++) init_pair(i, i, COLOR_BLACK);
    WINDOW *talk = newwin(18, 60, 1, 0), *people = newwin(18, 18, 1, 62), *line = newwin(3, 80, 20, 0);
    scrollok(talk, TRUE);
    idlok(talk, TRUE);
    box(people, ACS_VLINE, ACS_HLINE);
    for (int i = 0; i < 9; i++)
        mvwprintw(people, 1 + i, 2, "%c%-10s", i % 3 ? ' ' : '@', i % 2 ? "ann" : "bartholomew");
    mvaddstr(0, 0, "#curses");
    mvvline(1, 60, ACS_VLINE, 18);
    mvhline(19, 0, ACS_HLINE, 80);
    refresh();
    wnoutrefresh(people);
    for (int i = 0; i < 9; i++) {
        say(talk, i, texts[i % 7]);
        if (i > 3) say(talk, i + 1, texts[(i + 3) % 7]);
        mvwprintw(line, 0, 0, "[%02d:%02d] > ", 12, i);
        look(talk, line);
    }
    mvwaddstr(line, 0, 10, "what is typed");
    for (int i = 0; i < 4; i++) mvwinsch(line, 0, 15, (chtype)("very"[3 - i]));
    look(talk, line);
    mvwinsstr(line, 0, 10, "and ");
    mvwdelch(line, 0, 20);
    look(talk, line);
    wmove(line, 0, 14);
    wclrtoeol(line);
    waddch(line, 'x' | A_UNDERLINE);
    look(talk, line);
    wscrl(talk, -3);
    mvwaddstr(talk, 0, 0, "older");
    look(talk, line);
    wsetscrreg(talk, 4, 10);
    wscrl(talk, 2);
    look(talk, line);
    mvwaddstr(talk, 10, 50, "the last line of the region, and over its end");
    look(talk, line);
    werase(line);
    mvwaddnstr(line, 2, 70, "past the last column", 12);
    look(talk, line);
    endwin();
    return 0;
}

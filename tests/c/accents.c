/* Text that isn't ASCII: over ncurses of wide characters what is seen in each place is made a letter or a question
   mark before it is compared. */
#include "shot.h"

#include <locale.h>

static const char *const texts[] = {
    "caf\303\251 cr\303\250me, \303\234ber \305\273\303\263\305\202w", "a\314\201e\314\200 combining\314\247",
    "\346\274\242\345\255\227 wide \352\260\200", "\342\202\254 \342\200\224 \342\200\234quotes\342\200\235",
    "\360\237\230\200 smile", "zero\342\200\213width", "latin-1 \351t\351 \344\366\374.", "broken \303 \346\274 \360\237\230 z",
    "bare \200\377 bytes", "overlong \300\257 \340\200\200 z", "surrogate \355\240\200 z", "controls \303\001\342\202\n!",
};

enum { TEXTS = sizeof texts / sizeof texts[0] };

static void tell_place(WINDOW *win, int answer, int y, int x) {
    mvprintw(y, x, "%d at %d %d", answer, getcury(win), getcurx(win));
}

/* Writes by addch, in attributes. */
static int add_bytes(WINDOW *win, const char *text, chtype attrs) {
    int answer = OK;
    for (; *text; text++) answer = waddch(win, (chtype)(unsigned char)*text | attrs);
    return answer;
}

/* A window of few columns, in which a text with wide characters is broken in lines. */
static void write_narrow(int x, int columns, bool scrolls, const char *text) {
    WINDOW *win = newwin(3, columns, 1, x);
    scrollok(win, scrolls);
    wbkgd(win, '.');
    tell_place(win, waddstr(win, text), 5, x);
    wnoutrefresh(win);
}

int main(void) {
    setlocale(LC_ALL, "C.UTF-8");
    initscr();
    for (int i = 0; i < TEXTS; i++) tell_place(stdscr, mvaddstr(i, 0, texts[i]), i, 60);
    refresh();
    shot();
    erase();
    for (int i = 0; i < TEXTS; i++) {
        move(i, 0);
        tell_place(stdscr, add_bytes(stdscr, texts[i], i % 2 ? A_BOLD : A_NORMAL), i, 60);
    }
    refresh();
    shot();
    erase();
    for (int i = 0; i < 4; i++) {
        mvaddstr(i, 0, "0123456789");
        tell_place(stdscr, mvinsstr(i, 4, i == 1 ? "pre\303\251" : texts[i]), i, 60);
    }
    mvaddstr(5, 0, "abcdef");
    move(5, 3);
    tell_place(stdscr, insch(0303), 5, 60);
    tell_place(stdscr, insch(0251), 6, 60);
    mvaddch(8, 0, 0303);
    move(8, 4);
    addch(0251);
    mvaddnstr(9, 0, "\303\251\303\251", 3);
    addstr("\251 after");
    refresh();
    shot();
    erase();
    refresh();
    write_narrow(0, 5, false, "\346\274\242\345\255\227\346\274\242a\345\255\227\346\274\242\345\255\227");
    write_narrow(20, 6, true, "\346\274\242ab\345\255\227c\345\255\227de\346\274\242f\345\255\227g\345\255\227");
    write_narrow(40, 1, false, "\346\274\242");
    write_narrow(60, 6, false, "\303\251t\303\251, \346\274\242 and more\314\201 of it");
    refresh();
    shot();
    endwin();
    return 0;
}

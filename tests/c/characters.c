/* The characters of lines and signs, attributes that change nothing, and what colours the terminal has. */
#include "shot.h"
#include <unctrl.h>

int main(void) {
    const attr_t none[] = {A_PROTECT, A_HORIZONTAL, A_LEFT, A_LOW, A_RIGHT, A_TOP, A_VERTICAL, WA_PROTECT, WA_HORIZONTAL,
                           WA_LEFT,   WA_LOW,       WA_RIGHT, WA_TOP, WA_VERTICAL};
    short red = 0, green = 0, blue = 0;
    initscr();
    for (chtype ch = '0'; ch <= '~'; ch++)
        if (strchr("`afghijklmnopqrstuvwxyz{|}~0", (int)ch)) addch(acs_map[ch]);
    move(1, 0);
    const chtype signs[] = {ACS_S3,   ACS_S7,   ACS_LEQUAL, ACS_GEQUAL, ACS_PI,   ACS_NEQUAL, ACS_STERLING, ACS_BSSB, ACS_SSBB, ACS_BBSS,
                            ACS_SBBS, ACS_SBSS, ACS_SSSB,   ACS_SSBS,   ACS_BSSS, ACS_BSBS,   ACS_SBSB,     ACS_SSSS};
    for (size_t i = 0; i < sizeof signs / sizeof signs[0]; i++) addch(signs[i]);
    mvaddch(2, 0, 'x' | A_ALTCHARSET);
    addch('q' | WA_ALTCHARSET | A_BOLD);
    move(3, 0);
    for (size_t i = 0; i < sizeof none / sizeof none[0]; i++) addch('a' | none[i] | (none[i] == A_LOW ? A_BOLD : A_NORMAL));
    start_color();
    mvprintw(5, 0, "colours %d %d %d", use_default_colors(), assume_default_colors(-1, -1), init_color(1, 0, 0, 0));
    printw(", %d", color_content(COLOR_YELLOW, &red, &green, &blue));
    printw(": %d %d %d, %d", red, green, blue, color_content(99, &red, &green, &blue));
    init_pair(1, COLOR_RED, -1);
    init_pair(2, -1, COLOR_BLUE);
    init_pair(3, COLOR_RED, COLOR_BLACK);
    init_pair(4, -1, -1);
    for (int pair = 1; pair <= 4; pair++) {
        attron(COLOR_PAIR(pair));
        mvaddstr(5 + pair, 0, "pair");
        attroff(COLOR_PAIR(pair));
    }
    /* Pairs above 63, as ncurses has them with the terminal's own colours, and what is read back of them. */
    for (short pair = 64; pair < 72; pair++) {
        init_pair(pair, (short)(pair - 64), -1);
        mvaddch(14, pair - 64, 'p' | COLOR_PAIR(pair));
    }
    init_pair(63, COLOR_CYAN, COLOR_RED);
    mvaddch(14, 10, 'q' | COLOR_PAIR(63));
    mvchgat(14, 3, 1, A_BOLD, 70, NULL);
    mvprintw(15, 0, "pairs %d %d %d", PAIR_NUMBER(mvinch(14, 0)), PAIR_NUMBER(mvinch(14, 3)), PAIR_NUMBER(mvinch(14, 10)));
    mvaddstr(11, 0, unctrl('\x01'));
    printw(" %d", NCURSES_VERSION_MAJOR >= 6 && NCURSES_VERSION_MINOR >= 0 && NCURSES_VERSION_PATCH > 20200101 && NCURSES_EXT_FUNCS > 20200101);
    printw(" %d", strlen(NCURSES_VERSION) >= 3);
    refresh();
    shot();
    mvcur(0, 0, 20, 40);
    mvaddstr(21, 0, "after");
    refresh();
    shot();
    endwin();
    return 0;
}

/* A menu as people write them: arrows, pages and letters choose, a function key helps, and a submenu opens beside it. */
#include "shot.h"

static const char *const items[] = {"Open", "Save", "Save as", "Print", "Close", "Options", "Help", "Quit"};
static const char *const parts[] = {"Colours", "Keys", "Files"};

enum { ITEMS = sizeof items / sizeof items[0], PARTS = sizeof parts / sizeof parts[0] };

/* Draws a menu with the chosen line reversed. */
static void draw(WINDOW *win, const char *const *lines, int count, int chosen) {
    wborder(win, '|', '|', '-', '-', '+', '+', '+', '+');
    for (int i = 0; i < count; i++) {
        if (i == chosen) wattron(win, A_REVERSE);
        mvwprintw(win, 1 + i, 1, " %-12s", lines[i]);
        if (i == chosen) wattroff(win, A_REVERSE);
    }
    wrefresh(win);
}

/* Lets one of some lines be chosen, and answers it, or -1. */
static int choose(WINDOW *win, const char *const *lines, int count) {
    int chosen = 0;
    for (;;) {
        draw(win, lines, count, chosen);
        shot();
        int key = wgetch(win);
        mvprintw(22, 0, "%-12s %d", keyname(key), key);
        clrtoeol();
        refresh();
        switch (key) {
        case KEY_UP: chosen = (chosen + count - 1) % count; break;
        case KEY_DOWN: case '\t': chosen = (chosen + 1) % count; break;
        case KEY_BTAB: chosen = (chosen + count - 1) % count; break;
        case KEY_HOME: case KEY_PPAGE: chosen = 0; break;
        case KEY_END: case KEY_NPAGE: chosen = count - 1; break;
        case KEY_F(1): mvaddstr(21, 0, "arrows move, Enter chooses"); break;
        case KEY_RIGHT: case '\n': case KEY_ENTER: return chosen;
        case KEY_LEFT: case 27: case 'q': case ERR: return -1;
        default:
            for (int i = 0; i < count; i++)
                if (key < 256 && (lines[i][0] | 32) == (key | 32)) chosen = i;
        }
    }
}

int main(void) {
    initscr();
    cbreak();
    noecho();
    nonl();
    intrflush(stdscr, FALSE);
    set_escdelay(25);
    WINDOW *menu = newwin(ITEMS + 2, 15, 2, 4), *part = newwin(PARTS + 2, 15, 8, 22);
    keypad(menu, TRUE);
    keypad(part, TRUE);
    nl();
    refresh();
    for (int chosen = 0; chosen != -1 && chosen != ITEMS - 1;) {
        chosen = choose(menu, items, ITEMS);
        mvprintw(20, 0, "chosen %d", chosen);
        if (chosen == 5) {
            printw(" part %d", choose(part, parts, PARTS));
            werase(part);
            wrefresh(part);
        }
        clrtoeol();
        refresh();
    }
    shot();
    endwin();
    return 0;
}

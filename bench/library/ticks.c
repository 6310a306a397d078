/* Ticks of whole programs: what each does in a frame, with the frame. */
#include <curses.h>
#include <panel.h>
#include <string.h>

#include "measures.h"

static unsigned chance_state = 1;

static int chance(int below) {
    chance_state = chance_state * 1103515245u + 12345u;
    return (int)(chance_state >> 8) % below;
}

static void make_pairs(void) {
    for (short pair = 1; pair < 8; pair++) init_pair(pair, pair, COLOR_BLACK);
}

/* Begins a program, at its first tick. */
static void begin(bool *has_begun) {
    if (*has_begun) return;
    *has_begun = true;
    make_pairs();
    erase();
}

/* Robots that ask what is where they would go, and where they are. */
static void ask(int times) {
    static bool has_begun;
    static int ys[40], xs[40];
    begin(&has_begun);
    for (; times > 0; times--) {
        for (int i = 0; i < 40; i++) {
            int y = (ys[i] + chance(3) + 23) % 24, x = (xs[i] + chance(3) + 78) % 79;
            if ((mvinch(y, x) & A_CHARTEXT) != ' ') continue;
            mvaddch(ys[i], xs[i], ' ');
            mvaddch(y, x, 'R');
            getyx(stdscr, ys[i], xs[i]);
            xs[i]--;
        }
        refresh();
    }
}

/* A piece that falls on a board, of which all cells are drawn again, each as two blanks in its colour. */
static void play_tetris(int times) {
    static bool has_begun;
    static WINDOW *board;
    static int cells[20][10], fallen;
    begin(&has_begun);
    if (!board) {
        board = newwin(22, 22, 1, 10);
        for (int y = 12; y < 20; y++)
            for (int x = 0; x < 10; x++) cells[y][x] = chance(3) ? 1 + chance(7) : 0;
    }
    for (; times > 0; times--) {
        box(board, 0, 0);
        for (int y = 0; y < 20; y++)
            for (int x = 0; x < 10; x++) {
                int kind = y / 2 == fallen / 2 && x / 2 == 2 ? 5 : cells[y][x];
                chtype cell = ' ' | (chtype)COLOR_PAIR(kind) | (kind ? A_REVERSE : A_NORMAL);
                wmove(board, y + 1, 2 * x + 1);
                waddch(board, cell);
                waddch(board, cell);
            }
        fallen = (fallen + 1) % 12;
        mvprintw(3, 40, "score %6d", fallen);
        wnoutrefresh(stdscr);
        wnoutrefresh(board);
        doupdate();
    }
}

/* A snake that moves by a cell, and looks what is there. */
static void move_snake(int times) {
    static bool has_begun;
    static int ys[30], xs[30], head;
    begin(&has_begun);
    for (; times > 0; times--) {
        int next = (head + 1) % 30, y = ys[head], x = xs[head];
        if (chance(4)) x = (x + 1) % 79;
        else y = 1 + (y + 1) % 22;
        bool eats = (mvinch(y, x) & A_CHARTEXT) == '*';
        mvaddch(ys[head], xs[head], 'o' | COLOR_PAIR(2));
        mvaddch(ys[next], xs[next], ' ');
        mvaddch(y, x, 'O' | A_BOLD | COLOR_PAIR(2));
        ys[next] = y;
        xs[next] = x;
        head = next;
        if (eats || times % 10 == 0) mvaddch(1 + chance(22), chance(79), '*' | COLOR_PAIR(1));
        mvprintw(0, 2, "length %d, moves %d", 30, times);
        refresh();
    }
}

/* A board of boxes with a number in each, of which all are drawn again. */
static void play_boards(int times) {
    static bool has_begun;
    static WINDOW *boxes[16];
    begin(&has_begun);
    for (int i = 0; i < 16 && !boxes[i]; i++) boxes[i] = newwin(5, 10, i / 4 * 5, i % 4 * 10);
    for (; times > 0; times--) {
        for (int i = 0; i < 16; i++) {
            int number = chance(5);
            werase(boxes[i]);
            wattrset(boxes[i], COLOR_PAIR(number + 1));
            box(boxes[i], 0, 0);
            mvwprintw(boxes[i], 2, 3, "%4d", 2 << number);
            wnoutrefresh(boxes[i]);
        }
        doupdate();
    }
}

/* An editor: a character is typed, or a line is broken, and a line at the bottom tells where. */
static void type(int times) {
    static bool has_begun;
    static WINDOW *page;
    begin(&has_begun);
    if (!page) {
        page = newwin(23, 80, 0, 0);
        for (int y = 0; y < 22; y++) mvwaddstr(page, y, 0, "a line of a text that is edited");
        wmove(page, 5, 8);
    }
    for (; times > 0; times--) {
        int y, x;
        getyx(page, y, x);
        if (x > 60) {
            y = (y + 1) % 22;
            wmove(page, y, 0);
            winsertln(page);
        } else {
            winsch(page, (chtype)('a' + chance(26)));
            wmove(page, y, x + 1);
        }
        attron(A_REVERSE);
        mvprintw(23, 0, " text.c   line %-4d column %-4d", y + 1, x + 1);
        attroff(A_REVERSE);
        getyx(page, y, x);
        wnoutrefresh(stdscr);
        wmove(page, y, x);
        touchline(page, y, 1);
        wnoutrefresh(page);
        doupdate();
    }
}

/* A menu in a panel, whose chosen line moves, and which is drawn again. */
static void choose(int times) {
    static bool has_begun;
    static PANEL *menu;
    static int chosen;
    begin(&has_begun);
    if (!menu) menu = new_panel(newwin(18, 40, 3, 20));
    WINDOW *window = panel_window(menu);
    show_panel(menu);
    for (; times > 0; times--) {
        chosen = (chosen + 1) % 16;
        werase(window);
        box(window, 0, 0);
        mvwaddstr(window, 0, 3, " choose one ");
        for (int i = 0; i < 16; i++) {
            if (i == chosen) wattron(window, A_REVERSE);
            mvwprintw(window, i + 1, 2, "%2d  %-30s", i, i % 2 ? "an item of the menu" : "another one");
            if (i == chosen) wattroff(window, A_REVERSE);
        }
        update_panels();
        doupdate();
    }
    hide_panel(menu);
}

/* A table of numbers under gauges, all of which is printed again. */
static void print_table(int times) {
    static bool has_begun;
    begin(&has_begun);
    for (; times > 0; times--) {
        erase();
        for (int i = 0; i < 3; i++) {
            int value = chance(60);
            mvprintw(i, 0, "%d [", i);
            attron(COLOR_PAIR(2));
            for (int n = 0; n < value; n++) addch('|');
            attroff(COLOR_PAIR(2));
            mvprintw(i, 64, "] %3d", value);
        }
        attron(A_BOLD);
        mvprintw(4, 0, "%6s %-10s %6s  %s", "NUMBER", "WHO", "LOAD", "WHAT");
        attroff(A_BOLD);
        for (int y = 5; y < 24; y++) {
            int load = chance(1000);
            mvprintw(y, 0, "%6d %-10s ", 100 + 7 * y, y % 3 ? "one" : "another");
            attron(COLOR_PAIR(load > 800 ? 1 : 0));
            printw("%6.1f", load / 10.0);
            attroff(COLOR_PAIR(load > 800 ? 1 : 0));
            printw("  %s", "a program with some words");
        }
        refresh();
    }
}

/* A list in a window that is in no panel, refreshed beside a panel over it, which tells what is chosen. */
static void list(int times) {
    static bool has_begun;
    static WINDOW *items;
    static PANEL *note;
    static int chosen;
    begin(&has_begun);
    if (!items) {
        items = newwin(24, 80, 0, 0);
        note = new_panel(newwin(6, 30, 9, 40));
        for (int y = 0; y < 24; y++) mvwprintw(items, y, 0, "%3d  an item of a list in a window", y);
    }
    for (; times > 0; times--) {
        mvwchgat(items, chosen, 0, 80, A_NORMAL, 0, NULL);
        chosen = (chosen + 1) % 24;
        mvwchgat(items, chosen, 0, 80, A_REVERSE, 0, NULL);
        mvwprintw(panel_window(note), 2, 3, "item %2d of 24", chosen);
        wnoutrefresh(items);
        update_panels();
        doupdate();
    }
    hide_panel(note);
}

/* A log as large as the screen, of which some lines come. */
static void scroll_log(int times) {
    static bool has_begun;
    static WINDOW *page;
    static int number;
    begin(&has_begun);
    if (!page) {
        page = newwin(LINES, COLS, 0, 0);
        scrollok(page, TRUE);
        idlok(page, FALSE);
    }
    for (; times > 0; times--) {
        for (int i = 0; i < 3; i++) {
            number++;
            wprintw(page, "\n%02d:%02d ", number / 60 % 24, number % 60);
            waddstr(page, number % 5 ? "something has come to its end" : "something else, which is longer, has begun");
        }
        wrefresh(page);
    }
}

const struct measure ticks[] = {
    {"a program that asks", ask, 0},
    {"tetris", play_tetris, 0},
    {"snake", move_snake, 0},
    {"boards", play_boards, 0},
    {"typing", type, 0},
    {"a menu", choose, 0},
    {"a table", print_table, 0},
    {"a list beside a panel", list, 0},
    {"a log that scrolls", scroll_log, 0},
};

const int tick_count = sizeof ticks / sizeof ticks[0];

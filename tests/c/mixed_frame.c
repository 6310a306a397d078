/* A window with a border and a text in a derived window, both refreshed, and a message in a panel that moves over them. */
#include "shot.h"

static void update(void) {
    update_panels();
    doupdate();
    shot();
}

int main(void) {
    initscr();
    WINDOW *frame = newwin(14, 50, 4, 10), *text = derwin(frame, 12, 48, 1, 1), *message = newwin(3, 20, 8, 20);
    box(frame, '|', '-');
    scrollok(text, TRUE);
    for (int i = 0; i < 10; i++) wprintw(text, "what was said as number %d\n", i);
    wrefresh(frame);
    shot();
    box(message, '!', '!');
    mvwaddstr(message, 1, 2, "a message");
    PANEL *panel = new_panel(message);
    update();
    waddstr(text, "and more\nand still more");
    wnoutrefresh(text);
    update();
    for (int i = 0; i < 3; i++) {
        move_panel(panel, 6 + i, 25 + 6 * i);
        wprintw(text, "\nmoved %d times", i + 1);
        wrefresh(text);
        update();
    }
    touchwin(frame);
    wrefresh(frame);
    update();
    touchwin(message);
    update();
    wclear(text);
    waddstr(text, "cleared");
    wrefresh(text);
    update();
    hide_panel(panel);
    touchwin(frame);
    wnoutrefresh(frame);
    update();
    touchwin(frame);
    wrefresh(frame);
    shot();
    endwin();
    return 0;
}

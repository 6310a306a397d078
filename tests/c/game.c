/* A game as people write them: a snake eats digits, keys steer it without waiting, and p stops it. For a test it moves only after a key,
   and ends after some. */
#include "shot.h"

enum { HEIGHT = 16, WIDTH = 40, LONGEST = 100 };

struct place {
    int y, x;
};

static struct place snake[LONGEST];
static int length = 4, score;
static struct place food = {4, 20};

static void draw(WINDOW *field) {
    werase(field);
    wborder(field, '|', '|', '-', '-', '+', '+', '+', '+');
    wattron(field, COLOR_PAIR(2) | A_BOLD);
    mvwaddch(field, food.y, food.x, (chtype)('1' + score % 9));
    wattroff(field, COLOR_PAIR(2) | A_BOLD);
    wattron(field, COLOR_PAIR(1));
    for (int i = length - 1; i >= 0; i--) mvwaddch(field, snake[i].y, snake[i].x, i ? 'o' : '@');
    wattroff(field, COLOR_PAIR(1));
    mvprintw(0, 2, "score %d", score);
    wnoutrefresh(stdscr);
    wnoutrefresh(field);
    doupdate();
}

/* Moves the snake by one place, and answers whether it lives. */
static bool advance(struct place step) {
    struct place head = {snake[0].y + step.y, snake[0].x + step.x};
    if (head.y <= 0 || head.y >= HEIGHT - 1 || head.x <= 0 || head.x >= WIDTH - 1) return false;
    bool eats = head.y == food.y && head.x == food.x;
    if (eats) {
        score++;
        length++;
        food.y = 1 + (food.y * 7 + 3) % (HEIGHT - 2);
        food.x = 1 + (food.x * 5 + 11) % (WIDTH - 2);
    }
    for (int i = length - 1; i > 0; i--) snake[i] = snake[i - 1];
    snake[0] = head;
    return true;
}

/* The step that a key asks for, or none. */
static bool steer(int key, struct place *step) {
    const struct place up = {-1, 0}, down = {1, 0}, left = {0, -1}, right = {0, 1};
    switch (key) {
    case KEY_UP: *step = up; return true;
    case KEY_DOWN: *step = down; return true;
    case KEY_LEFT: *step = left; return true;
    case KEY_RIGHT: *step = right; return true;
    default: return key == ' ';
    }
}

int main(void) {
    struct place step = {0, 1};
    bool lives = true;
    initscr();
    start_color();
    init_pair(1, COLOR_GREEN, COLOR_BLACK);
    init_pair(2, COLOR_RED, COLOR_BLACK);
    cbreak();
    noecho();
    curs_set(0);
    WINDOW *field = newwin(HEIGHT, WIDTH, 2, 2);
    nodelay(field, TRUE);
    keypad(field, TRUE);
    for (int i = 0; i < length; i++) snake[i] = (struct place){8, 12 - i};
    draw(field);
    shot();
    for (int key = ERR; lives && key != 'q'; key = wgetch(field)) {
        if (key == ERR) usleep(2000);
        if (!steer(key, &step)) continue;
        lives = advance(step);
        draw(field);
        if (key == ' ') shot();
    }
    mvaddstr(19, 2, lives ? "you leave" : "the snake is dead; any key ends");
    refresh();
    shot();
    nodelay(stdscr, FALSE);
    mvprintw(20, 2, "%d", getch());
    refresh();
    shot();
    endwin();
    return 0;
}

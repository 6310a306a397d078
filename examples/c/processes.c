/* A monitor of the processes of a Linux machine: p, n and m sort by number, name and memory;
   arrows choose one, k asks before it would end it, and q ends the monitor. It looks again each
   second, follows the size of the terminal, and ends no process: it says which one it would. */
#include <curspan_terminal.h>
#include <dirent.h>
#include <stdio.h>
#include <stdlib.h>
#include <string.h>

enum { MOST = 5000, TITLE = 1, CHOSEN = 2 };

static struct process {
    int number, memory;
    char name[64];
} processes[MOST], asked;
static int count, chosen, first, lines, columns, ended, order = 'm';
static char text[200];
static curspan_terminal terminal = CURSPAN_TERMINAL_INIT;
static curspan screen = CURSPAN_INIT;

static int compare(const void *left, const void *right) {
    const struct process *one = left, *other = right;
    if (order == 'p') return one->number - other->number;
    return order == 'n' ? strcmp(one->name, other->name) : other->memory - one->memory;
}

static void look(void) {
    DIR *folder = opendir("/proc");
    char path[64], line[200];
    count = 0;
    for (struct dirent *entry; folder && count < MOST && (entry = readdir(folder));) {
        snprintf(path, sizeof path, "/proc/%.20s/status", entry->d_name);
        FILE *file = atoi(entry->d_name) > 0 ? fopen(path, "r") : NULL;
        if (!file) continue;
        struct process *it = &processes[count++];
        *it = (struct process){.number = atoi(entry->d_name)};
        while (fgets(line, sizeof line, file))
            if (!sscanf(line, "Name: %63[^\n]", it->name)) sscanf(line, "VmRSS: %d", &it->memory);
        fclose(file);
    }
    if (folder) closedir(folder);
    qsort(processes, (size_t)count, sizeof processes[0], compare);
}

/* Writes a text in a pair of colours across a line of a window. */
static void put(uint32_t win, int y, uint32_t pair, const char *text) {
    char line[1100];
    int width = (int)curspan_getmaxyx(&screen, win).second;
    size_t length = (size_t)snprintf(line, sizeof line, "%-*.*s", width, width, text);
    curspan_wcolor_set(&screen, win, pair);
    curspan_wmove(&screen, win, (uint32_t)y, 0);
    curspan_waddstr(&screen, win, line, curspan_plain_text(line, length, line));
}

static void draw(void) {
    int room = lines - 2;
    chosen = chosen >= count ? count - 1 : chosen < 0 ? 0 : chosen;
    first = chosen < first ? chosen : chosen >= first + room ? chosen - room + 1 : first;
    put(0, 0, TITLE, "   NUMBER  NAME                   KIB");
    for (int y = 0; y < room; y++) {
        const struct process *it = &processes[first + y];
        snprintf(text, sizeof text, "%9d  %-15.15s  %9d", it->number, it->name, it->memory);
        put(0, y + 1, first + y == chosen ? CHOSEN : 0, first + y < count ? text : "");
    }
    snprintf(text, sizeof text, " p number  n name  m memory  k end (%d)  q quit", ended);
    put(0, lines - 1, TITLE, text);
    curspan_update_panels(&screen);
}

/* Draws the question whether a process shall be ended over the list. */
static void ask(void) {
    uint32_t height = lines < 3 ? 1 : 3, width = columns < 40 ? (uint32_t)columns : 40;
    uint32_t y = ((uint32_t)lines - height) / 2, x = ((uint32_t)columns - width) / 2;
    curspan_answer made = curspan_newwin(&screen, height, width, y, x);
    if (made.status != CURSPAN_OK) return;
    uint32_t win = made.first, panel = curspan_new_panel(&screen, win).first;
    snprintf(text, sizeof text, " y or n: end %d, %.15s?", asked.number, asked.name);
    for (uint32_t i = 0; i < height; i++) put(win, (int)i, CHOSEN, i == height / 2 ? text : "");
    curspan_update_panels(&screen);
    curspan_del_panel(&screen, panel);
    curspan_delwin(&screen, win);
}

static void begin(void) {
    curspan_terminal_size(&terminal, &lines, &columns);
    curspan_open(&screen, (uint32_t)lines, (uint32_t)columns);
    curspan_terminal_init_pair(&terminal, &screen, TITLE, 7, 4);
    curspan_terminal_init_pair(&terminal, &screen, CHOSEN, 1, -1);
}

int main(void) {
    curspan_key key = {.code = CURSPAN_KEY_RESIZE};
    uint32_t status = curspan_terminal_open(&terminal, NULL, CURSPAN_TERMINAL_USUAL);
    if (status != CURSPAN_TERMINAL_OK) return puts(curspan_terminal_text(status)), 1;
    while (key.code != 'q' && key.code != CURSPAN_KEY_EOF) {
        if (key.code == 'p' || key.code == 'n' || key.code == 'm') order = (int)key.code;
        if (key.code == CURSPAN_KEY_RESIZE) begin();
        chosen += (key.code == CURSPAN_KEY_DOWN) - (key.code == CURSPAN_KEY_UP);
        if (key.code == 'k') asked = processes[chosen];
        look();
        draw();
        if (asked.number) ask();
        curspan_terminal_show(&terminal, &screen);
        curspan_terminal_key(&terminal, 1000, &key);
        if (key.modifiers) key.code = CURSPAN_KEY_UNKNOWN;
        if (asked.number && key.code != CURSPAN_KEY_NONE && key.code != CURSPAN_KEY_RESIZE) {
            if (key.code == 'y') ended = asked.number;
            asked.number = 0;
            key.code = CURSPAN_KEY_NONE;
        }
    }
    curspan_close(&screen);
    return curspan_terminal_close(&terminal) != CURSPAN_TERMINAL_OK;
}

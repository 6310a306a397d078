/* Puts the names of the keys that are typed into a file, a line each, up to Ctrl-D. */
#include <curspan_terminal.h>
#include <stdio.h>
#include <string.h>

int main(int count, char **words) {
    curspan_terminal terminal = CURSPAN_TERMINAL_INIT;
    curspan_key key;
    char name[64] = "";
    FILE *file = fopen(count > 1 ? words[1] : "/dev/null", "w");
    if (!file || curspan_terminal_open(&terminal, NULL, CURSPAN_TERMINAL_RAW | CURSPAN_TERMINAL_PASTE | CURSPAN_TERMINAL_SIGNALS) != CURSPAN_TERMINAL_OK) return 1;
    curspan_terminal_write(&terminal, "ready", 5);
    while (strcmp(name, "ctrl+d") != 0) {
        if (curspan_terminal_key(&terminal, -1, &key) != CURSPAN_TERMINAL_OK || key.code == CURSPAN_KEY_EOF) return 2;
        curspan_key_name(&key, name, sizeof name);
        fprintf(file, "%s", name);
        if (key.code == CURSPAN_KEY_PASTE) fprintf(file, " %.*s", (int)key.length, key.text);
        fputc('\n', file);
    }
    fclose(file);
    return curspan_terminal_close(&terminal) != CURSPAN_TERMINAL_OK;
}

/* Which bytes are which key. Nothing here is proved. */
#include "inside.h"
#include "terminal.h"

/* A sequence of a key, in a list: those that the program defined, and after them those of the table. */
struct key {
    struct key *next;
    const char *bytes;
    int number;
    bool is_off;     /* keyok switched it off */
    bool is_defined; /* by the program: it is freed */
};

static struct key *keys, table[CURSPAN_SEQUENCES];
static char type_of_terminal[128];

static void take_out(struct key **at) {
    struct key *key = *at;
    *at = key->next;
    if (key->is_defined) free(key);
}

void curspan_forget_keys(const char *type) {
    while (keys) take_out(&keys);
    if (!type) type = getenv("TERM");
    snprintf(type_of_terminal, sizeof type_of_terminal, "%s", type ? type : "unknown");
    for (int i = CURSPAN_SEQUENCES; i-- > 0;) {
        if (!curspan_is_of_type(i, type_of_terminal)) continue;
        table[i] = (struct key){keys, curspan_sequences[i].bytes, curspan_sequences[i].key, false, false};
        keys = &table[i];
    }
}

char *termname(void) { return stdscr ? type_of_terminal : NULL; }
char *longname(void) { return termname(); }

int curspan_key_of(const unsigned char *bytes, size_t length) {
    int number = 0;
    for (const struct key *it = keys; it; it = it->next) {
        if (it->is_off || strlen(it->bytes) < length || memcmp(it->bytes, bytes, length) != 0) continue;
        if (it->bytes[length] == 0) return it->number;
        number = ERR;
    }
    return number;
}

/* The first sequence of a key after those of a count, on or off, or NULL. */
static struct key *sequence_of(int number, bool is_off, int count) {
    struct key *it = keys;
    while (it && (it->number != number || it->is_off != is_off || count-- > 0)) it = it->next;
    return it;
}

int has_key(int key) { return stdscr && sequence_of(key, false, 0) != NULL; }

char *keybound(int key, int count) {
    const struct key *it = stdscr && count >= 0 ? sequence_of(key, false, count) : NULL;
    char *copy = it ? malloc(strlen(it->bytes) + 1) : NULL;
    return copy ? strcpy(copy, it->bytes) : NULL;
}

int keyok(int key, bool flag) {
    int answer = ERR;
    if (!stdscr || key <= 0) return ERR;
    for (struct key *it; (it = sequence_of(key, flag, 0)); answer = OK) it->is_off = !flag;
    return answer;
}

/* The key that getch answers once it has read some bytes, 0 where they begin none, and ERR where it would read on. */
int key_defined(const char *sequence) {
    int key = 0;
    if (!stdscr || !sequence) return ERR;
    for (size_t length = 1; length <= strlen(sequence); length++)
        if ((key = curspan_key_of((const unsigned char *)sequence, length)) != ERR) break;
    return key;
}

/* Takes away all sequences of a key, or one whatever its key is, and answers whether there was one. */
static bool take_away(const char *sequence, int number) {
    bool was = false;
    for (struct key **at = &keys; *at;) {
        bool is_it = !(*at)->is_off && (sequence ? strcmp((*at)->bytes, sequence) == 0 : (*at)->number == number);
        if (is_it) take_out(at);
        else at = &(*at)->next;
        was |= is_it;
    }
    return was;
}

static int define(const char *sequence, int number) {
    size_t size = strlen(sequence) + 1;
    if (size == 1 || key_defined(sequence) != 0) return ERR;
    struct key *key = malloc(sizeof *key + size);
    if (!key) return ERR;
    *key = (struct key){keys, memcpy(key + 1, sequence, size), number, false, true};
    keys = key;
    return OK;
}

int define_key(const char *sequence, int key) {
    if (!stdscr) return ERR;
    if (!sequence) return key > 0 && take_away(NULL, key) ? OK : ERR;
    bool was = take_away(sequence, 0);
    if (key > 0) return define(sequence, key);
    return was ? OK : ERR;
}

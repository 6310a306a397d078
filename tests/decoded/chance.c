/* chance COUNT SEED: gives so many inputs to the proved decoder, of bytes by chance and of what terminals send, one in
   a hundred of them longer than the longest sequence, the delay in between. Each is given whole, byte by byte, and cut
   in two: the keys must be the same, and count all bytes that came but those that are pending. */
#include "../../c/keys.h"

#include <stdbool.h>
#include <stdio.h>
#include <stdlib.h>
#include <string.h>

enum { LONG = 9000, PLACES = 2 * LONG, LONGEST_SEQUENCE = 4096, DELAYS = 4, ALL = 8 };

/* One input: bytes, and after how many of them the delay is over. */
static struct {
    uint8_t bytes[LONG];
    size_t length, delays[DELAYS], count;
} input;

/* What a decoder answered. */
struct answer {
    struct curspan_taken taken[PLACES];
    size_t count, bytes;
};

static uint64_t state;

static uint32_t chance(uint32_t below) {
    state = state * 6364136223846793005u + 1442695040888963407u;
    return (uint32_t)((state >> 33) % below);
}

static void put(const void *bytes, size_t length) {
    if (length > LONG - input.length) length = LONG - input.length;
    memcpy(input.bytes + input.length, bytes, length);
    input.length += length;
}

static void put_text(const char *text) { put(text, strlen(text)); }

static void put_byte(uint32_t byte) { put(&(uint8_t){(uint8_t)byte}, 1); }

static void put_number(void) {
    static const uint32_t ends[] = {10, 40, 260, 70000, 2000000000};
    char text[16];
    snprintf(text, sizeof text, "%u", chance(ends[chance(5)]));
    if (chance(8)) put_text(text);
}

static void put_control(void) {
    static const char begins[] = "<?>=\0\0\0\0\0\0\0\0", ends[] = "ABCDFHPQRSZ~~~~~uuuMmIOGx$^@c";
    put_text("\033[");
    if (chance(3) == 0) put_byte((uint8_t)begins[chance(sizeof begins - 1)]);
    for (uint32_t numbers = chance(5); numbers-- > 0;) {
        put_number();
        if (numbers > 0 || chance(20) == 0) put_byte(chance(9) ? ';' : ':');
    }
    if (chance(20) == 0) put_byte(' ' + chance(16));
    put_byte((uint8_t)ends[chance(sizeof ends - 1)]);
}

static void put_character(void) {
    static const uint32_t ends[] = {0x80, 0x800, 0x10000, 0x110000};
    uint32_t code = chance(ends[chance(4)]);
    if (code < 0x80) return put_byte(code);
    int more = code < 0x800 ? 1 : code < 0x10000 ? 2 : 3;
    put_byte((0xf00u >> more) | (code >> (6 * more)));
    while (more-- > 0) put_byte(0x80 | (code >> (6 * more) & 0x3f));
}

static void put_string(void) {
    static const char *const begins[] = {"\033]11;rgb:", "\033P1$r", "\033_G", "\033]l", "\033Pz", "\033^", "\033X"};
    static const char *const ends[] = {"\033\\", "\a", "\033", "\030", ""};
    put_text(begins[chance(7)]);
    for (uint32_t more = chance(60) == 0 ? 4200 : chance(30); more-- > 0;) put_byte(' ' + chance(95));
    put_text(ends[chance(5)]);
}

static void put_paste(void) {
    put_text("\033[200~");
    for (uint32_t more = chance(20); more-- > 0;) {
        if (chance(4)) put_character();
        else put_text(&"\033[201~"[chance(6)]);
    }
    if (chance(5)) put_text("\033[201~");
}

static void put_piece(void) {
    static const char *const others[] = {"\033",     "\033O",       "\033OA",      "\033O2P",
                                         "\033[[A", "\033[M !!", "\033\033[A", "\033["};
    switch (chance(10)) {
    case 0: return put_byte(chance(256));
    case 1: case 2: return put_control();
    case 3: return put_string();
    case 4: return put_paste();
    case 5: case 6: return put_text(others[chance(8)]);
    case 7: return put_byte(0x80 + chance(128));
    default: put_character();
    }
}

static void make_input(bool is_long) {
    input.length = input.count = 0;
    if (is_long) {
        put_string();
        while (input.length <= LONGEST_SEQUENCE) put_byte(chance(50) ? ' ' + chance(95) : chance(256));
    }
    for (uint32_t pieces = 1 + chance(6); pieces-- > 0;) {
        put_piece();
        if (input.count < DELAYS && chance(6) == 0) input.delays[input.count++] = input.length;
    }
}

static void take(struct answer *answer, const struct curspan_taken *taken) {
    if (taken->kind == 0) return;
    answer->taken[answer->count++] = *taken;
    answer->bytes += taken->count;
}

static void feed(struct curspan_keys *keys, size_t from, size_t to, struct answer *answer) {
    while (from < to) {
        struct curspan_fed fed = curspan_keys_bytes(keys, input.bytes + from, to - from);
        take(answer, &fed.cut);
        take(answer, &fed.whole);
        from += fed.used;
    }
}

/* Gives the input with cuts where a piece has ended that is so long, or at one place, and at each delay. */
static void give(struct curspan_keys *keys, size_t piece, size_t cut, struct answer *answer) {
    size_t at = 0, delay = 0;
    answer->count = answer->bytes = 0;
    curspan_keys_restart(keys);
    for (;;) {
        for (; delay < input.count && input.delays[delay] == at; delay++) {
            struct curspan_taken taken = curspan_keys_delay(keys);
            take(answer, &taken);
        }
        if (at == input.length) return;
        size_t end = at + piece < input.length ? at + piece : input.length;
        if (at < cut && cut < end) end = cut;
        if (delay < input.count && input.delays[delay] < end) end = input.delays[delay];
        feed(keys, at, end, answer);
        at = end;
    }
}

static bool are_same(const struct answer *one, const struct answer *other) {
    if (one->count != other->count || one->bytes != other->bytes) return false;
    for (size_t i = 0; i < one->count; i++) {
        const struct curspan_taken *a = &one->taken[i], *b = &other->taken[i];
        bool is_same = a->kind == b->kind && a->code == b->code && a->modifiers == b->modifiers && a->flags == b->flags;
        if (!is_same || a->column != b->column || a->line != b->line || a->count != b->count) return false;
    }
    return true;
}

/* Whether the bytes of all keys and those that are pending are those that came, and no key has more than a sequence. */
static bool is_counted(struct curspan_keys *keys, const struct answer *answer) {
    if (answer->bytes > input.length || input.length - answer->bytes > LONGEST_SEQUENCE) return false;
    if ((answer->bytes < input.length) < (curspan_keys_waits(keys) != 0)) return false;
    for (size_t i = 0; i < answer->count; i++)
        if (answer->taken[i].count < 1 || answer->taken[i].count > LONGEST_SEQUENCE) return false;
    return true;
}

int main(int argc, char **argv) {
    static struct answer whole, single, cut;
    long inputs = argc > 1 ? atol(argv[1]) : 100000;
    struct curspan_keys keys = {0};
    state = argc > 2 ? strtoull(argv[2], NULL, 10) : 1;
    for (long i = 0; i < inputs; i++) {
        if (i % 1000 == 0) curspan_keys_close(&keys);
        if (i % 1000 == 0 && curspan_keys_open(&keys, (uint32_t)(i / 1000 % ALL)) != 0) return 1;
        make_input(i % 100 == 99);
        give(&keys, 1, 0, &single);
        give(&keys, LONG, chance((uint32_t)input.length + 1), &cut);
        give(&keys, LONG, 0, &whole);
        if (are_same(&whole, &single) && are_same(&whole, &cut) && is_counted(&keys, &whole)) continue;
        fprintf(stderr, "chance: input %ld is read in two ways, or not counted:", i);
        for (size_t at = 0; at < input.length; at++) fprintf(stderr, " %02x", input.bytes[at]);
        fprintf(stderr, "\n");
        return 1;
    }
    curspan_keys_close(&keys);
    printf("chance: %ld inputs are read the same, whole, byte by byte and cut in two\n", inputs);
    return 0;
}

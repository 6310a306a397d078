/* Characters in UTF-8, drawn by letters or question marks in as many columns as they take. Nothing here is proved. */
#include "inside.h"
#include "curspan_terminal.h"
#include "widths.h"

/* The letters without their marks, from U+00C0 on. */
static const char letters[] =
    "AAAAAA?CEEEEIIII?NOOOOO??UUUUY??aaaaaa?ceeeeiiii?nooooo??uuuuy?yAaAaAaCcCcCcCcDd??EeEeEeEeEeGgGg"
    "GgGgHh??IiIiIiIiI???JjKk?LlLlLl????NnNnNn???OoOoOo??RrRrRrSsSsSsSsTtTt??UuUuUuUuUuUuWwYyYZzZzZz?";

enum { FIRST_LETTER = 0xc0 };

/* Whether a character is in one of some ranges, each given by its first character and the first one behind it. */
static bool is_in(const uint32_t *ends, size_t count, uint32_t character) {
    size_t from = 0;
    for (size_t to = count; from < to;) {
        size_t middle = (from + to) / 2;
        if (character < ends[middle]) to = middle;
        else from = middle + 1;
    }
    return from % 2 == 1;
}

#define IS_IN(ranges, character) is_in(ranges, sizeof ranges / sizeof ranges[0], character)

/* How many bytes a character has that begins with this one, or 0: up to six, as UTF-8 once had. */
static int length_by(uint8_t first) {
    static const uint8_t begins[] = {0xc2, 0xe0, 0xf0, 0xf8, 0xfc};
    int length = 1;
    if (first < begins[0] || first > 0xfd) return 0;
    while (length <= (int)sizeof begins && first >= begins[length - 1]) length++;
    return length;
}

/* Whether these bytes begin a character, all but the last of which are known to. */
static bool is_begun(const uint8_t *bytes, int count) {
    return count == 1 ? length_by(bytes[0]) > 0 : (bytes[count - 1] & 0xc0) == 0x80;
}

static uint32_t decoded(const uint8_t *bytes, int count) {
    uint32_t character = bytes[0] & (0x7fu >> count);
    for (int i = 1; i < count; i++) character = character << 6 | (bytes[i] & 0x3f);
    return character;
}

/* Whether a character of so many bytes is one: it is no surrogate, and takes no fewer. */
static bool is_character(uint32_t character, int count) {
    uint32_t first = count == 2 ? 0x80 : (uint32_t)1 << (5 * count - 4);
    return character >= first && (character < 0xd800 || character > 0xdfff);
}

static curspan_spelling drawn(uint32_t character) {
    curspan_spelling none = {{' '}, 0, false}, one = {{'?'}, 1, false}, two = {{'?', ' '}, 2, true};
    if (IS_IN(without_width, character)) return none;
    if (IS_IN(wide, character)) return two;
    character -= FIRST_LETTER;
    if (character < sizeof letters - 1) one.text[0] = letters[character];
    return one;
}

/* A byte that is no part of a character, as ncurses spells it; one that could have been a character is a blank. */
static curspan_spelling spelled(uint8_t byte) {
    curspan_spelling blank = {{' '}, 1, false}, control = {{'^', (char)(byte ^ 64)}, 2, false};
    curspan_spelling high = {{'~', byte == 255 ? '?' : (char)(byte - 64)}, 2, false};
    curspan_spelling meta = {{'M', '-', (char)(byte & 127)}, 3, false};
    if (byte < ' ' || byte == 127) return control;
    if (byte < 128) return blank;
    return byte < 160 || byte == 255 ? high : meta;
}

curspan_spelling curspan_spell_part(curspan_unfinished *begun, uint8_t byte) {
    curspan_spelling none = {{' '}, 0, false};
    int count = ++begun->count;
    begun->bytes[count - 1] = byte;
    if (!is_begun(begun->bytes, count)) {
        begun->count = 0;
        return spelled(byte);
    }
    if (count < length_by(begun->bytes[0])) return none;
    begun->count = 0;
    uint32_t character = decoded(begun->bytes, count);
    return is_character(character, count) ? drawn(character) : spelled(byte);
}

/* The length of the character that some bytes begin with, or 0 where they begin none. */
static int decode(const uint8_t *bytes, size_t count, uint32_t *character) {
    int length = bytes[0] < 128 ? 1 : length_by(bytes[0]);
    for (int i = 1; i < length; i++)
        if ((size_t)i >= count || !is_begun(bytes, i + 1)) return 0;
    *character = length == 1 ? bytes[0] : decoded(bytes, length);
    return length == 1 || (length > 0 && is_character(*character, length)) ? length : 0;
}

size_t curspan_plain_text(const char *text, size_t length, char *out) {
    size_t count = 0;
    for (size_t at = 0; at < length;) {
        uint32_t character = '?';
        int size = decode((const uint8_t *)text + at, length - at, &character);
        bool moves = character == '\b' || character == '\n' || character == '\r';
        bool is_plain = size > 0 && ((character >= ' ' && character < 127) || moves);
        curspan_spelling is = {{is_plain ? (char)character : '?'}, 1, false};
        if (size > 0 && character >= 128) is = drawn(character);
        memmove(out + count, is.text, (size_t)is.count);
        count += (size_t)is.count;
        at += size > 0 ? (size_t)size : 1;
    }
    return count;
}

/* The bytes of a screen on their way to a terminal: pairs get the program's colours. Nothing here is proved. */
#include "terminal.h"
#include "curspan.h"

enum { EIGHT = 8, SHORTEST = 9 /* what comes before the end of a selection that has colours */ };

void curspan_number_pairs(curspan *screen) {
    for (uint32_t own = 1; own < OWN_PAIRS; own++) curspan_init_pair(screen, own, own / EIGHT, own % EIGHT);
}

static uint8_t digit_of(int colour) { return (uint8_t)('0' + (colour == OWN_COLOUR ? 9 : colour)); }

static uint8_t *append(uint8_t *out, const void *text, size_t length) {
    memmove(out, text, length);
    return out + length;
}

/* Lets the terminal draw alternate characters from there on, or the others. */
static uint8_t *switch_to(struct curspan_palette *palette, uint8_t *out, bool flag) {
    if (flag == palette->is_alternate) return out;
    palette->is_alternate = flag;
    return append(out, flag ? "\033(0" : CURSPAN_PLAIN_SET, 3);
}

static bool is_colour(uint8_t digit) { return digit >= '0' && digit < '0' + EIGHT; }

/* Appends a selection of a rendition with the program's colours of its pair: it ends as 3f;4bm where it has one. */
static uint8_t *append_selection(struct curspan_palette *palette, uint8_t *out, const uint8_t *bytes, size_t length) {
    const uint8_t *end = bytes + length - 1;
    bool has_colours = length > SHORTEST && end[-6] == ';' && end[-5] == '3' && is_colour(end[-4]) && end[-3] == ';' &&
                       end[-2] == '4' && is_colour(end[-1]);
    int own = has_colours ? (end[-4] - '0') * EIGHT + end[-1] - '0' : 0;
    int foreground = palette->colours[own][0], background = palette->colours[own][1];
    const uint8_t selected[] = {';', '3', digit_of(foreground), ';', '4', digit_of(background)};
    if (has_colours) length -= sizeof selected;
    out = append(switch_to(palette, out, palette->are_alternate[own]), bytes, length - 1);
    if (foreground != OWN_COLOUR || background != OWN_COLOUR) out = append(out, selected, sizeof selected);
    return append(out, "m", 1);
}

static const uint8_t *end_of(const uint8_t *begin, const uint8_t *last) {
    const uint8_t *at = begin + 1;
    while (at < last && (*at < '@' || *at == '[')) at++;
    return at < last ? at + 1 : last;
}

size_t curspan_recolour(struct curspan_palette *palette, const uint8_t *bytes, size_t length, uint8_t *out) {
    const uint8_t *last = bytes + length, *begin, *end;
    uint8_t *to = out;
    while (palette->changes && bytes < last && (begin = memchr(bytes, '\033', (size_t)(last - bytes)))) {
        end = end_of(begin, last);
        to = append(to, bytes, (size_t)(begin - bytes));
        size_t size = (size_t)(end - begin);
        to = end[-1] == 'm' ? append_selection(palette, to, begin, size) : append(to, begin, size);
        bytes = end;
    }
    return (size_t)(append(to, bytes, (size_t)(last - bytes)) - out);
}

/* Takes what the screen sent, behind so many times the room for it. Where there is no memory for it, it stays there for
   the next time, and the answer is NULL. */
static uint8_t *take(curspan *screen, size_t times, struct curspan_outgoing *all, size_t *length) {
    static uint8_t none;
    for (;;) {
        size_t room = all->room / (times + 1);
        uint8_t *to = room > 0 ? all->bytes + times * room : &none;
        if ((*length = curspan_take(screen, to, room)) <= room) return to;
        uint8_t *more = realloc(all->bytes, (times + 1) * *length);
        if (!more) return NULL;
        all->bytes = more;
        all->room = (times + 1) * *length;
    }
}

/* Where the bytes can't be written the terminal may draw with either set, and the next doupdate clears it. */
bool curspan_hand_on(struct curspan_tty *tty, curspan *screen, struct curspan_palette *palette,
                     struct curspan_outgoing *outgoing) {
    size_t length;
    uint8_t *bytes = take(screen, palette->changes ? CURSPAN_RECOLOURED : 0, outgoing, &length);
    if (!bytes) return false;
    if (length > 0) length = curspan_recolour(palette, bytes, length, outgoing->bytes);
    if (curspan_send(tty, outgoing->bytes, length)) return true;
    for (int own = 0; own < OWN_PAIRS; own++) palette->is_alternate |= palette->are_alternate[own];
    curspan_invalidate(screen);
    return false;
}

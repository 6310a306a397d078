/* Colours. A picture keeps the colours that a pair had when a cell came into it. So that a pair that is shown can get
   others, Curspan knows each by two colours of its own, and those of the program come into the bytes on their way.
   Alternate characters have pairs of their own, which say where the terminal draws them. Nothing here is proved. */
#include "inside.h"
#include "terminal.h"

enum { EIGHT = 8, OWN = OWN_COLOUR };

static struct colours {
    short colours[LAST_PAIR + 1][2]; /* what the program gave; those of pair 0 are what -1 is too */
    bool is_given[LAST_PAIR + 1];
    attr_t stands_for[LAST_OWN + 1]; /* of each pair of curspan.h, which one it stands for, or 0 */
    bool has_defaults;               /* those of pair 0 are set */
    bool is_started;                 /* start_color was called: before it no pair has colours, and none is given them */
    bool is_own_colour;              /* -1 is a colour */
    struct curspan_palette palette;  /* all this, as it was last asked for */
    bool is_stale;                   /* it isn't so any more */
} it;
uint8_t curspan_owns[2][LAST_PAIR + 1];

void curspan_forget_colours(void) {
    it = (struct colours){.colours = {{OWN, OWN}}, .is_stale = true};
    memset(curspan_owns, 0, sizeof curspan_owns);
}

/* A pair of curspan.h that stands for none: that of the same number, or the last one. */
static int free_own(int pair) {
    int own = pair <= LAST_OWN && !it.stands_for[pair] ? pair : LAST_OWN;
    while (own > 0 && it.stands_for[own]) own--;
    return own;
}

/* Lets a pair of curspan.h that stands for none stand for another. Where there is none, it is that of pair 0. */
int curspan_take_pair(attr_t attrs) {
    uint8_t *of = curspan_owns[(attrs & A_ALTCHARSET) > 0];
    int pair = PAIR_NUMBER(attrs), own = free_own(attrs & A_ALTCHARSET ? LAST_OWN : pair);
    if (!own) return attrs & A_ALTCHARSET ? of[0] : 0;
    of[pair] = (uint8_t)own;
    it.stands_for[own] = attrs & (A_COLOR | A_ALTCHARSET);
    it.is_stale = it.palette.changes = true;
    return own;
}

attr_t curspan_attributes_of(int own) { return it.stands_for[own]; }

/* Sets the colours of pair 0, and what -1 is in others. */
static int set_defaults(int foreground, int background) {
    if (!stdscr) return ERR;
    it.colours[0][0] = (short)foreground;
    it.colours[0][1] = (short)background;
    it.has_defaults = it.is_stale = true;
    return OK;
}

/* What was shown before is drawn anew, so that blanks get the colours of pair 0 too. */
int start_color(void) {
    if (!stdscr) return ERR;
    if (!it.is_started) curspan_invalidate(curspan_settle());
    it.is_started = true;
    return it.has_defaults ? OK : set_defaults(COLOR_WHITE, COLOR_BLACK);
}

bool has_colors(void) { return stdscr != NULL; }
bool can_change_color(void) { return false; }

int assume_default_colors(int foreground, int background) {
    if (!stdscr || foreground < OWN || foreground >= EIGHT || background < OWN || background >= EIGHT) return ERR;
    it.is_own_colour = true;
    return set_defaults(foreground, background);
}

int use_default_colors(void) { return assume_default_colors(OWN, OWN); }

int init_color(short color, short red, short green, short blue) {
    return (void)color, (void)red, (void)green, (void)blue, ERR;
}

/* The first eight colours, as terminals usually have them. */
int color_content(short color, short *red, short *green, short *blue) {
    if (!stdscr || color < 0 || color >= EIGHT || !red || !green || !blue) return ERR;
    *red = color & 1 ? 680 : 0;
    *green = color & 2 ? 680 : 0;
    *blue = color & 4 ? 680 : 0;
    return OK;
}

static bool is_colour(int colour) { return colour < EIGHT && colour >= (it.is_own_colour ? OWN : 0); }

int init_pair(short pair, short foreground, short background) {
    if (!it.is_started || pair < 1 || pair > LAST_PAIR || !is_colour(foreground) || !is_colour(background)) return ERR;
    bool are_others = it.colours[pair][0] != foreground || it.colours[pair][1] != background;
    bool is_shown = curspan_owns[0][pair] || curspan_owns[1][pair];
    if (it.is_given[pair] && is_shown && are_others) curspan_invalidate(curspan_settle());
    it.colours[pair][0] = foreground;
    it.colours[pair][1] = background;
    it.is_given[pair] = it.is_stale = true;
    return OK;
}

int pair_content(short pair, short *foreground, short *background) {
    if (!it.is_started || pair < 0 || pair > LAST_PAIR || !foreground || !background) return ERR;
    *foreground = it.colours[pair][0];
    *background = it.colours[pair][1];
    return OK;
}

/* ---- the bytes */

static signed char colour_of(int pair, int which) {
    int colour = it.is_given[pair] ? it.colours[pair][which] : OWN;
    return (signed char)(colour == OWN && it.is_started ? it.colours[0][which] : colour);
}

struct curspan_palette *curspan_palette_now(void) {
    for (int own = 0; it.is_stale && own <= LAST_OWN; own++) {
        it.palette.colours[own][0] = colour_of(PAIR_NUMBER(it.stands_for[own]), 0);
        it.palette.colours[own][1] = colour_of(PAIR_NUMBER(it.stands_for[own]), 1);
        it.palette.are_alternate[own] = it.stands_for[own] & A_ALTCHARSET;
    }
    if (it.is_stale && (it.colours[0][0] != OWN || it.colours[0][1] != OWN)) it.palette.changes = true;
    it.is_stale = false;
    return &it.palette;
}

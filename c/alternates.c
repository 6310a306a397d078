/* Alternate characters, which draw lines: VT100's letters, of pairs that stand for such. Nothing here is proved. */
#include "inside.h"
#include "terminal.h"

chtype acs_map[128];
bool curspan_has_alternates;

#define OF_RXVT "`afgjklmnopqrstuvwxyz{|}~"
#define OF_VT100 OF_RXVT "i"
#define OF_SCREENS OF_VT100 "+,-.0h"

/* The letters that are so where the type begins so: on the Linux console none, which draws letters in UTF-8. */
static const struct {
    const char *type, *letters;
} sets[] = {
    {"screen", OF_SCREENS}, {"tmux", OF_SCREENS}, {"xterm", OF_VT100}, {"rxvt", OF_RXVT}, {"vt1", OF_VT100},
    {"vt2", OF_VT100}, {"vt3", OF_VT100}, {"vt4", OF_VT100}, {"gnome", OF_VT100}, {"konsole", OF_VT100},
    {"kitty", OF_VT100}, {"foot", OF_VT100}, {"putty", OF_VT100}, {"st-", OF_VT100}, {"Eterm", OF_VT100},
    {"alacritty", OF_VT100},
};

/* X/Open's character for a letter that is none, and for capitals those of ncurses' thick and double lines. */
static chtype plain_of(chtype letter) {
    static const char plain[] = "`+a:f'g#h#i#j+k+l+m+n+o~p-q-r-s_t+u+v+w+x|y<z>{*|!}f~o,<+>.v-^0#"
                                "A+B+C+D+E+F+G+H+I+J+K+L+M+N+Q-R-T+U+V+W+X|Y|";
    for (size_t i = 0; plain[i]; i += 2)
        if ((unsigned char)plain[i] == letter) return (unsigned char)plain[i + 1];
    return letter < 128 ? letter : '?';
}

void curspan_begin_map(void) {
    const char *letters = "";
    for (size_t i = 0; i < sizeof sets / sizeof sets[0]; i++)
        if (strncmp(termname(), sets[i].type, strlen(sets[i].type)) == 0) letters = sets[i].letters;
    curspan_has_alternates = *letters != 0;
    for (chtype ch = 0; ch < 128; ch++) acs_map[ch] = plain_of(ch);
    for (; *letters; letters++) acs_map[(unsigned char)*letters] = (unsigned char)*letters | A_ALTCHARSET;
}

chtype curspan_as_alternate(chtype ch) {
    chtype letter = ch & A_CHARTEXT;
    bool may_be_line = letter == ' ' && curspan_has_alternates; /* by the background */
    bool has_it = may_be_line || (letter < 128 && acs_map[letter] & A_ALTCHARSET);
    if (has_it && curspan_use_pair(A_ALTCHARSET) > 0) return ch;
    return (ch & ~(A_ALTCHARSET | A_CHARTEXT)) | plain_of(letter);
}

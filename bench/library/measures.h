/* What is measured over Curspan and over ncurses: rows of a name, what makes it so often, and how often it is timed. */
#ifndef MEASURES_H
#define MEASURES_H

struct measure {
    const char *name; /* that of a question ends in ? */
    void (*make)(int times);
    int timed; /* or 0, where its instructions alone are counted */
};

extern const struct measure calls[], ticks[];
extern const int call_count, tick_count;

#endif

/* panel.h: panel(3) over Curspan (curspan.h), in C99 or C++. See curses.h. */
#ifndef CURSPAN_PANEL_H
#define CURSPAN_PANEL_H

#include "curses.h"

#ifdef __cplusplus
extern "C" {
#endif

typedef struct curspan_panel PANEL;

PANEL *new_panel(WINDOW *win);
int del_panel(PANEL *panel);
int show_panel(PANEL *panel);
int hide_panel(PANEL *panel);
int top_panel(PANEL *panel);
int bottom_panel(PANEL *panel);
int move_panel(PANEL *panel, int y, int x);
int replace_panel(PANEL *panel, WINDOW *win);
int panel_hidden(const PANEL *panel);
WINDOW *panel_window(const PANEL *panel);
PANEL *panel_above(const PANEL *panel); /* of NULL the bottom panel */
PANEL *panel_below(const PANEL *panel); /* of NULL the top panel */
int set_panel_userptr(PANEL *panel, const void *pointer);
const void *panel_userptr(const PANEL *panel);
void update_panels(void);

#ifdef __cplusplus
}
#endif
#endif

# Lines of scripts that make every call, for bench/memory and bench/budgets.
# shellcheck shell=bash disable=SC2034,SC2154

# Windows and pads to call on: 1 has a grid and scrolls, 2 derives from it, 3 is a pad, and 4 derives from that; 5, 6
# and 7 are for panels, of which 1 has 5, 2 has 6, and 3 was deleted.
base='newwin 4 8 0 0
derwin 1 2 4 1 1
newpad 5 9
subpad 3 2 3 1 1
scrollok 1 on
newwin 2 3 0 0
newwin 2 3 1 1
newwin 2 3 2 2
new_panel 5
new_panel 6
new_panel 7
del_panel 3'

# What makes window or pad 8, and how often it allocates: a grid and its marks, or marks alone.
makers='newwin 3 7 1 2:2
newpad 6 5:2
derwin 1 2 3 1 1:1
subwin 1 2 3 1 1:1
subpad 3 2 3 1 1:1'

# All other calls, but delwin, which is counted with what it deletes. A semicolon is between calls that go together. What
# writes in a window, sets something of it or asks, and isn't named here, is made with arguments of its types.
others='addch 1 x
addstr 1 some text\nand more of it, past the end
addstr 3 some text in a pad
bkgdset 1 04 .
bottom_panel 2
clear 2
clrtobot 2
clrtoeol 2
copywin 0 3 0 0 0 0 4 8 on
copywin 1 2 0 1 0 0 1 3 off
delch 1
deleteln 1
erase 4
hide_panel 1; show_panel 1
init_pair 3 1 4
insch 1 y
insertln 2
is_linetouched 1 2
is_wintouched 4
move 1 3 2
move_panel 2 0 3
mvderwin 2 0 0
mvwin 1 1 1
new_panel 7; del_panel 3
noutrefresh 1
overlay 1 2
overwrite 0 1
panel_above none
panel_below 2
panel_hidden 1
panel_window 2
pnoutrefresh 3 0 0 1 1 3 4
replace_panel 1 7; replace_panel 1 5
scrl 1 1
scrl 1 -1
setscrreg 1 0 2
syncdown 2
syncup 2
top_panel 1
touchline 1 1 2
touchln 1 0 4 off
touchwin 3
untouchwin 3
addstr 0 on the screen
update_panels
doupdate'
# shellcheck disable=SC2046
others=$("$root/bench/lines" 2 $(grep -oE '[a-z_]+' <<< "$others"))$'\n'$others

# Puts out a line some times, with each of its calls on a line of its own.
repeat() { local i; for ((i = 0; i < $1; i++)); do printf '%s\n' "${2//; /$'\n'}"; done; }

# Puts out each of the lines some times.
repeat_each() { local line; while IFS= read -r line; do repeat "$1" "$line"; done <<< "$2"; }

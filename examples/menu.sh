#!/usr/bin/env bash
# A menu that scrolls: the up and down keys (or k and j) move, Home and End go to its ends, Enter chooses, q leaves. It
# shows ten items at a time. What was chosen goes to standard output, with status 0; where nothing was, the status is 1.
# The keys are read by the shell: choice=$(examples/menu.sh red green blue)
set -uo pipefail
. "$(dirname "$(readlink -f "${BASH_SOURCE[0]}")")/screen.bash"

items=("$@")
count=${#items[@]} shown=$(($# < 10 ? $# : 10))
if [ "$count" = 0 ]; then
    echo 'usage: examples/menu.sh ITEM..' >&2
    exit 2
fi

# Writes the items that are shown, from edge to edge of the list, the chosen one in reverse.
draw() {
    local y text attributes
    first=$((at < first ? at : at >= first + shown ? at - shown + 1 : first))
    for ((y = 0; y < shown; y++)); do
        printf -v text ' %-34.34s' "${items[first + y]}"
        attributes=00
        [ $((first + y)) != "$at" ] || attributes=10
        curspan_call attrset "$list" "$attributes"
        curspan_call move "$list" "$y" 0
        curspan_text "$list" "$text"
    done
    curspan_show
}

curspan_open $((shown + 2)) 38 || exit
curspan_border 0 $((shown + 2)) 38 menu
curspan_ask derwin 0 "$shown" 36 1 1 || exit
list=$curspan_answer

at=0 first=0 chosen=
draw
while [ -z "$chosen" ] && curspan_read_key; do
    case $curspan_key in
        up | k) at=$(((at + count - 1) % count)) ;;
        down | j) at=$(((at + 1) % count)) ;;
        home | pageup) at=0 ;;
        end | pagedown) at=$((count - 1)) ;;
        enter) chosen=$at ;;
        q | escape) chosen=none ;;
    esac
    draw
done
curspan_close
[ "${chosen:-none}" != none ] && printf '%s\n' "${items[chosen]}"

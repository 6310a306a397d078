#!/usr/bin/env bash
# A monitor of the processes of a Linux machine: p, n and m sort by number, name and memory; arrows
# choose one, k asks before it would end it, and q ends the monitor. It looks again each second,
# follows the size of the terminal, and ends no process: it says which one it would.
set -uo pipefail
. "$(dirname "$(readlink -f "${BASH_SOURCE[0]}")")/screen.bash"
declare -A orders=([p]='-k1,1n' [n]='-k2,2' [m]='-k3,3nr')
order=m chosen=0 first=0 ended=0 rows=() asked=''

# Reads number, name and memory in KiB of each process, sorted.
look() {
    local folder pages name
    mapfile -t rows < <(for folder in /proc/[0-9]*; do
        { read -r _ pages _ < "$folder/statm" && read -r name < "$folder/comm"; } || continue
        printf '%s\t%s\t%s\n' "${folder#/proc/}" "$name" $((pages * 4))
    done 2> /dev/null | sort -t $'\t' "${orders[$order]}")
}

# Writes a line of the screen in a pair of colours, from edge to edge.
write_line() {
    local text
    printf -v text '%-*.*s' "$curspan_columns" "$curspan_columns" "$3"
    curspan_call color_set 0 "$2"
    curspan_call move 0 "$1" 0
    curspan_text 0 "$text"
}

# Shows the list under the question whether a process shall be ended.
ask() {
    local number name text window panel width=$((curspan_columns < 40 ? curspan_columns : 40))
    IFS=$'\t' read -r number name _ <<< "$asked"
    text="y or n: end $number, ${name:0:15}?"
    curspan_ask newwin 3 "$width" $(((curspan_lines - 3) / 2)) $(((curspan_columns - width) / 2))
    window=$curspan_answer
    curspan_border "$window" 3 "$width" "${text:0:width - 5}"
    curspan_ask new_panel "$window"
    panel=$curspan_answer
    curspan_show
    curspan_call del_panel "$panel"
    curspan_call delwin "$window"
}

# Shows the list, and the question where there is one and room for it.
draw() {
    local y number name memory text room=$((curspan_lines - 2))
    chosen=$((chosen >= ${#rows[@]} ? ${#rows[@]} - 1 : chosen < 0 ? 0 : chosen))
    first=$((chosen < first ? chosen : chosen >= first + room ? chosen - room + 1 : first))
    write_line 0 1 '   NUMBER  NAME                KIB'
    for ((y = 0; y < room; y++)); do
        IFS=$'\t' read -r number name memory <<< "${rows[first + y]:-}"
        printf -v text '%9s  %-15.15s %9s' "$number" "$name" "$memory"
        write_line $((y + 1)) $((first + y == chosen ? 2 : 0)) "$text"
    done
    write_line $((curspan_lines - 1)) 1 " p number  n name  m memory  k end ($ended)  q quit"
    if ((curspan_lines < 3 || curspan_columns < 12)); then asked=; fi
    if [ -n "$asked" ]; then ask; else curspan_show; fi
}

begin() {
    curspan_call init_pair 1 7 4
    curspan_call init_pair 2 7 1
}

curspan_open || exit
begin
look
while [ "$curspan_key" != q ]; do
    draw
    curspan_read_key 1 || true
    if [ -n "$asked" ] && [[ $curspan_key != @(|resize) ]]; then
        [ "$curspan_key" != y ] || ended=${asked%%$'\t'*}
        asked='' curspan_key=''
    fi
    case $curspan_key in
        up) chosen=$((chosen - 1)) ;;
        down) chosen=$((chosen + 1)) ;;
        pageup) chosen=$((chosen - curspan_lines + 2)) ;;
        pagedown) chosen=$((chosen + curspan_lines - 2)) ;;
        k) asked=${rows[chosen]} ;;
        resize) curspan_resize && begin ;;
        [pnm]) order=$curspan_key ;;&
        '' | [pnm]) look ;;
    esac
done

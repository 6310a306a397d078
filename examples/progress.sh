#!/usr/bin/env bash
# An installer that installs nothing: its steps are listed on the screen, and a panel above them has a bar that grows. Sizes and numbers
# of windows are read back from what the calls answer. The word is the time of a tenth of a step: examples/progress.sh [SECONDS]
set -uo pipefail
. "$(dirname "$(readlink -f "${BASH_SOURCE[0]}")")/screen.bash"

tenth=${1:-0.1}
if ! [[ $tenth =~ ^[0-9]{1,3}(\.[0-9]{1,3})?$ ]]; then
    echo 'usage: examples/progress.sh [SECONDS]' >&2
    exit 2
fi
steps=('Reading the list' 'Fetching' 'Unpacking' 'Checking' 'Setting up')

# Fills the bar up to a part in tenths of all steps, with the share in hundredths in its middle.
fill_bar() {
    local all=$((${#steps[@]} * 10)) text full
    full=$(($1 * width / all))
    printf -v text '%*d%%%*s' $((width / 2 + 1)) $(($1 * 100 / all)) $((width - width / 2 - 2)) ''
    curspan_call move "$bar" 0 0
    curspan_call attrset "$bar" 10
    curspan_text "$bar" "${text:0:full}"
    curspan_call attrset "$bar" 00
    curspan_text "$bar" "${text:full}"
}

curspan_open 14 60 || exit
curspan_border 0 14 60 'Installing'
curspan_ask newwin 5 44 7 12 || exit
box=$curspan_answer
curspan_border "$box" 5 44
curspan_ask derwin "$box" 1 40 3 2 || exit
bar=$curspan_answer
curspan_ask getmaxyx "$bar" || exit
width=${curspan_answer#* }
curspan_ask new_panel "$box" || exit
panel=$curspan_answer

for ((i = 0; i < ${#steps[@]}; i++)); do
    curspan_call move 0 $((i + 2)) 3
    curspan_text 0 "[ ] ${steps[i]}"
    curspan_call move "$box" 1 2
    printf -v text '%-40s' "${steps[i]} .."
    curspan_text "$box" "$text"
    for ((part = 0; part < 10; part++)); do
        fill_bar $((i * 10 + part))
        curspan_show
        curspan_read_key "$tenth" || true
    done
    curspan_call move 0 $((i + 2)) 4
    curspan_text 0 x
done
fill_bar $((${#steps[@]} * 10))
curspan_show
curspan_read_key "$tenth" || true
curspan_call hide_panel "$panel"
curspan_call move 0 $((${#steps[@]} + 3)) 3
curspan_text 0 'All is set up. Press a key.'
curspan_show
curspan_read_key || true
curspan_close

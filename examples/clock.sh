#!/usr/bin/env bash
# A clock, for so many seconds, or until a key is pressed: examples/clock.sh [SECONDS]
set -uo pipefail
. "$(dirname "$(readlink -f "${BASH_SOURCE[0]}")")/screen.bash"

seconds=${1:-10}
if ! [[ $seconds =~ ^[0-9]{1,5}$ ]]; then
    echo 'usage: examples/clock.sh [SECONDS]' >&2
    exit 2
fi

curspan_open 5 22 || exit
curspan_border 0 5 22 clock
curspan_ask derwin 0 1 8 2 7 || exit
face=$curspan_answer
curspan_call attrset "$face" 01
for ((left = 10#$seconds; left > 0; left--)); do
    printf -v time '%(%H:%M:%S)T' -1
    curspan_call move "$face" 0 0
    curspan_text "$face" "$time"
    curspan_show
    if curspan_read_key 1; then left=0; fi
done
curspan_close

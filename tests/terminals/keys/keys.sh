#!/usr/bin/env bash
# Puts the names of the keys that are typed into a file, a line each, up to Ctrl-D.
. "$(dirname "$(readlink -f "${BASH_SOURCE[0]}")")/../../../examples/screen.bash"
curspan_open || exit
curspan_text 0 ready
curspan_show
until [ "$curspan_key" = ctrl+d ]; do
    curspan_read_key
    printf '%s\n' "$curspan_key"
done > "$1"
curspan_close

# What ends a command, and all that it began, when a signal ends the command.

# interruptible NAME COMMAND..: runs a command in a process group of its own, without input, and returns its status.
# Where HUP, INT or TERM comes meanwhile, all that the command began ends within five seconds, in other groups and
# sessions too, and its temporary files go. Then a sentence is told after the name, and the signal ends this script.
# TSTP stops the group too. What is interruptible already only runs.
interruptible() {
    local name=$1 status signal
    shift
    if [ -n "${CURSPAN_ROOM:-}" ]; then
        "$@"
        return
    fi
    room='' group=''
    # shellcheck disable=SC2064 # the name is known now
    for signal in HUP INT TERM; do trap "end_group '$name' $signal" "$signal"; done
    room=$(mktemp -d)
    chmod 711 "$room" # rt runs programs as nobody
    set -m
    (
        export CURSPAN_ROOM=$room TMPDIR=$room
        "$@"
    ) < /dev/null &
    group=$!
    set +m
    trap stop_group TSTP
    while
        status=0
        wait "$group" || status=$?
        kill -0 "$group" 2> /dev/null
    do :; done
    trap - HUP INT TERM TSTP
    clear_room
    return "$status"
}

# Notes a path that something has until it is whole: what stands there when the command ends goes.
note_part() { [ -z "${CURSPAN_ROOM:-}" ] || printf '%s\n' "$1" >> "$CURSPAN_ROOM/parts"; }

# Removes what is not whole, and the temporary files.
clear_room() {
    [ ! -e "$room/parts" ] || xargs -d '\n' rm -rf -- < "$room/parts"
    rm -rf "$room"
}

# put_whole FROM TO: copies a file to a place, where it then stands whole or not at all.
put_whole() {
    note_part "$2.part"
    cp "$1" "$2.part" && mv -f "$2.part" "$2"
}

# all_interruptible NAME SCRIPT WORD..: has a script go on interruptible: it runs anew, and this ends with its status.
all_interruptible() {
    if [ -z "${CURSPAN_ROOM:-}" ]; then
        interruptible "$1" bash "${@:2}"
        exit
    fi
}

# Puts out the first process of the group and those whose environment has its room, each with all that it began.
begun() {
    {
        grep -s '^PPid:' /proc/[0-9]*/status
        grep -lsxz "CURSPAN_ROOM=$room" /proc/[0-9]*/environ || true
    } | awk -F '[/:\t]' -v first="$group" '
        function add(process,   n, i, its) {
            if (process in added) return
            added[process]
            print process
            n = split(children[process], its, " ")
            for (i = 1; i <= n; i++) add(its[i])
        }
        /environ$/ { found[$3]; next }
        { children[$NF] = children[$NF] " " $3 }
        END { add(first); for (it in found) add(it) }'
}

# Sends a signal to the group and to processes, and answers whether one of them is there.
send() {
    local signal=$1
    shift
    kill -s "$signal" -- "-$group" "$@" 2> /dev/null
}

# strike SIGNAL TENTHS: sends a signal to all that was begun, which is stopped first so that it begins no more, and
# waits until nothing of it is left, some tenths of a second at most.
strike() {
    local found=() before turn
    while
        before=${found[*]}
        mapfile -t found < <(begun)
        send STOP "${found[@]}" || true
        [ "${found[*]}" != "$before" ]
    do :; done
    struck+=("${found[@]}")
    send "$1" "${struck[@]}" || return 0
    send CONT "${struck[@]}" || return 0
    for ((turn = 0; turn < $2; turn++)); do
        sleep 0.1
        send 0 "${struck[@]}" || return 0
    done
}

# end_group NAME SIGNAL: ends all that was begun, and then this script, by the signal that it got.
end_group() {
    local struck=()
    trap '' HUP INT TERM TSTP
    if [ -n "$group" ]; then
        strike TERM 30
        strike KILL 10
    fi
    [ -z "$room" ] || clear_room
    end_telling
    echo "$1: ended by SIG$2, with all that it began; what was proved until then is kept" >&2
    trap - "$2"
    kill -s "$2" "$$"
}

# Stops the group and this script, and lets the group go on when this goes on.
stop_group() {
    kill -s TSTP -- "-$group"
    kill -s STOP "$$"
    kill -s CONT -- "-$group"
}

# shellcheck shell=bash
# A terminal for scripts of bash: `curspan run` is a co-process that takes calls on a pipe, draws on the terminal, and
# answers on another pipe. Other scripts source this file; docs/shell.md tells of its functions and variables.
#
#   curspan_open [LINES COLUMNS]      curspan_close            curspan_resize
#   curspan_call WORD..               curspan_text WINDOW TEXT
#   curspan_ask WORD..                curspan_border WINDOW LINES COLUMNS [TITLE]
#   curspan_show                      curspan_read_key [SECONDS]
#                                     curspan_ask_line WINDOW LINE COLUMN WIDTH [TEXT]
curspan_file=${BASH_SOURCE[0]}
if [ "${curspan_owner:-}" != "$BASHPID" ]; then    # sourced once more, it keeps the screen that is open
    curspan_owner='' curspan_answer='' curspan_key='' curspan_bytes='' curspan_lines=0 curspan_columns=0
fi
curspan_here=$(dirname "$(readlink -f "$curspan_file")")
curspan_program=curspan
for curspan_found in "$curspan_here/../../bin/curspan" "$curspan_here/../curspan" "${CURSPAN:-}"; do
    if [ -f "$curspan_found" ] && [ -x "$curspan_found" ]; then curspan_program=$curspan_found; fi
done

# What would end the script, by numbers, but for what bash ignores or uses itself.
mapfile -t curspan_deadly <<< "$(kill -l HUP INT TERM USR1 USR2 VTALRM PROF XCPU XFSZ ABRT SYS TRAP)"

# What keys send after an escape on xterm, tmux, screen, the Linux console and rxvt, with no modifier, or as rxvt has
# shift and control of the arrows. What tells of other modifiers is longer.
declare -gA curspan_sequences=(
    ['[A']=up ['[B']=down ['[C']=right ['[D']=left [OA]=up [OB]=down [OC]=right [OD]=left
    ['[H']=home [OH]=home ['[1~']=home ['[7~']=home ['[F']=end [OF]=end ['[4~']=end ['[8~']=end
    ['[2~']=insert ['[3~']=delete ['[5~']=pageup ['[6~']=pagedown ['[Z']=shift+tab
    ['[a']=shift+up ['[b']=shift+down ['[c']=shift+right ['[d']=shift+left
    [Oa]=ctrl+up [Ob]=ctrl+down [Oc]=ctrl+right [Od]=ctrl+left
    [OM]=enter [OE]=begin [Ow]=a1 [Oy]=a3 [Ou]=b2 [Oq]=c1 [Os]=c3
    [OP]=f1 [OQ]=f2 [OR]=f3 [OS]=f4 ['[[A']=f1 ['[[B']=f2 ['[[C']=f3 ['[[D']=f4 ['[[E']=f5
    ['[11~']=f1 ['[12~']=f2 ['[13~']=f3 ['[14~']=f4 ['[15~']=f5 ['[17~']=f6 ['[18~']=f7 ['[19~']=f8
    ['[20~']=f9 ['[21~']=f10 ['[23~']=f11 ['[24~']=f12 ['[25~']=f13 ['[26~']=f14 ['[28~']=f15 ['[29~']=f16
    ['[31~']=f17 ['[32~']=f18 ['[33~']=f19 ['[34~']=f20
)

# Becomes the program, whose name among its words is in UTF-8 whatever its folder's is.
curspan_run() { exec -a curspan "$curspan_program" "$@"; }

# Says what is wrong, with the line of the script that called: at once, or after the terminal is given back. (Names of
# locals begin with __curspan_, since a name that the script made readonly can be no local.)
curspan_complain() {
    local __curspan_at=1 __curspan_to=2
    while [ "${BASH_SOURCE[__curspan_at]:-}" = "$curspan_file" ]; do __curspan_at=$((__curspan_at + 1)); done
    if [ -n "$curspan_owner" ]; then __curspan_to=$curspan_told; fi
    printf '%s: line %s: %s: %s\n' "${BASH_SOURCE[__curspan_at]:-bash}" "${BASH_LINENO[__curspan_at - 1]}" \
        "${FUNCNAME[__curspan_at - 1]}" "$1" >&"$__curspan_to"
    return 1
}

# Whether words are numbers, which bash may then reckon with: it would run the commands in another word.
curspan_are_numbers() {
    local __curspan_word
    for __curspan_word; do
        if ! [[ $__curspan_word == @(0|[1-9]?([0-9])?([0-9])?([0-9])) ]]; then
            curspan_complain "a number from 0 to 9999 is wanted, and not: $__curspan_word"
            return 1
        fi
    done
}

# Whether there is a screen, and this shell opened it: a subshell has other variables and no pipe.
curspan_is_here() {
    # without a number `return` answers in a trap what was before it
    if [ "$curspan_owner" = "$BASHPID" ]; then return 0; fi
    if [ -z "$curspan_owner" ]; then curspan_complain 'no screen is open'
    else curspan_complain 'this is a subshell, and only the shell that opened the screen may call'; fi
}

# Between these the terminal is changed, or bash reads, within which it runs what a signal has it do. A signal that came
# ends the script at the second. No loop here has `break` or `continue`, in which bash drops a signal that comes.
curspan_hold() { curspan_held=yes; }
curspan_release() {
    curspan_held=
    [ -z "$curspan_ended" ] || curspan_end
}
curspan_note_end() {
    curspan_ended=$1
    [ -n "$curspan_held" ] || curspan_end
}
curspan_end() {
    curspan_hold
    exit "$((128 + curspan_ended))"
}

# At exit what the script itself wanted then is done after the terminal is given back. (In posix mode bash tells of a
# trap that isn't set as one that is `-`.)
curspan_at_exit() {
    local __curspan_status=$?
    trap '' "${curspan_deadly[@]}"
    curspan_close || true
    eval "set -- $curspan_at_exit_before"
    if [ "${3:--}" = - ]; then exit "$__curspan_status"; fi
    if (exit "$__curspan_status"); then eval "$3"; else eval "$3"; fi
    exit "$__curspan_status"
}

# Keys come as they are pressed and aren't shown, Ctrl-Z and Ctrl-\ among them; Ctrl-C drops nothing that is on its way
# to the terminal.
curspan_take_terminal() {
    stty -echo -icanon noflsh susp undef quit undef < /dev/tty
    printf %s "$curspan_enter_page" > /dev/tty
}

# What is written gets some time to be read: with its modes of before, a terminal drops at Ctrl-C what isn't read yet.
curspan_give_terminal_back() (
    trap '' INT
    printf %s "$curspan_leave_page" > /dev/tty || true
    sleep 0.05
    stty "$curspan_modes" < /dev/tty || true
) 2> /dev/null

# Puts the size of the terminal into `__curspan_lines` and `__curspan_columns`. One that doesn't know it has the usual
# one of its kind.
curspan_find_size() {
    local __curspan_size
    __curspan_size=$(stty size < /dev/tty 2> /dev/null) || true
    __curspan_lines=${__curspan_size% *} __curspan_columns=${__curspan_size#* }
    if [ "${__curspan_lines:-0}" = 0 ] || [ "${__curspan_columns:-0}" = 0 ]; then
        __curspan_lines=$(tput lines) __curspan_columns=$(tput cols)
    fi
    __curspan_lines=$((__curspan_lines < 999 ? __curspan_lines : 999))
    __curspan_columns=$((__curspan_columns < 999 ? __curspan_columns : 999))
}

# Locks the terminal itself, whose number the system tells, so that no other script takes it meanwhile. (`command` has
# bash go on in posix mode where `exec` fails.)
curspan_lock_terminal() {
    local __curspan_number __curspan_path
    curspan_lock=
    command -v flock > /dev/null && __curspan_number=$(< "/proc/$$/stat") || return 0
    __curspan_number=${__curspan_number##*) }
    __curspan_number=${__curspan_number#* * * * } __curspan_number=${__curspan_number%% *}
    __curspan_path=/dev/pts/$(((__curspan_number >> 8 & 0xfff) - 136 << 8 | __curspan_number & 0xff))
    [ "$((__curspan_number >> 8 & 0xfff))" != 4 ] || __curspan_path=/dev/tty$((__curspan_number & 0xff))
    { command exec {curspan_lock}< "$__curspan_path"; } 2> /dev/null || return 0
    flock -n "$curspan_lock"
}
curspan_unlock_terminal() {
    [ -z "$curspan_lock" ] || { flock -u "$curspan_lock"; exec {curspan_lock}<&-; }
    curspan_lock=
}

# Starts the program. Its shell gives the terminal back where the program ends, as it does where the script is gone, by
# whatever way; unless it was told that another one follows. What ends the script doesn't end these.
curspan_start() {
    local __curspan_ends __curspan_line
    # shellcheck disable=SC2069 # answers go to the pipe, and what is drawn to the terminal
    {
        coproc curspan_process {
            trap '' HUP INT QUIT TERM TSTP TTOU
            trap 'followed=yes' USR1
            followed=
            (
                printf '%s\n' "$BASHPID"
                curspan_run run --lines "$curspan_lines" --cols "$curspan_columns" 2>&1 > /dev/tty
            ) || true
            [ -n "$followed" ] || { curspan_give_terminal_back; curspan_unlock_terminal; }
            echo over
        }
    } 2> /dev/null    # nor does bash say that the one before has only just ended
    __curspan_ends=("${curspan_process[@]}") curspan_guard=${curspan_process_PID:-}
    disown "$curspan_guard" 2> /dev/null || true    # so that the script's `wait` doesn't wait for it
    curspan_calls=${__curspan_ends[1]:-} curspan_sent=0
    # a Ctrl-C may have ended it before it could ignore that
    if ! { command exec {curspan_answers}<&"${__curspan_ends[0]:-none}"; } 2> /dev/null; then
        exec {curspan_answers}<> /dev/null
        curspan_calls=$curspan_answers
    fi
    curspan_read_answer || true
    curspan_drawer=$__curspan_line
}

# Ends the program, which has made all calls, and waits for its shell: for two seconds, and then ends it too. Where that
# didn't give the terminal back, this does.
curspan_stop() {
    local REPLY='' __curspan_last='' __curspan_status=0
    eval "exec $curspan_calls>&-"
    kill -KILL "$curspan_drawer" || true    # it may have seen that its input ends
    while read -r -t 2 -u "$curspan_answers" || { __curspan_status=$?; false; }; do __curspan_last=$REPLY; done
    exec {curspan_answers}<&-
    [ "$__curspan_status" -le 128 ] || kill -KILL "$curspan_guard" || true
    [ "$__curspan_last" = over ] || curspan_give_terminal_back
} 2> /dev/null

# Puts out what some capabilities of the terminal are, where it has them.
curspan_capabilities() {
    local __curspan_name
    for __curspan_name; do tput "$__curspan_name" || true; done
}

curspan_open() {
    local __curspan_number __curspan_lines __curspan_columns __curspan_told
    if [ -n "$curspan_owner" ]; then curspan_complain 'a screen is open already'; return 1; fi
    for __curspan_number in 0 1 2; do
        [ -e "/proc/$BASHPID/fd/$__curspan_number" ] || eval "exec $__curspan_number<> /dev/null"
    done
    if ! [[ $#${1-}x${2-} == @(0x|2[1-9]?([0-9])?([0-9])x[1-9]?([0-9])?([0-9])) ]]; then
        curspan_complain "lines and columns are wanted, or neither, and not: $*"
        return 1
    fi
    if ! { : < /dev/tty; } 2> /dev/null; then curspan_complain 'there is no terminal to draw on'; return 1; fi
    if [ "${TERM:-dumb}" = dumb ]; then curspan_complain 'the terminal is dumb, as TERM says'; return 1; fi
    if ! tput clear > /dev/null 2>&1; then curspan_complain "no terminal of the type $TERM is known"; return 1; fi
    if ! (curspan_run --help) > /dev/null 2>&1; then curspan_complain "the program $curspan_program doesn't run; CURSPAN names another"; return 1; fi
    curspan_find_size
    if [ "$__curspan_lines" -lt "${1:-1}" ] || [ "$__curspan_columns" -lt "${2:-1}" ]; then
        __curspan_told="the terminal has $__curspan_lines lines of $__curspan_columns columns"
        curspan_complain "$__curspan_told, and $1 of $2 are needed"
        return 1
    fi
    if ! curspan_lock_terminal; then curspan_complain 'another script has this terminal'; return 1; fi
    if ! { curspan_modes=$(stty -g < /dev/tty 2> /dev/null) && __curspan_told=$(mktemp); }; then
        curspan_unlock_terminal
        curspan_complain "the terminal's modes, or what is told, can't be kept"
        return 1
    fi
    exec {curspan_told}>> "$__curspan_told"
    exec {curspan_told_again}< "$__curspan_told"
    rm -f "$__curspan_told"
    curspan_enter_page=$(curspan_capabilities smcup civis) curspan_leave_page=$(curspan_capabilities sgr0 cnorm rmcup)
    curspan_ended='' curspan_resized='' curspan_ahead='' curspan_full=$#
    curspan_lines=${1:-$__curspan_lines} curspan_columns=${2:-$__curspan_columns}
    curspan_at_exit_before=$(trap -p EXIT) curspan_traps_before=$(trap -p "${curspan_deadly[@]}" PIPE WINCH)
    curspan_owner=$BASHPID
    curspan_hold
    # shellcheck disable=SC2064 # the number is that of the signal
    for __curspan_number in "${curspan_deadly[@]}"; do
        trap "curspan_note_end $__curspan_number" "$__curspan_number"
    done
    trap '' PIPE
    trap 'curspan_resized=yes' WINCH
    trap curspan_at_exit EXIT
    curspan_take_terminal
    curspan_start
    curspan_release
}

# What is told of calls is said where the terminal is given back. A signal that came meanwhile is sent again.
curspan_close() {
    local REPLY='' __curspan_status=0
    curspan_is_here || return 1
    curspan_ended=
    curspan_hold
    curspan_stop
    curspan_unlock_terminal
    curspan_owner=
    exec {curspan_told}>&-
    while read -r -u "$curspan_told_again"; do printf '%s\n' "$REPLY" >&2; __curspan_status=1; done
    exec {curspan_told_again}<&-
    trap - EXIT PIPE WINCH "${curspan_deadly[@]}"
    eval "$curspan_traps_before"
    eval "$curspan_at_exit_before"
    [ -z "$curspan_ended" ] || kill -s "$curspan_ended" "$BASHPID"
    return "$__curspan_status"
}

# A new, blank screen of the terminal's size, after the key `resize`. One of a size that was given stays, and is drawn anew.
curspan_resize() {
    local __curspan_lines __curspan_columns
    curspan_is_here || return 1
    curspan_find_size
    if [ "$curspan_full" != 0 ]; then curspan_make clearok 0 on; return; fi
    curspan_hold
    kill -USR1 "$curspan_guard" 2> /dev/null || true
    curspan_stop
    curspan_lines=$__curspan_lines curspan_columns=$__curspan_columns
    curspan_start
    curspan_release
}

# Reads a line of what the program answers into `__curspan_line`. What a signal has bash do is done meanwhile. (Into
# REPLY bash reads a line whole, whatever IFS is.)
curspan_read_answer() {
    local REPLY='' __curspan_status
    __curspan_line=
    while :; do
        __curspan_status=0
        read -r -t 0.2 -u "$curspan_answers" || __curspan_status=$?
        __curspan_line+=$REPLY
        if [ "$__curspan_status" = 0 ]; then return 0; fi
        if [ "$__curspan_status" -le 128 ]; then return 1; fi
        [ -z "$curspan_ended" ] || curspan_release
    done 2> /dev/null
}

# The script ends where the program has: it met a line that is no call.
curspan_fail() {
    local __curspan_said
    __curspan_said=$(printf '%s\n' "$1" | (curspan_run check) 2> /dev/null | head -n 1) || true
    curspan_complain "${__curspan_said:-the program has ended}" || exit 2
}

# Makes a call, waits until it is made, and puts what it answered into `curspan_answer`. A second one always answers.
curspan_make() {
    local __curspan_call __curspan_line=''
    curspan_answer=
    curspan_is_here || return 1
    printf -v __curspan_call '%s ' "$@"
    __curspan_call=${__curspan_call% }
    case $__curspan_call in *$'\n'*)
        curspan_complain "a call is one line, and this has more: ${__curspan_call//$'\n'/ }"
        return 1 ;;
    esac
    curspan_sent=$((curspan_sent + 2))
    curspan_hold
    { printf '%s\ngetyx 0\n' "$__curspan_call" >&"$curspan_calls"; } 2> /dev/null || curspan_fail "$__curspan_call"
    until [ "${__curspan_line%%: *}" = "line $curspan_sent" ]; do
        curspan_read_answer || curspan_fail "$__curspan_call"
        [ "${__curspan_line%%: *}" != "line $((curspan_sent - 1))" ] || curspan_answer=${__curspan_line#line *: }
    done
    curspan_release
    case $curspan_answer in E*) curspan_complain "$__curspan_call is refused: $curspan_answer" ;; esac
}

curspan_call() { curspan_make "$@"; }

curspan_ask() { curspan_make "$@" && [ -n "$curspan_answer" ]; }

# A line of a script has 512 bytes at most, and a backslash takes two of them.
curspan_text() {
    local __curspan_text=${2-} __curspan_piece
    __curspan_text=${__curspan_text//[^ -~]/?}
    while [ -n "$__curspan_text" ]; do
        __curspan_piece=${__curspan_text:0:240} __curspan_text=${__curspan_text:240}
        curspan_make addstr "${1-}" "${__curspan_piece//\\/\\\\}" || return 1
    done
}

curspan_show() { curspan_make update_panels && curspan_make doupdate; }

# Stops the script as Ctrl-Z does any other, with the terminal given back. When it goes on, the terminal is its own
# again, and may have another size.
curspan_stop_script() {
    local __curspan_lines __curspan_columns
    curspan_hold
    curspan_give_terminal_back
    kill -TSTP 0
    curspan_take_terminal
    curspan_release
    curspan_find_size
    if [ "$curspan_full" = 0 ] && [ "$__curspan_lines $__curspan_columns" != "$curspan_lines $curspan_columns" ]; then
        curspan_resized=yes
    fi
    curspan_make clearok 0 on
    curspan_show
}

# Reads a byte, or what is one character, into `__curspan_byte`, for so many microseconds, or for ever. It waits a fifth
# of a second at a time, since a signal is noted meanwhile.
curspan_read_byte() {
    local __curspan_left=${1:-} __curspan_span=200000 __curspan_wait __curspan_status
    __curspan_byte=$curspan_ahead curspan_ahead=''
    if [ -n "$__curspan_byte" ]; then return 0; fi
    while [ "$__curspan_left" != 0 ] && [ -z "$curspan_resized" ]; do
        if [ -n "$__curspan_left" ]; then
            __curspan_span=$((__curspan_left < __curspan_span ? __curspan_left : __curspan_span))
            __curspan_left=$((__curspan_left - __curspan_span))
        fi
        printf -v __curspan_wait '0.%06d' "$__curspan_span"
        __curspan_status=0
        curspan_hold
        read -r -N 1 -t "$__curspan_wait" __curspan_byte < /dev/tty || __curspan_status=$?
        curspan_release
        # bash has also read what comes just as the time is over
        if [ -n "$__curspan_byte" ]; then return 0; fi
        [ "$__curspan_status" -gt 128 ] || return 1
    done
    return 1
}

# Names what is no sequence: a character, or a control character.
curspan_name_character() {
    local __curspan_code __curspan_letters='abcdefghijklmnopqrstuvwxyz[\]^_'
    curspan_key=$__curspan_byte
    case $__curspan_byte in
        $'\n' | $'\r') curspan_key=enter ;;
        $'\t') curspan_key=tab ;;
        $'\b' | $'\x7f') curspan_key=backspace ;;
        [[:cntrl:]]) printf -v __curspan_code %d "'$__curspan_byte"
            if [ "$__curspan_code" -lt 32 ]; then curspan_key=ctrl+${__curspan_letters:__curspan_code - 1:1}; fi ;;
    esac
}

# Names a sequence by what follows its escape. xterm tells of modifiers by a number, and rxvt by how a sequence ends.
curspan_name_sequence() {
    local __curspan_plain=$1 __curspan_end=${1: -1} __curspan_number=${1:1:-1} __curspan_held=1
    if [[ $1 == '['+([0-9])\;[1-9]?([0-9])[A-FHP-S~] ]]; then
        __curspan_held=${__curspan_number#*;}
        __curspan_plain=[${__curspan_number%;*}$__curspan_end
        if [ "$__curspan_end" != '~' ]; then __curspan_plain=O$__curspan_end; fi
        if [ "$__curspan_held" = 1 ] || [ "$__curspan_held" -gt 16 ]; then __curspan_plain=none; fi
    elif [[ $1 == '['+([0-9])[$^@] ]]; then
        __curspan_plain=[$__curspan_number~
        case $__curspan_end in '$') __curspan_held=2 ;; '^') __curspan_held=5 ;; *) __curspan_held=6 ;; esac
    fi
    curspan_key=${curspan_sequences[$__curspan_plain]:-unknown}
    if [ "$1" = '[G' ] && [[ ${TERM:-} == linux* ]]; then curspan_key=b2; fi
    if [ "$curspan_key" = unknown ]; then return; fi
    __curspan_held=$((__curspan_held - 1))
    if [ "$((__curspan_held & 1))" != 0 ]; then curspan_key=shift+$curspan_key; fi
    if [ "$((__curspan_held & 2))" != 0 ]; then curspan_key=alt+$curspan_key; fi
    if [ "$((__curspan_held & 4))" != 0 ]; then curspan_key=ctrl+$curspan_key; fi
}

# Reads what a key sends after an escape, and names it: a sequence up to its end, or a character with Alt. What can't be
# part of it is ahead for the next key.
curspan_read_rest() {
    local __curspan_rest='' __curspan_delay=100
    if [[ ${ESCDELAY:-} == [0-9]?([0-9])?([0-9])?([0-9])?([0-9]) ]]; then __curspan_delay=$((10#$ESCDELAY)); fi
    __curspan_delay=$((__curspan_delay * 1000))
    curspan_key=escape
    if ! curspan_read_byte "$__curspan_delay"; then return; fi
    if [ "$__curspan_byte" = $'\e' ]; then curspan_ahead=$__curspan_byte; return; fi
    if [[ $__curspan_byte == [O\[] ]]; then
        __curspan_rest=$__curspan_byte
        while [[ $__curspan_rest == @(O|'[['|'['*([\ -?])) && $__curspan_rest != '['[0-9]*'$' ]] &&
            [ "${#__curspan_rest}" -lt 31 ] && [ -z "$curspan_ahead" ] && curspan_read_byte "$__curspan_delay"; do
            if [[ $__curspan_byte == [\ -~] ]]; then __curspan_rest+=$__curspan_byte
            else curspan_ahead=$__curspan_byte; fi
        done
        curspan_bytes+=$__curspan_rest
        if [ "${#__curspan_rest}" -gt 1 ]; then curspan_name_sequence "$__curspan_rest"; return; fi
        __curspan_byte=$__curspan_rest
    else
        curspan_bytes+=$__curspan_byte
    fi
    curspan_name_character
    case $curspan_key in ctrl+?*) curspan_key=ctrl+alt+${curspan_key#ctrl+} ;; *) curspan_key=alt+$curspan_key ;; esac
}

# shellcheck disable=SC2120 # seconds may be left out
curspan_read_key() {
    local __curspan_byte='' __curspan_left='' __curspan_part
    curspan_is_here || return 1
    if [ "$#" != 0 ]; then
        if ! [[ $1 == @(+([0-9])?(.)*([0-9])|.+([0-9])) && ${1%%.*} != ??????????* ]]; then
            curspan_complain "a number of seconds below 1000000000 is wanted, and not: $1"
            return 1
        fi
        __curspan_part=${1#"${1%%.*}"}000000
        __curspan_part=${__curspan_part#.}
        __curspan_left=$((10#0${1%%.*} * 1000000 + 10#${__curspan_part:0:6}))
    fi
    curspan_key='' curspan_bytes=''
    while
        if ! curspan_read_byte "$__curspan_left"; then
            if [ -z "$curspan_resized" ]; then return 1; fi
            curspan_resized='' curspan_key=resize
            return 0
        fi
        [ "$__curspan_byte" = $'\cZ' ]
    do curspan_stop_script; done
    curspan_bytes=$__curspan_byte
    if [ "$__curspan_byte" = $'\e' ]; then curspan_read_rest; else curspan_name_character; fi
}

# Lets a line be edited at a place of a window: Enter ends it, with the line in `curspan_answer`, and Escape gives it up.
curspan_ask_line() {
    local __curspan_text=${5:-} __curspan_shown
    curspan_are_numbers "${1-}" "${2-}" "${3-}" "${4-}" || return 1
    while
        __curspan_shown=${__curspan_text}_
        if [ "${#__curspan_shown}" -gt "$4" ]; then __curspan_shown=${__curspan_shown: -$4}; fi
        printf -v __curspan_shown '%-*.*s' "$4" "$4" "$__curspan_shown"
        curspan_make move "$1" "$2" "$3" && curspan_text "$1" "$__curspan_shown" && curspan_show
    do
        # shellcheck disable=SC2119 # it waits as long as it takes
        curspan_read_key || true
        case $curspan_key in
            enter) curspan_answer=$__curspan_text; return 0 ;;
            escape | resize) return 1 ;;
            backspace) __curspan_text=${__curspan_text%?} ;;
            ctrl+u) __curspan_text= ;;
            [[:print:]]) __curspan_text+=$curspan_key ;;
        esac
    done
    return 1
}

# Draws a border of characters around a window of a number of lines and columns, and a title in it.
curspan_border() {
    local __curspan_title=${4:-} __curspan_edge __curspan_blank __curspan_y
    curspan_are_numbers "${1-}" "${2-}" "${3-}" || return 1
    printf -v __curspan_blank '%*s' "$(($3 > 2 ? $3 - 2 : 0))" ''
    __curspan_edge="+${__curspan_blank// /-}+" __curspan_blank="|$__curspan_blank|"
    curspan_make move "$1" 0 0 && curspan_text "$1" "${__curspan_edge:0:$3}" || return 1
    for ((__curspan_y = 1; __curspan_y < $2 - 1; __curspan_y++)); do
        curspan_make move "$1" "$__curspan_y" 0
        curspan_text "$1" "${__curspan_blank:0:$3}"
    done
    curspan_make move "$1" "$(($2 - 1))" 0
    curspan_text "$1" "${__curspan_edge:0:$3}"
    if [ -n "$__curspan_title" ]; then
        curspan_make move "$1" 0 2
        __curspan_title=" $__curspan_title "
        curspan_text "$1" "${__curspan_title:0:$3 > 4 ? $3 - 4 : 0}"
    fi
}

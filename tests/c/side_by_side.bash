# What the scripts share that compare programs of tests/c over ncurses and over Curspan, in a terminal of 24 lines by 80 columns. Whoever
# sources it has set part, its name. Status 77 where gcc, libncurses-dev, tmux, tic or python3 is missing, or the library isn't built
# (tools/curspan-lib).
# shellcheck shell=bash
root=$(dirname "$(readlink -f "${BASH_SOURCE[0]}")")/../..
work=$(mktemp -d)
unset TMUX TMUX_PANE LINES COLUMNS ESCDELAY
pictures=0
# A server for each program: one that is ended may still take the next one's session.
in_tmux() { tmux -u -f "$work/settings" -S "$work/tmux-${name:-none}" "$@" 2> /dev/null; }
trap 'in_tmux kill-server; rm -rf "$work"' EXIT

# Says what is missing, and that nothing is compared.
skip() {
    echo "$part: $1, so no C program is compared with ncurses" >&2
    exit 77
}

for tool in gcc tmux tic python3; do
    command -v "$tool" > /dev/null || skip "$tool is not installed"
done
echo '#include <panel.h>' | gcc -E - > /dev/null 2>&1 || skip 'libncurses-dev is not installed'
[ -f "$root/build/libcurspan.a" ] || skip 'the library is not built by tools/curspan-lib'

# A terminal of just what Curspan writes to one whose type it doesn't know: without an alternate character set, so that ncurses draws lines in
# ASCII too.
tic -x -o "$work/terminfo" "$root/bench/frames/profile.ti" 2> "$work/log" || { cat "$work/log" >&2; exit 1; }
echo 'set -g default-terminal screen' > "$work/settings"

# Makes the type of a terminal that has the keys and the lines of a known one, and for the rest writes what Curspan writes: by single attributes,
# as a selection of all knows no lines. On the Linux console Curspan draws lines in ASCII.
make_type() {
    {
        echo "$1-curspan|the keys of $1,"
        infocmp -1 "$1" | grep -E '^[[:space:]]((k[a-zA-Z0-9]+|smkx|rmkx)=)' | grep -v kmous=
        [ "$1" = linux ] || infocmp -1 "$1" | grep -E '^[[:space:]](acsc|smacs|rmacs|enacs)='
        printf '\tsmcup=\\E[?1049h, rmcup=\\E[?1049l, cnorm=\\E[?25h, civis=\\E[?25l, smso=\\E[7m, rmso=\\E[27m, use=curspan-single,\n'
    } > "$work/$1.ti"
    TERMINFO_DIRS="$work/terminfo" tic -o "$work/terminfo" "$work/$1.ti" 2> "$work/log" || { cat "$work/log" >&2; exit 1; }
}

# What a program is linked with besides the library.
besides=()

# Compiles Curspan's own C with sanitizers, to be linked with a program before the library.
sanitize() {
    local flags=(-g -fsanitize=address,undefined -fno-sanitize-recover=all)
    mkdir "$work/sanitized"
    (cd "$work/sanitized" && gcc -std=c99 "${flags[@]}" -I "$root/include" -c "$root"/c/*.c) || exit 1
    besides=("${flags[@]}" "$work"/sanitized/*.o)
}

# Compiles a program twice. One that sets a locale is for ncurses of wide characters.
compile() {
    local wide=
    if grep -q setlocale "$root/tests/c/$name.c"; then wide=w; fi
    gcc -std=gnu99 -Wno-deprecated-declarations "$root/tests/c/$name.c" -o "$work/ncurses" "-lpanel$wide" "-lncurses$wide" &&
        over_curspan "$name.c" curspan
}

# Compiles a program over Curspan.
over_curspan() {
    gcc -std=gnu99 -D_GNU_SOURCE -Wall -Wextra -Werror -I "$root/include" "$root/tests/c/$1" "${besides[@]}" "$root/build/libcurspan.a" -o "$work/$2"
}

# Runs a program that looks itself at what its calls do.
look_itself() {
    over_curspan "$1/$1.c" "$1" && timeout 60 "$work/$1"
}

# Starts one of both programs in a terminal of its own. Its status goes to a file.
start() {
    rm -f "$work/$1.shot" "$work/$1.status"
    in_tmux new-session -d -s "$1" -x 80 -y 24 \
        "TERM=$type TERMINFO='$work/terminfo' SHOT='$work/$1.shot' '$work/$1' 2> '$work/$1.errors'; echo \$? > '$work/$1.status'"
}

# Waits until a program wants to be looked at, or has ended.
await() {
    local tries
    for ((tries = 0; tries < 1000; tries++)); do
        [ -e "$work/$1.shot" ] || [ -s "$work/$1.status" ] && return
        sleep 0.01
    done
    echo "$part: $name: over $1 it doesn't come to its next picture" >&2
    return 1
}

# Keeps what the terminal of a program shows, with the cursor.
keep() {
    in_tmux capture-pane -t "$1" -e -p -N \; display-message -t "$1" -p -- '--- cursor #{cursor_y} #{cursor_x}' >> "$work/$1.kept"
}

# Gives both terminals another size, and waits until tmux has told the programs.
resize() {
    in_tmux resize-window -t ncurses -y "${1%x*}" -x "${1#*x}" \; resize-window -t curspan -y "${1%x*}" -x "${1#*x}"
    sleep 0.5
}

# Types a line into both terminals: each word at once, with a pause between two. A word is bytes as printf has them, or a size as @30x100.
type_line() {
    local words word bytes
    read -ra words <<< "$1"
    for word in "${words[@]}"; do
        if [[ $word == @* ]]; then
            resize "${word#@}"
            continue
        fi
        mapfile -t bytes < <(printf %b "$word" | od -An -v -w1 -tx1 | tr -d ' ')
        in_tmux send-keys -t ncurses -H "${bytes[@]}" \; send-keys -t curspan -H "${bytes[@]}"
        [ "${#words[@]}" = 1 ] || sleep 0.02
    done
}

# Tells how a program ended over one side, where that wasn't well.
judge_end() {
    local status
    status=$(cat "$work/$1.status" 2> /dev/null)
    if [ "$status" = 0 ] && [ ! -s "$work/$1.errors" ]; then return 0; fi
    echo "$part: $name: over $1 it ended with status ${status:-none}" >&2
    cat "$work/$1.errors" >&2
    return 1
}

# Compares all the pictures of a program, and how it ended, in a terminal of a type. After each picture the next line is typed of those
# that are passed.
compare() {
    local type=$1 side answer=0
    shift
    rm -f "$work"/*.kept
    for side in ncurses curspan; do start "$side"; done
    while await ncurses && await curspan; do
        if [ ! -e "$work/ncurses.shot" ] || [ ! -e "$work/curspan.shot" ]; then break; fi
        for side in ncurses curspan; do keep "$side"; done
        pictures=$((pictures + 1))
        rm "$work/ncurses.shot" "$work/curspan.shot"
        [ $# = 0 ] || { type_line "$1"; shift; }
    done
    for side in ncurses curspan; do
        python3 "$root/tests/c/picture.py" 80 < "$work/$side.kept" > "$work/$side.pictures" || answer=1
        [ -s "$work/$side.pictures" ] || { echo "$part: $name: over $side no picture was taken" >&2; answer=1; }
        judge_end "$side" || answer=1
    done
    diff -U 1000 --label "$name over ncurses" --label "$name over curspan" "$work"/{ncurses,curspan}.pictures || answer=1
    in_tmux kill-server
    return "$answer"
}

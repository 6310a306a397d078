# Shows what was wanted beside what came, line by line.

# The widest line that is shown beside another, and how many lines of a text are shown.
beside=58
shown_lines=40

# Leaves in the array `seen` the lines of a section's text, so that all can be seen.
see() {
    if [ "$1" = bytes ]; then spell_bytes "$2"; else spell "$2"; fi
    [[ -z $2 || $2 == *$'\n' || $1 == bytes ]] || spelled+=' (and no newline)'
    mapfile -t seen < <(sed 's/[[:blank:]$]$/&$/' <<< "${spelled%$'\n'}")
    [ -n "$2" ] || seen=()
}

# Cuts a line where it is long: 20 characters before the first difference from another line, and to the widest.
cut_line() {
    local from=0
    cut=$1
    [ "${#1}" -gt "$beside" ] || return 0
    while [ "${1:from:1}" = "${2:from:1}" ] && [ "$from" -lt "${#1}" ]; do from=$((from + 1)); done
    if [ "$from" -lt $((beside - 4)) ]; then from=0; else from=$((from - 20)); fi
    cut=${1:from:beside - 4}
    [ "$from" = 0 ] || cut="..$cut"
    [ $((from + beside - 4)) -ge "${#1}" ] || cut+=..
}

# Puts out a line that was wanted beside the one that came, with a mark where they differ.
tell_line() {
    local mark=' ' left
    [ "$2" = "$3" ] || mark='*'
    cut_line "$2" "$3"
    left=$cut
    cut_line "$3" "$2"
    printf '%6d %s %-*s   %s\n' "$1" "$mark" "$width" "$left" "$cut"
}

# Leaves in `width` the width of the widest line that is wanted, up to the widest that is shown.
measure() {
    local line
    width=20
    for line in "${wanted[@]}"; do [ "${#line}" -le "$width" ] || width=${#line}; done
    [ "$width" -le "$beside" ] || width=$beside
}

# Shows two texts of a section. Where they are long only lines that differ are shown.
tell_difference() {
    local wanted number told=0 seen width most left right
    see "$1" "$2"
    wanted=("${seen[@]}")
    see "$1" "$3"
    measure
    most=$((${#wanted[@]} > ${#seen[@]} ? ${#wanted[@]} : ${#seen[@]}))
    printf '    %s\n         %-*s   %s\n' "$1" "$width" wanted came
    for ((number = 0; number < most && told < shown_lines; number++)); do
        left=${wanted[number]-(no line)} right=${seen[number]-(no line)}
        if [ "$most" -gt "$shown_lines" ] && [ "$left" = "$right" ]; then continue; fi
        tell_line $((number + 1)) "$left" "$right"
        told=$((told + 1))
    done
    [ "$number" = "$most" ] || echo "         and more, of $most lines"
}

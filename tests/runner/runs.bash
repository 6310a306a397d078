# Runs the program on a case that was read, and compares what comes with what the case wants. It needs
#   program, has_show   the program, and whether it has the subcommand show
#   probe, has_probe    the program that counts composed cells, and whether it is there
#   work                a folder for files
#   is_writing          whether what came of a case that failed is written, to a file that begins with `place`
#   name                the case's name
# and counts runs in `passed`, `failed` and `skipped`.

# Leaves in $closed a pipe from which nobody reads.
open_closed_pipe() {
    local both
    rm -f "$work/pipe"
    mkfifo "$work/pipe"
    exec {both}<> "$work/pipe" {closed}> "$work/pipe" {both}>&-
}

# Runs the program on a file with words, and leaves what came in `out` and `log`, and its status.
run_program() {
    local from=$1 closed command=("$program")
    shift
    if [ "${#variables[@]}" != 0 ]; then command=(env "${variables[@]}" "$program"); fi
    : > "$work/out"
    case ${head['1 output']-} in
        '') "${command[@]}" "$@" < "$from" > "$work/out" 2> "$work/log" ;;
        'closed pipe') open_closed_pipe
            "${command[@]}" "$@" < "$from" >&"$closed" 2> "$work/log" {closed}>&- ;;
        *) "${command[@]}" "$@" < "$from" > "${head['1 output']}" 2> "$work/log" ;;
    esac
    status=$?
    [ -z "${closed-}" ] || exec {closed}>&-
    take "$work/out"
    out=$text
    take "$work/log"
    log=$text
}

# Whether a step has a section.
has() { [ -n "${head["$step $1"]+set}" ]; }

# Leaves in `text` what a section of a step wants: nothing where the step has none.
want() {
    text=
    has "$1" || return 0
    put_section "$step $1" > "$work/wanted"
    take "$work/wanted"
}

# Notes what was wanted and what came.
differ() { differences+=("$1" "$2" "$3"); }

# Compares what came with what a section wants.
compare() {
    local text
    want "$1"
    if [ "${head["$step $1"]-}" = has ]; then
        take_missing "$text" "$2"
        [ -n "$text" ] || return 0
    elif [ "$text" = "$2" ]; then
        return
    fi
    differ "$1" "$text" "$2"
    came["$step $1"]=$2
}

# Leaves in `text` the lines of a text that are nowhere in another.
take_missing() {
    local line lines
    mapfile -t lines <<< "${1%$'\n'}"
    text=
    for line in "${lines[@]}"; do [[ $2 == *"$line"* ]] || text+=$line$'\n'; done
}

# Compares a status that was wanted with one that came.
compare_status() { [ "$1" = "$2" ] || differ status "$1"$'\n' "$2"$'\n'; }

# The same with the status that a case wants.
compare_ending() {
    used["$step status"]=1
    compare_status "$wanted_status" "$status"
    [ "$wanted_status" = "$status" ] || came["$step status"]=$status
}

# Leaves in `text` what came after what had come of the steps before.
take_behind() {
    text=$1
    if [ "${1:0:${#2}}" = "$2" ]; then text=${1:${#2}}; fi
}

# Counts a run, and shows how it differed from what was wanted.
judge() {
    local i label=
    if [ "${#differences[@]}" = 0 ]; then
        passed=$((passed + 1))
        return
    fi
    failed=$((failed + 1))
    is_well=false
    [ "$steps" = 1 ] || label=" $step"
    echo "case $name$label, $1: not as wanted"
    for ((i = 0; i < ${#differences[@]}; i += 3)); do tell_difference "${differences[@]:i:3}"; done
    differences=()
}

# Leaves in `words` the words of a case, and in `variables` those of the environment.
find_words() {
    local size=${head['1 size']-4 10} kind=run
    [ -z "${head['1 stream']+set}" ] || kind=show
    words=("$kind" --lines "${size% *}" --cols "${size#* }")
    used=(['1 size']=1 ['1 input']=1 ['1 output']=1)
    eval "variables=(${head['1 variables']-})"
    [ -n "${head['1 words']+set}" ] || return 0
    eval "words=(${head['1 words']})"
    used=(['1 words']=1 ['1 variables']=1 ['1 input']=1 ['1 output']=1)
}

# Runs the case's words, and compares its output with what is wanted of it.
try_words() {
    run_program "$input" ${words[0]+"${words[@]}"}
    if has out; then compare out "$out"; else compare picture "$out"; fi
    compare log "$log"
    compare_ending
    judge "${words[0]-no words}"
}

# Runs what is not a script: each stream, or words of their own.
try_others() {
    local wanted_status
    if [ "${words[0]-}" = show ] && ! $has_show; then
        skipped=$((skipped + steps))
        is_whole=false
        return
    fi
    for ((step = 1; step <= steps; step++)); do
        if has stream; then put_section "$step stream"; else put_section "$step script"; fi > "$work/input"
        wanted_status=${head["$step status"]-0}
        try_words
    done
}

# Runs the script up to a step.
try_run() {
    run_program "$input" "${words[@]}"
    take_behind "$out" "$sent"
    if has bytes || ! { has picture || has shown; }; then compare bytes "$text"; fi
    take_behind "$log" "$told"
    compare log "$text"
    compare_ending
    judge run
    sent=$out told=$log ended=$status
}

# Paints the picture of a step. The log and the status are those of the run.
try_paint() {
    run_program "$input" paint "${words[@]:1}"
    compare picture "$out"
    [ "$told" = "$log" ] || differ log "$told" "$log"
    compare_status "$ended" "$status"
    judge paint
}

# Shows what the run of a step sent: what is wanted to be shown, or the picture.
try_show() {
    local section=picture
    ! has shown || section=shown
    want "$section"
    [ -n "$text" ] || return 0
    if ! $has_show; then
        skipped=$((skipped + 1))
        return
    fi
    printf %s "$sent" > "$work/sent"
    run_program "$work/sent" show "${words[@]:1}"
    compare "$section" "$out"
    [ -z "$log" ] || differ log '' "$log"
    compare_status 0 "$status"
    judge 'run | show'
}

# Leaves in `text` counts of cells, with each that lies in the range of its line (`2 to 10`) replaced by that range.
take_in_ranges() {
    local count number=0 range ranges
    mapfile -t ranges <<< "${1%$'\n'}"
    text=
    while read -r count; do
        range=${ranges[number]-}
        number=$((number + 1))
        if [[ $range == *' to '* && $count -ge ${range%% *} && $count -le ${range##* } ]]; then count=$range; fi
        text+=$count$'\n'
    done < <(printf %s "$2")
}

# Counts the cells that each update_panels of a step composed, where some step of the case wants that.
try_tally() {
    local text counts
    [[ " ${order[*]} " == *' cells '* ]] || return 0
    if ! $has_probe; then
        skipped=$((skipped + 1))
        is_whole=false
        return
    fi
    "$probe" "${words[2]}" "${words[4]}" < "$input" > "$work/out" 2> "$work/log"
    compare_status 0 "$?"
    take "$work/out"
    take_behind "$text" "$tallied"
    counts=$text
    tallied+=$counts
    has cells || return 0
    want cells
    take_in_ranges "$text" "$counts"
    compare cells "$text"
    judge probe
}

# Runs a script, up to each of its steps.
try_script() {
    local sent='' told='' tallied='' ended wanted_status=0
    : > "$work/input"
    for ((step = 1; step <= steps; step++)); do
        put_section "$step script" >> "$work/input"
        wanted_status=${head["$step status"]-$wanted_status}
        try_run
        ! has picture || try_paint
        try_show
        try_tally
    done
}

# Fails for each section of a case that nothing was compared with.
find_unused() {
    local key
    for key in "${order[@]}"; do
        [ -z "${used[$key]+set}" ] || continue
        failed=$((failed + 1))
        echo "case $name: nothing is compared with the section ${key#* }"
    done
}

# Runs a case that was read.
try_case() {
    local words variables=() input=${head['1 input']-$work/input} step is_well=true is_whole=true differences=() out log status text
    find_words
    if [ "${words[0]-}" = run ] && [ -z "${head['1 out']+set}" ]; then try_script; else try_others; fi
    ! $is_whole || find_unused
    if $is_writing && ! $is_well; then write_case > "$place.came"; fi
}

# Completion of the words of curspan in bash.
_curspan() {
    local word=$2 before=$3 subcommand='' line=${COMP_LINE:0:COMP_POINT} typed at
    local -a known=()
    COMPREPLY=()
    # Readline cuts a word at its equals signs and colons.
    typed=${line##*[[:blank:]]}
    if [[ $typed == *[=:]* ]]; then
        read -ra known <<< "${line%"$typed"}"
        word=$typed before=${known[*]: -1}
        if [[ $typed == --*=* ]]; then word=${typed#*=} before=${typed%%=*}; fi
    fi
    for ((at = 1; at < COMP_CWORD; at++)); do
        case ${COMP_WORDS[at]} in
            run | paint | show | check | help)
                subcommand=${COMP_WORDS[at]}
                break
                ;;
        esac
    done
    case $before in
        --lines | --cols) return ;;
        --log)
            _curspan_files "$word"
            return
            ;;
    esac
    case $subcommand in
        '') known=(run paint show check help --help --version) ;;
        help) known=(run paint show check help) ;;
        check) known=(--log --help) ;;
        show) known=(--lines --cols --log --help) ;;
        *) known=(--lines --cols --log --quiet --help) ;;
    esac
    for ((; at < COMP_CWORD; at++)); do
        # All words after it are names of files.
        if [[ ${COMP_WORDS[at]} == -- ]]; then known=(); fi
    done
    mapfile -t COMPREPLY < <(compgen -W "${known[*]}" -- "$word")
    case $subcommand in
        run | paint | show | check) _curspan_files "$word" ;;
    esac
}
# Offers the files whose names begin with a word.
_curspan_files() {
    local -a files=()
    mapfile -t files < <(compgen -f -- "$1")
    # What comes before the last cut stays as it was typed.
    COMPREPLY+=("${files[@]#"${1%"${1##*[=:]}"}"}")
    # Readline then quotes what it takes, and ends a folder with a slash.
    if ((${#files[@]})); then compopt -o filenames 2> /dev/null; fi
}
complete -F _curspan curspan

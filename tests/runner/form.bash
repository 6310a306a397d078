# Reads a case, and writes what came in the same form, which ../README.md has. A case is kept in
#   steps      how many scripts or streams it has, or 1
#   order      its sections, each as the number of its step and its name
#   head       what follows the name of each
#   body       the lines of each, without marks
#   preface    what is said before the first
#   case_fault what is wrong with its text, if something is
#   used       the sections that were asked for while it ran
#   came       what came in place of what a section wants
declare -A head body used came

# Notes the first fault of a case.
find_fault() { [ -n "$case_fault" ] || case_fault="line $number: $1"; }

# Whether a section of a name may have this after its name.
may_have() {
    case $1 in
        size) [[ $2 =~ ^[0-9]+\ [0-9]+$ ]] ;;
        status) [[ $2 =~ ^[0-9]+$ ]] ;;
        words) true ;;
        variables) [ -n "$2" ] ;;
        input | output) [ -n "$2" ] ;;
        script | stream | picture | shown | bytes) [[ $2 == '' || $2 == 'by bash' ]] ;;
        cells) [ -z "$2" ] ;;
        log | out) [[ $2 == '' || $2 == 'by bash' || $2 == has ]] ;;
        *) false ;;
    esac
}

# Begins the section that a line names after its dashes.
begin_section() {
    local name=${1%% *} rest=
    [[ $1 != *' '* ]] || rest=${1#* }
    may_have "$name" "$rest" || find_fault "no section is told by $1"
    if [[ $name == @(script|stream) && -n ${head["$steps $name"]+set} ]]; then steps=$((steps + 1)); fi
    key="$steps $name"
    [ -z "${head[$key]+set}" ] || find_fault "a second section $name"
    order+=("$key")
    head[$key]=$rest
    body[$key]=
}

# Adds a line to the section that began last. Before the first one it may be anything.
add_line() {
    case $key in
        '') preface+=$1$'\n' ;;
        *' size' | *' status' | *' words' | *' variables' | *' input' | *' output') find_fault 'a line where none can be' ;;
        *) body[$key]+=${1%\$}$'\n' ;;
    esac
}

# Finds what cannot be seen in a line.
look_at_line() {
    if [[ $1 == *[[:blank:]] || $1 == *[^[:print:]]* ]]; then find_fault 'something that cannot be seen'; fi
}

# Finds a case that says of nothing what is to be run.
look_for_input() {
    local name
    for name in script stream words input; do [ -z "${head["1 $name"]+set}" ] || return 0; done
    find_fault 'there is nothing to run'
}

# Reads a case from its file.
read_case() {
    local lines line number=0 key=
    steps=1 order=() head=() body=() used=() came=() preface= case_fault=
    mapfile -t lines < "$1"
    for line in "${lines[@]}"; do
        number=$((number + 1))
        look_at_line "$line"
        case $line in
            '--- '*) begin_section "${line#--- }" ;;
            *) add_line "$line" ;;
        esac
    done
    look_for_input
}

# Reads a script and its picture as a case. The first line of the script tells the size, and any log may come.
read_example() {
    local name=${1%.script}
    steps=1 order=('1 size' '1 script' '1 picture' '1 log') body=() used=() came=() preface= case_fault= number=1
    take "$1"
    [[ $text =~ ^#.*\ on\ ([0-9]+)\ lines\ of\ ([0-9]+)\ columns ]] || find_fault 'no size is told'
    head=(['1 size']="${BASH_REMATCH[1]-} ${BASH_REMATCH[2]-}" ['1 script']='' ['1 picture']='' ['1 log']=has)
    body['1 script']=$text
    take "$name.picture"
    body['1 picture']=$text
    body['1 log']=
}

# Puts out the bytes that a section of the case means.
put_section() {
    used[$1]=1
    case $1,${head[$1]-} in
        *,'by bash') bash -c "${body[$1]}" ;;
        *' bytes,' | *' stream,') printf %b "${body[$1]//$'\n'/}" ;;
        *) printf %s "${body[$1]-}" ;;
    esac
}

# Leaves in `text` the bytes of a file, with \0 for the byte 0.
take() {
    local part
    text=
    while IFS= read -r -d '' part; do text+=$part'\0'; done < "$1"
    text+=$part
}

# Leaves in `spelled` a text in which each byte that cannot be seen, but newlines, is an escape.
spell() {
    local code unseen=$'[^[:print:]\n]'
    spelled=${1//$'\e'/\\e}
    while [[ $spelled =~ $unseen ]]; do
        printf -v code '\\x%02x' "'${BASH_REMATCH[0]}"
        spelled=${spelled//"${BASH_REMATCH[0]}"/"$code"}
    done
}

# Leaves in `spelled` bytes as escapes, with a line for each place that the cursor is sent to, but after an erase.
spell_bytes() {
    local line_breaks='s/([^J\n])(\\e\[[0-9;]*H)/\1\n\2/g'
    spell "${1//\\/\\\\}"
    spelled=$(sed -E "$line_breaks; $line_breaks" <<< "${spelled//$'\n'/\\n}")$'\n'
}

# Puts out a section with a text, in the form of a case.
write_section() {
    local name=$1 text=$2 quoted
    case $name in
        status) echo "--- status $text" && return ;;
        bytes) spell_bytes "$text" && text=${spelled#$'\n'} ;;
    esac
    if [[ -n $text && ( $text == *[^[:print:]$'\n']* || $text != *$'\n' ) ]]; then
        printf -v quoted %q "$text"
        printf -- '--- %s by bash\nprintf %%s %s\n' "$name" "$quoted"
    else
        printf -- '--- %s\n' "$name"
        printf %s "$text" | sed 's/[[:blank:]$]$/&$/'
    fi
}

# Puts out a section as the case has it.
write_as_it_is() {
    printf -- '--- %s\n' "${1#* }${head[$1]:+ ${head[$1]}}"
    printf %s "${body[$1]}" | sed 's/[[:blank:]$]$/&$/'
}

# Puts out what came of a step of which the case wants no such section.
write_new() {
    local name
    for name in picture shown bytes cells out log status; do
        if [ -n "${came["$1 $name"]+set}" ] && [ -z "${head["$1 $name"]+set}" ]; then
            write_section "$name" "${came["$1 $name"]}"
        fi
    done
}

# Puts out the case, with what is kept in `came` by section in place of what was wanted.
write_case() {
    local key step=1
    printf %s "$preface"
    for key in "${order[@]}"; do
        if [ "${key% *}" != "$step" ]; then write_new "$step"; fi
        step=${key% *}
        if [ -n "${came[$key]+set}" ]; then
            write_section "${key#* }" "${came[$key]}"
        else
            write_as_it_is "$key"
        fi
    done
    write_new "$step"
}

# follow NAME LOG CRATES COMMAND..: runs a command of `rt`, puts all that it says into a log, and tells on standard error, after a name,
# which of the crates it is proving. Where the command fails, the log's end comes after that, and the status is not 0.
follow() {
    local name=$1 log=$2 crates=$3
    shift 3
    mkdir -p "$(dirname "$log")"
    if ! (
        set -o pipefail
        "$@" < /dev/null 2>&1 | tee "$log" | tell_progress "$name" "$crates"
    ); then
        tail -n 40 "$log" >&2
        echo "$name: this failed; all that it said is in $log" >&2
        return 1
    fi
}

# Tells on standard error how far something is: on a terminal in one line, which is written anew, and else in a line of its own.
tell() {
    if [ -t 2 ]; then printf '\r%s\033[K' "$1" >&2; else printf '%s\n' "$1" >&2; fi
}

# Ends the line in which `tell` says how far something is, which is done.
end_telling() {
    if [ -t 2 ]; then printf '\r\033[K' >&2; fi
}

# Puts out about how long so many seconds are.
in_words() {
    if [ "$1" -ge 90 ]; then echo "about $((($1 + 30) / 60)) minutes"; else echo 'a minute or two'; fi
}

# left_of SECONDS DONE WHOLE [SUPPOSED]: puts out after a comma about how long the rest of a whole takes, of which so much
# was done in so many seconds, or nothing where that was nothing or all. Where the whole is supposed to take some, they count as
# if they had been seen for a quarter of it.
left_of() {
    local supposed=${4:-0} seen
    seen=$(($2 + (supposed > 0 ? $3 / 4 : 0)))
    [ "$seen" = 0 ] || [ "$2" -ge "$3" ] || echo ", $(in_words "$((($1 + supposed / 4) * ($3 - $2) / seen))") left"
}

# Tells, of what `rt` says, which crate is being proved, its place among some crates, how many of its functions have been
# looked at, and about how long the rest of them takes, as `proving grids (6 of 12): 40 of 83, a minute or two left`.
# Where `rt` was given how many provers to take it names a crate only with the first item that is proved.
tell_progress() {
    local name=$1 among crate='' line began=$SECONDS
    read -ra among <<< "$2"
    while IFS= read -r line; do
        if [[ $line =~ ^'rt: chose --jobs '[0-9]+' for '(.+) ]]; then
            crate=$(placed "${BASH_REMATCH[1]}" "${among[@]}")
            tell "$name: proving $crate"
        elif [[ $line =~ ^'so far: '([0-9]+)' of '([0-9]+) ]]; then
            tell "$name: proving ${crate:-a crate}: ${BASH_REMATCH[1]} of ${BASH_REMATCH[2]}$(
                left_of "$((SECONDS - began))" "${BASH_REMATCH[1]}" "${BASH_REMATCH[2]}")"
        elif [[ -z $crate && $line =~ ^[a-z]+' '([a-z_]+)::.*': proved'$ ]]; then
            crate=$(placed "${BASH_REMATCH[1]}" "${among[@]}")
            tell "$name: proving $crate"
        elif [[ $line == 'logic=not-proved'* ]]; then
            end_telling
            echo "$name: not proved: ${crate:-}" >&2
        elif [[ $line == 'logic=proved'* ]]; then
            crate='' began=$SECONDS
        fi
    done
    end_telling
}

# Puts out a crate with its place among some crates.
placed() {
    local crate=$1 place
    shift
    for ((place = 1; place <= $#; place++)); do
        if [ "${!place}" = "$crate" ]; then crate+=" ($place of $#)"; break; fi
    done
    printf '%s\n' "$crate"
}

# Puts out in a line a crate and before it those of the repository that it uses, in the order in which `rt` proves them.
crates_up_to() {
    awk -v last="$1" '
        function add(name,   low, n, i) {
            if (name in added || !(name in below)) return
            added[name]
            n = split(below[name], low, " ")
            for (i = 1; i <= n; i++) add(low[i])
            printf "%s ", name
        }
        { sub(/#.*/, ""); split($0, side, ":"); split(side[1], word, " "); below[word[1]] = side[2] }
        END { add(last) }' "$(dirname "${BASH_SOURCE[0]}")/../crates.txt"
}

# Whether a file is missing, or older than crates.txt or than a file in one of some folders, as src, of a crate or of those below it.
is_older() {
    local file=$1 last=$2 crate folder places=() root
    root=$(dirname "${BASH_SOURCE[0]}")/..
    shift 2
    [ -f "$file" ] || return 0
    for crate in $(crates_up_to "$last"); do
        for folder in "$@"; do places+=("$root/crates/$crate/$folder"); done
    done
    [ -n "$(find "$root/crates.txt" "${places[@]}" -type f -newer "$file" -print -quit 2> /dev/null)" ]
}

# Whether a file is to be made: it `is_older`, or the last run that made it did not finish.
is_due() { [ -e "$1.began" ] || is_older "$@"; }

# Notes that a file is being made. What a run that did not finish left of it goes.
begin() {
    [ ! -e "$1.began" ] || rm -f "$1"
    mkdir -p "$(dirname "$1")"
    : > "$1.began"
}

# Notes that a file is made. What was written since it began is newer.
finish() {
    if [ -e "$1.began" ]; then
        touch -r "$1.began" "$1"
        rm "$1.began"
    fi
}

# provers [MOST]: puts out how many provers there may be: CURSPAN_JOBS, if that is set, or one for each processor, at most MOST, as far as
# there are two gigabytes of memory for each. MOST is 4 if left out: as many as a crate takes that is proved last, alone.
provers() {
    local most=${1:-4} processors
    if [ -n "${CURSPAN_JOBS:-}" ]; then printf '%s\n' "$CURSPAN_JOBS"; return; fi
    processors=$(nproc)
    awk -v most="$((processors < most ? processors : most))" '/^MemAvailable:/ { n = int($2 / 2000000) } END { print n < 1 ? 1 : n < most ? n : most }' /proc/meminfo
}

# Ends with status 125 where `rt` is missing, or what it is written in.
want_rt() {
    if ! command -v rt > /dev/null; then
        echo "$1: the command rt of the Rattle kit is not on the path, and nothing is built without it: see README.md" >&2
        exit 125
    fi
    if ! command -v python3 > /dev/null; then
        echo "$1: python3 is missing, in which rt is written: apt-get install -y python3" >&2
        exit 125
    fi
}

# Puts out the folders of a crate and of those below it, each ended by a zero byte: of each that in which its work is kept, if it is there.
folders_of_work() {
    local crate folder root
    root=$(readlink -f "$(dirname "${BASH_SOURCE[0]}")/..")
    for crate in $(crates_up_to "$1"); do
        folder=$root/crates/$crate
        [ ! -d "$folder/out" ] || folder+=/out
        printf '%s\0' "$folder"
    done
}

# Ends with status 125 where one of some folders, in which a build of something keeps its work, is there and can't be written.
want_writable() {
    local name=$1 what=$2 folder
    shift 2
    for folder in "$@"; do
        if [ -d "$folder" ] && [ ! -w "$folder" ]; then
            echo "$name: $what is to be built, and the folder $folder can't be written" >&2
            exit 125
        fi
    done
}

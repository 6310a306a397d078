# What ./install, ./package and ./test have in common. It wants tools/follow.bash too, and the variable `root`.

# Puts out the version, as the header has it.
version() { sed -n 's/^#define CURSPAN_VERSION "\(.*\)"$/\1/p' "$root/include/curspan.h"; }

# Puts out the commit of the repository, and whether there are changes to it.
commit_here() {
    local commit
    commit=$(git -C "$root" rev-parse HEAD 2> /dev/null) || commit='not known'
    if [ "$commit" != 'not known' ] && [ -n "$(git --no-optional-locks -C "$root" status --porcelain)" ]; then
        commit+=', and changes that are not committed'
    fi
    printf '%s\n' "$commit"
}

# The pages that are installed.
pages=(SCRIPTS DEFINITIONS PERFORMANCE PROGRAMS PROOFS TERMINALS python shell)

# Passes on a page with the names that other pages have where it is installed.
as_installed() {
    local IFS='|'
    sed -E "s#\`docs/curspan\.([13])\`#\`man \1 curspan\`#g; s#docs/(${pages[*]})\.md#\1.md#g"
}

# Puts out the libraries of the kit that the program and the library for C are linked with, a line each.
linked_libraries() {
    awk -v crates=" $(crates_up_to curspan) $(crates_up_to capi) " '
        { sub(/#.*/, ""); split($0, side, ":"); split(side[1], word, " "); below[word[1]] = side[2] }
        END {
            for (name in below) {
                if (!index(crates, " " name " ")) continue
                n = split(below[name], low, " ")
                for (i = 1; i <= n; i++) if (!(low[i] in below)) print low[i]
            }
        }' "$root/crates.txt" | sort -u
}

# Puts out the files of the kit with the licences of these, a line each. Some have none of their own.
linked_licences() {
    local library kit
    kit=$(kit_folder)/rattle
    for library in $(linked_libraries); do
        find "$kit/$library" -maxdepth 1 -type f -name 'LICENSE*' | sort
    done
}

# tell_costs NAME TIME: tells once, after the name, what it takes, which is some time where all is built.
tell_costs() {
    [ -z "${CURSPAN_TOLD:-}" ] || return 0
    export CURSPAN_TOLD=yes
    if is_due "$root/crates/curspan/out/curspan" curspan src specs proofs ||
        is_older "$root/build/libcurspan.a" capi src specs proofs; then
        echo "$1: first proves and builds what is not built: up to half an hour on four processors (an hour of one)," \
            '2 GB of memory for each prover, 1 GB of disk' >&2
    else
        echo "$1: takes $2, as all is built" >&2
    fi
}

# Targets, as Rust names them: this machine, and 64-bit ARM.
here_target=x86_64-unknown-linux-gnu
arm_target=aarch64-unknown-linux-gnu
arm_packages='gcc-aarch64-linux-gnu libc6-dev-arm64-cross'

# Puts out a target as the folders and tools of Debian name it.
multiarch_of() { printf '%s\n' "${1/unknown-/}"; }

# Puts out the name of a tool for a target: cc, ar, strip, objdump.
tool_for() {
    case $1:$2 in
        "$here_target:cc") printf '%s\n' "${CC:-cc}" ;;
        "$here_target":*) printf '%s\n' "$2" ;;
        *:cc) printf '%s-gcc\n' "$(multiarch_of "$1")" ;;
        *) printf '%s-%s\n' "$(multiarch_of "$1")" "$2" ;;
    esac
}

# Puts out the folder of the Rattle kit.
kit_folder() { dirname "$(dirname "$(readlink -f "$(command -v rt)")")"; }

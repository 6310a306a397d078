# What tests use besides the kit, a line each: a command, a header in angle brackets, or a path; the packages of Debian
# that have it; and the parts of ./test that are skipped without it, wholly or not.
used_by_tests='gcc:gcc libc6-dev:library for C, ended commands, budgets, refused allocations, small frames, faulty streams, C programs, keys of C programs, programs of others, memory of C programs, decoder, terminals, long runs, packages, Python, many screens, other languages, Rust, other crates
ar:binutils:library for C, C programs, keys of C programs, programs of others, memory of C programs, decoder, terminals, packages, Python, many screens, other languages, Rust, other crates
pkg-config:pkg-config:packages
dpkg-deb:dpkg:packages
lintian:lintian:packages
valgrind:valgrind libc6-dbg:budgets, memory, small frames, memory of C programs, Rust
python3:python3:random, small frames, pictures, terminal, interrupted scripts, building, ended commands, C programs, keys of C programs, programs of others, decoder, terminals, long runs, packages, Python, many screens, other languages, other crates
python3-config:python3-dev:packages, terminals, long runs, Python
mypy:mypy:Python
cargo:cargo:terminals, long runs, other languages, Rust, other crates, packages
/usr/share/cargo/registry/crossterm-*:librust-crossterm-dev:other crates
/usr/share/cargo/registry/tokio-[0-9]*:librust-tokio-dev:other crates
rustfmt:rustfmt:Rust
clippy-driver:rust-clippy:Rust
chromium:chromium:pictures
firefox-esr:firefox-esr:pictures
rsvg-convert:librsvg2-bin:pictures
zsh:zsh:completion
fish:fish:completion
tmux:tmux:shell scripts, terminal, C programs, keys of C programs, programs of others, Python
tic:ncurses-bin:small frames, decoder, C programs, keys of C programs, programs of others
aarch64-linux-gnu-gcc:gcc-aarch64-linux-gnu libc6-dev-arm64-cross:64-bit ARM, packages
qemu-aarch64:qemu-user:64-bit ARM
<vterm.h>:libvterm-dev:decoder
<termkey.h>:libtermkey-dev:decoder
/usr/share/terminfo/k/konsole:ncurses-term:decoder
/usr/share/terminfo/f/foot:foot-terminfo:decoder
<panel.h>:libncurses-dev:small frames, C programs, keys of C programs, programs of others'

# Puts out the lines of what some parts use, which are named with commas between them, or of what all use.
used_by() {
    awk -F : -v parts="$1" 'parts == "" { print; next } {
        n = split($3, part, ", "); used = ""
        for (i = 1; i <= n; i++) if (index(", " parts ", ", ", " part[i] ", ")) used = used ", " part[i]
        if (used != "") print $1 ":" $2 ":" substr(used, 3) }' <<< "$used_by_tests"
}

# missing [PARTS]: puts out the lines of what is missing.
missing() {
    local line what
    while IFS= read -r line; do
        what=${line%%:*}
        case $what in
            '<'*) [ -e "/usr/include/${what//[<>]/}" ] || printf '%s\n' "$line" ;;
            /*) compgen -G "$what" > /dev/null || printf '%s\n' "$line" ;;
            *) command -v "$what" > /dev/null || printf '%s\n' "$line" ;;
        esac
    done < <(used_by "${1:-}")
}

# Puts out the packages of what is missing, in a line.
missing_packages() { missing "${1:-}" | cut -d : -f 2 | paste -sd ' '; }

# tell_missing NAME [PARTS]: tells on standard error, after a name, what is missing and skipped, and what installs it.
tell_missing() {
    local packages
    packages=$(missing_packages "${2:-}")
    if [ -z "$packages" ]; then return; fi
    missing "${2:-}" | sed -E "s/^([^:]*):[^:]*:(.*)/$1: \1 is missing, without which is skipped, wholly or not: \2/" >&2
    printf '%s: to install what is missing: apt-get install -y %s\n' "$1" "$packages" >&2
}

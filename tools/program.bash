# What measures, and cases that are scripts, begin with. It leaves in `program` the program to run, the script's first word or the one
# that was built, in `root` the repository, and in `work` a new folder, which goes when the script ends. Nothing is built.
root=$(dirname "$(readlink -f "${BASH_SOURCE[0]}")")/..
program=$(readlink -m "${1:-$root/crates/curspan/out/curspan}")
if [ ! -f "$program" ] || [ ! -x "$program" ]; then
    echo "${0##*/}: there is no program ${1:-crates/curspan/out/curspan}: ./curspan builds it" >&2
    exit 125
fi
work=$(mktemp -d)
trap 'rm -rf "$work"' EXIT
export LC_NUMERIC=C

# The record of proof of a package, proof.txt. It wants tools/installing.bash too, and the variables `root`,
# `commit` and `target`.

# Puts out what the gate said of the commit, if it was the last that ./test proved here.
of_gate() {
    local proved='' said=''
    if [ -f "$root/build/gate" ]; then { read -r proved && read -r said; } < "$root/build/gate" || true; fi
    [ "$proved" = "$commit" ] || said='not known: ./test did not prove this commit where it was packed'
    printf '%s\n' "$said"
}

# Puts out the oldest glibc that has all that a binary takes of it.
needed_glibc() { "$(tool_for "$target" objdump)" -T "$1" | grep -o 'GLIBC_[0-9.]*' | sort -V | tail -n 1 | cut -d _ -f 2; }

# What a binary takes of glibc, in words.
glibc_of() { printf '%s or later\n' "$(needed_glibc "$1")"; }
glibc_of_program() { echo 'none for the program, which has it inside'; }

# What of each binary is C, by its names in the sources and in the kit, which has no objects of its own for ARM.
c_of_program() { if [ "$target" = "$here_target" ]; then echo "the kit's heap.c, args.c, env.c and errno.c"; else echo 'c/kit/*.c'; fi; }
c_of_library() { if [ "$target" = "$here_target" ]; then echo "c/*.c, and the kit's heap.c"; else echo 'c/*.c, and c/kit/heap.c'; fi; }

# Puts out the sums of binaries, each by its path from a folder.
sums() {
    local folder=$1 file
    shift
    for file; do printf '%s  %s\n' "$(sha256sum < "$file" | cut -d ' ' -f 1)" "$(realpath -ms --relative-to="$folder" "$file")"; done
}

# record PACKAGE TARGETS PARTS GLIBC FILE BINARY..: writes the record of a package for some targets into a file of it: what parts of its
# binaries are C, which glibc they take, and their sums.
record() {
    local package=$1 targets=$2 parts=$3 glibc=$4 file=$5
    shift 5
    mkdir -p "$(dirname "$file")"
    {
        tell_proof "$package" "$targets" "$parts" "$glibc" "$(basename "$file")"
        sums "$(dirname "$file")" "$@"
    } > "$file"
}

# record_extension PACKAGE FILE BINARY: that of Python's extension.
record_extension() { record "$1" "$target" "python/src/*.c, $(c_of_library)" "$(glibc_of "$3") for the extension" "$2" "$3"; }

# Puts out the text of a record.
tell_proof() {
    local package=$1 targets=$2 parts=$3 glibc=$4 file=$5
    cat << RECORD
Curspan $(version) for $targets: what was proved of this package, and how to check it.

Proved: each function of the Rattle sources, of which the binaries below were made, meets its contract, does nothing
that is undefined, and returns. The kit proved all that before it compiled them. PROOFS.md says what follows from it.
Not proved: the kit, the back end that compiled what it proved (LLVM), the linker, the C library, and what is C:
$parts.

commit:   $commit
kit:      $(rt version)
target:   $targets
compiler: $("$(tool_for "${targets%%,*}" cc)" --version | head -n 1)
handles:  $(cat "$root/HANDLES")
gate:     $(of_gate)
glibc:    $glibc

The binaries are those of this record if this line says OK of each, in the folder of this file:

    grep -E '^[0-9a-f]{64}  ' $file | sha256sum -c

Nothing is signed: a sum doesn't tell who wrote this. Who has the kit and the compiler can make the same bytes of the
commit, and compare them with the package PACKAGE that you have, by this line in a clone of the sources:

    git checkout --quiet ${commit%%,*} && ./package && cmp build/package/$package PACKAGE

RECORD
}

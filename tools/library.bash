# What puts the library for C together: tools/curspan-lib for this machine, tools/build_for for another target. It wants
# tools/installing.bash and tools/interrupts.bash too, and the variables `root` and `commit`.

# Puts out what the shared library exports: the functions and variables of the headers. What they are made of is its own. They have a
# version, so that another library of a program, as libtinfo, never finds them in place of its own.
exports() {
    echo 'CURSPAN_0 { global:'
    sed -nE 's/.* CURSPAN_LINKED\((.*)\);.*/curses_h_is_of_curspan_but_not_the_library_\1;/p' "$root/include/curses.h"
    sed -nE '/^static/d; s/^[a-z_A-Z][a-z_A-Z0-9 ]*[ *]([a-z_0-9]+)\(.*/\1;/p; s/^extern [A-Za-z]+ \*?([A-Za-z_, ]+)(\[\])?;.*/\1;/p' "$root"/include/*.h | tr , ';'
    echo 'local: *; };'
}

# compile COMPILER FROM TO OPTION..: compiles the files of C in a folder into objects in another.
compile() {
    local compiler=$1 from=$2 to=$3 source
    shift 3
    mkdir -p "$to"
    for source in "$from"/*.c; do
        # shellcheck disable=SC2086 # CFLAGS are words
        "$compiler" -std=c99 -O3 -fPIC -fstack-protector "$@" ${CFLAGS:-} -c "$source" \
            -o "$to/$(basename "$source" .c).o" || return
    done
}

# put_together TARGET FOLDER OBJECT..: puts objects and those of c/ into libcurspan.a and libcurspan.so of a folder. The names of the archive
# are hidden, so that a program doesn't offer them to its other libraries.
put_together() {
    local compiler work folder=$2 ar options=(-DCURSPAN_COMMIT="\"${commit/#not known/unknown}\"" -I "$root/include") LC_ALL=C
    compiler=$(tool_for "$1" cc)
    ar=$(tool_for "$1" ar)
    shift 2
    work=$(mktemp -d)
    compile "$compiler" "$root/c" "$work/shared" "${options[@]}" -D_FORTIFY_SOURCE=2 &&
        compile "$compiler" "$root/c" "$work/archive" "${options[@]}" -fvisibility=hidden &&
        exports > "$work/names.map" &&
        "$compiler" -shared -Wl,-Bsymbolic-functions -Wl,-z,relro,-z,now -Wl,-soname,libcurspan.so.0 -Wl,--version-script="$work/names.map" \
            -o "$work/libcurspan.so" "$@" "$work"/shared/*.o &&
        "$ar" rcs "$work/libcurspan.a" "$@" "$work"/archive/*.o &&
        put_whole "$work/libcurspan.so" "$folder/libcurspan.so" && put_whole "$work/libcurspan.a" "$folder/libcurspan.a"
    local status=$?
    rm -rf "$work"
    return "$status"
}

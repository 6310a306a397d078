# The packages of Debian, for ./package, which has the variables `root`, `work`, `packages`, `target`, `commit` and `epoch`,
# `room`, the folder for what is packed for the target.

# Whether packages of Debian can be made.
has_debian() { command -v dpkg-deb > /dev/null; }

# Leaves in `debian` the version. What is no release comes before it, and after what was committed earlier.
find_version() {
    debian="$(version)~git$(date -u -d "@$epoch" +%Y%m%d%H%M%S)"
    if [ "$(git -C "$root" tag --points-at HEAD 2> /dev/null)" = "v$(version)" ]; then debian=$(version); fi
}

# Puts out a template of packaging/ with its values.
filled() {
    sed "s/@version@/$debian/; s/@date@/$(date -u -R -d "@$epoch")/; s/@glibc@/$glibc/; s/@size@/$size/; s/@architecture@/$architecture/" "$root/packaging/$1" |
        while IFS= read -r line; do printf '%s\n' "${line/@maintainer@/"$maintainer"}"; done
}

# Puts out how many KiB a folder takes, as Debian counts it.
kibibytes() { find "$1" -mindepth 1 \( -type f -printf '%s\n' -o -printf '1\n' \) | awk '{ sum += int(($1 + 1023) / 1024) } END { print sum + 0 }'; }

# Puts out Curspan's copyright, its licence and those of what is linked in. All that is under two is under this one too.
copyright() {
    local licence library
    cat "$root/packaging/copyright" "$root/LICENSE-MIT"
    cat << 'GLIBC'

The program curspan has parts of the GNU C Library in it, which may be used under
the GNU Lesser General Public License, version 2.1 or later, which is in
/usr/share/common-licenses/LGPL-2.1. lib/curspan.o of the .tar.gz that is made with
this package is what it is linked of: cc -static-pie -o curspan curspan.o links it
with another C library.
GLIBC
    printf '\nThe binaries have parts of these libraries of the Rattle kit, each of which may be\nused under the license that stands here.\n'
    linked_licences | grep -v APACHE | while IFS= read -r licence; do
        library=$(basename "$(dirname "$licence")")
        printf '\n%s:\n\n' "$library"
        cat "$licence"
    done
}

# Puts what each package of Debian has into one of them.
put_pages() {
    local pages=$room/$1/usr/share/doc/$1
    mkdir -p "$pages"
    copyright > "$pages/copyright"
    filled changelog | gzip -9n > "$pages/changelog.Debian.gz"
    gzip -9n < "$root/CHANGELOG.md" > "$pages/changelog.gz"
    as_installed < "$root/docs/PROOFS.md" > "$pages/PROOFS.md"
}

# Moves paths of all that is staged into a package.
move() {
    local path name=$1
    shift
    for path; do
        mkdir -p "$room/$name/$(dirname "$path")"
        mv "$room/staged/$path" "$room/$name/$path"
    done
}

# Puts out the symbols of the shared library for Debian. A program wants the version that it was linked with, or a later
# one.
symbols() {
    echo 'libcurspan.so.0 libcurspan0 #MINVER#'
    "$(tool_for "$target" objdump)" -T "$1" | awk -v version="$debian" 'NF > 2 && $(NF - 1) ~ /^\(?CURSPAN_0\)?$/ { print " " $NF "@CURSPAN_0 " version }' | sort
}

# Puts out the place of a package's record of proof. One that is installed for several processors at once has one for each.
record_of() {
    local name=proof.txt
    if grep -q '^Multi-Arch: same' "$root/packaging/$1.control"; then name=proof.$architecture.txt; fi
    printf '%s\n' "$room/$1/usr/share/doc/$1/$name"
}

# Puts out the file of a package.
file_of() { printf '%s\n' "${1}_$debian-1_$architecture.deb"; }

# record_in NAME PARTS GLIBC PATH..: puts a package's record of proof into it.
record_in() {
    local name=$1 parts=$2 glibc=$3
    shift 3
    record "$(file_of "$name")" "$target" "$parts" "$glibc" "$(record_of "$name")" "${@/#/"$room/$name/"}"
}

# Makes a package of Debian of a folder.
make_deb() {
    local name=$1 control=$room/$1/DEBIAN glibc=$2 size=
    put_pages "$name"
    find "$room/$name" -path '*/man/*' -type f -exec gzip -9n {} +
    mkdir -p "$control"
    size=$(kibibytes "$room/$name/usr")
    filled "$name.control" > "$control/control"
    (cd "$room/$name" && find usr -type f -print0 | sort -z | xargs -0 md5sum) > "$control/md5sums"
    set_times "$room/$name"
    dpkg-deb --root-owner-group -Zgzip -z9 --build "$room/$name" "$packages/$(file_of "$name")" > /dev/null
}

# Makes the package of Debian for Python, whose extension takes the shared library.
make_python_deb() {
    local name=python3-curspan modules=$room/python3-curspan/usr/lib/python3/dist-packages script extension
    extension=$modules/curspan/_curspan.abi3.so
    python3 -B "$root/python/wheel.py" files "$modules"
    python3 -B "$root/python/wheel.py" link --target "$target" --shared "$extension"
    chmod 644 "$extension"
    mkdir -p "$room/$name/usr/share/doc/$name/examples" "$room/$name/DEBIAN"
    cp "$root"/examples/python/*.* "$room/$name/usr/share/doc/$name/examples"
    cp "$root"/docs/{python,DEFINITIONS,TERMINALS}.md "$room/$name/usr/share/doc/$name"
    for script in postinst prerm; do install -m 755 "$root/packaging/$name.$script" "$room/$name/DEBIAN/$script"; done
    record_extension "$(file_of "$name")" "$(record_of "$name")" "$extension"
    make_deb "$name" "$(needed_glibc "$extension")"
}

# Makes the packages of Debian for a target.
make_debs() {
    local libdir architecture=amd64 library name
    libdir=usr/lib/$(multiarch_of "$target")
    [ "$target" = "$here_target" ] || architecture=arm64
    stage "$room/staged" "${libdir#usr/}" /usr
    rm -r "$room/staged/usr/share/doc/curspan"/{LICENSE-*,linked}
    mkdir -p "$room/libcurspan0/DEBIAN" "$room/libcurspan-dev/usr/share/doc/libcurspan-dev/examples"
    for name in curspan libcurspan-dev; do install -D -m 644 "$root/packaging/$name.lintian-overrides" "$room/$name/usr/share/lintian/overrides/$name"; done
    cp "$room/staged/usr/share/doc/curspan/examples/c"/* "$room/libcurspan-dev/usr/share/doc/libcurspan-dev/examples"
    cp "$root/packaging/libcurspan0.triggers" "$room/libcurspan0/DEBIAN/triggers"
    echo "libcurspan 0 libcurspan0 (>= $debian)" > "$room/libcurspan0/DEBIAN/shlibs"
    symbols "$room/staged/$libdir/libcurspan.so.0" > "$room/libcurspan0/DEBIAN/symbols"
    # there zsh looks for the completions of packages
    mv "$room/staged/usr/share/zsh"/{site-functions,vendor-completions}
    move curspan usr/bin/curspan usr/share/man/man1 usr/share/doc/curspan usr/share/{curspan,bash-completion,fish,zsh}
    move libcurspan0 "$libdir/libcurspan.so.0"
    move libcurspan-dev usr/include "$libdir"/{libcurspan.a,libcurspan.so,pkgconfig,curspan} usr/share/man/man3
    library=$room/libcurspan0/$libdir/libcurspan.so.0
    for name in libcurspan0 libcurspan-dev; do mkdir -p "$room/$name/usr/share/doc/$name"; done
    record_in curspan "$(c_of_program)" "$(glibc_of_program)" usr/bin/curspan
    record_in libcurspan0 "$(c_of_library)" "$(glibc_of "$library") for the shared library" "$libdir/libcurspan.so.0"
    record_in libcurspan-dev "$(c_of_library)" 'that of the program that it is linked with' "$libdir/libcurspan.a"
    make_deb curspan ''
    make_deb libcurspan0 "$(needed_glibc "$library")"
    make_deb libcurspan-dev ''
    if has_python; then make_python_deb; fi
}

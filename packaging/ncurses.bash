# What ./install puts into a folder for other people's build scripts, which look for ncurses: its libraries' names, as linker scripts that take
# Curspan, and the system's terminfo library where a program asks for its names; and what else tells of ncurses. It wants put, pkg_config,
# for_pkg_config, libdir and target of ./install.
# shellcheck shell=bash

# What Curspan lacks: a library by this name says so, so that a build script goes on to the next one, and no program gets ncurses' own library
# with Curspan's headers.
declare -A lacking=(
    [ncursesw]='wide characters' [cursesw]='wide characters' [panelw]='wide characters'
    [form]=forms [formw]=forms [menu]=menus [menuw]=menus
)

# Puts out the linker script of a library, for files of an ending.
linker_script() {
    local taken='' terminfo=libtinfo.so.6
    if [ -n "${lacking[$1]:-}" ]; then
        echo "ASSERT(0, \"Curspan has no ${lacking[$1]}, so that there is no lib$1\")"
        return
    fi
    [ "$1" = tinfo ] || taken="../../libcurspan.$2 "
    # which an older glibc has beside its archive
    [ "$2" = so ] || taken+=-lpthread
    if [ "$2" = so ] && [ -f "$("$(tool_for "${target:-$here_target}" cc)" -print-file-name="$terminfo")" ]; then taken+="AS_NEEDED($terminfo)"; fi
    echo "INPUT($taken)"
}

# Puts out pkg-config's file of a library.
pkg_config_of() {
    pkg_config | sed "s/^Name: .*/Name: $1/; s/^Version: .*/Version: 6.4.20221231/; /^Libs/d"
    if [ -n "${lacking[$1]:-}" ]; then
        echo "Requires: curspan-has-no-${lacking[$1]// /-}"
    else
        echo "Libs: -L\${libdir}/curspan/ncurses -l$1"
    fi
}

# Puts out a program that answers as ncurses6-config does, by pkg-config's file beside it.
config_of_ncurses() {
    cat << 'CONFIG'
#!/bin/sh
# What a program is compiled and linked with that takes Curspan for ncurses.
PKG_CONFIG_PATH=$(dirname "$(readlink -f "$0")")
export PKG_CONFIG_PATH
case $1 in
    --version) exec pkg-config --modversion ncurses ;;
    --abi-version) echo 6 ;;
    --cflags | --libs | --libs-only-l | --libs-only-L | --libs-only-other) exec pkg-config "$@" ncurses ;;
    *) exit 1 ;;
esac
CONFIG
}

# Puts all of it below the folder.
put_names_of_ncurses() {
    local name ending folder=$libdir/curspan/ncurses
    for name in ncurses curses panel tinfo "${!lacking[@]}"; do
        for ending in so a; do
            # -ltinfo of a static program is the system's archive
            [ "$name.$ending" = tinfo.a ] || put 644 <(linker_script "$name" "$ending") "$folder/lib$name.$ending"
        done
        put 644 <(pkg_config_of "$name") "$folder/$name.pc"
    done
    put 755 <(config_of_ncurses) "$folder/ncurses6-config"
}

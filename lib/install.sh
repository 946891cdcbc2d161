#!/bin/sh
# install.sh COMMAND: what the Makefile does, in the folder of the repository. PREFIX and DESTDIR are those of make.
set -eu

top=$(pwd)
. lib/build.sh

commands='ipcrun ipcsh ipcsh_explain ipcsh_fmt ipcsh_journal ipcsh_trace ipcwho'
crates='ipcsh_cli ipcsh_explain ipcsh_journal ipcwho'
headers='ipcsh.h ipcsh_sysv.h'
shared=libipcsh.so.0 # another number where a program that was linked with it would no longer run
to=$DESTDIR$PREFIX
home=$to/lib/ipcsh

case $PREFIX in
/*) ;;
*) stop install "PREFIX must begin with a /: '$PREFIX'" ;;
esac

# put FILE FOLDER: a file, which all may read.
put() {
    mkdir -p "$2"
    install -m 644 "$1" "$2/"
}

# is_there CRATE: there is a program of these sources to be installed.
is_there() { is_current "$1" || is_kept "$1"; }

# put_program CRATE: its program, the proved one where it is there, and what it is.
put_program() {
    program=$(unproved_of "$1")
    is='built without a proof, and some hundred times slower than with one'
    if is_current "$1"; then
        program=$(program_of "$1")
        is='proved and built'
    fi
    install -m 755 "$program" "$home/programs/$1"
    printf '%s\n' "$is" >"$home/programs/$1.is"
}

# build_programs: those that aren't there are built without a proof.
build_programs() {
    for crate in $crates; do
        is_there "$crate" || {
            echo "$crate: building without a proof, about a minute"
            keep "$crate" || stop install "$crate can't be built"
        }
    done
    build_layer
}

# build_layer: what ./ipcrun preloads is built by its first run.
build_layer() { IPCSH_PROGRAM=true ./ipcrun true; }

install_programs() {
    for crate in $crates; do
        is_there "$crate" || stop install "there is no program $crate of these sources: 'make' builds it without a proof, and the Makefile says how with one"
    done
    mkdir -p "$home/programs" "$home/lib" "$to/bin"
    for crate in $crates; do put_program "$crate"; done
    for folder in lib/front lib/front/help lib/fmt lib/prompt lib/trace; do
        for file in "$folder"/*; do
            [ ! -f "$file" ] || put "$file" "$home/$folder"
        done
    done
    for file in lib/*.py; do put "$file" "$home/lib"; done
    cat lib/build.sh lib/installed.sh >"$home/lib/build.sh"
    for file in docs/LANGUAGE.md docs/PROFILE.md; do put "$file" "$home/docs"; done
    put VERSION "$home"
    build_layer
    put out/ipcrun.so "$home/out"
    for command in $commands; do
        install -m 755 "$command" "$home/"
        ln -s -f "../lib/ipcsh/$command" "$to/bin/$command"
    done
}

# install_pages SECTION..: the man pages of these sections.
install_pages() {
    for section; do
        for page in man/*."$section"; do put "$page" "$to/share/man/man$section"; done
    done
}

# link_shared FILE: the library as one that programs share, whose names are the exports of ipcsh.h alone. The archive's code can stand at any
# address, else the linker refuses it (-z text).
link_shared() {
    printf '{ global: ipcsh_raw_*; local: *; };\n' >out/c/exports
    "${CC-cc}" -shared -Wl,-soname,"$shared" -Wl,-z,text -Wl,--version-script,out/c/exports -o "$1" -Wl,--whole-archive out/c/libipcsh.a \
        -Wl,--no-whole-archive -lpthread
}

install_shared() {
    if ! command -v "${CC-cc}" >/dev/null; then
        echo "install: there is no C compiler '${CC-cc}', so $shared isn't made" >&2
        return
    fi
    link_shared "out/c/$shared"
    put "out/c/$shared" "$to/lib"
    ln -s -f "$shared" "$to/lib/libipcsh.so"
}

# is_library_there: the archive is there, and no older than what it is packed of.
is_library_there() { is_current ipcsh_c && [ -f out/c/libipcsh.a ] && [ ! out/c/libipcsh.a -ot "$(program_of ipcsh_c)" ]; }

install_library() {
    is_library_there || stop install "there is no library for C of these sources: './build c' proves and builds it"
    put out/c/libipcsh.a "$to/lib"
    install_shared
    for file in $headers; do put "include/$file" "$to/include"; done
    mkdir -p "$to/lib/pkgconfig"
    sed "s|@PREFIX@|$PREFIX|; s|@VERSION@|$(cat VERSION)|" lib/ipcsh.pc.in >"$to/lib/pkgconfig/ipcsh.pc"
}

uninstall() {
    rm -rf "$home"
    for command in $commands; do rm -f "$to/bin/$command"; done
    for page in man/*; do rm -f "$to/share/man/man${page##*.}/${page##*/}"; done
    for file in $headers; do rm -f "$to/include/$file"; done
    rm -f "$to/lib/libipcsh.a" "$to/lib/libipcsh.so" "$to/lib/$shared" "$to/lib/pkgconfig/ipcsh.pc"
}

umask 022
case $1 in
programs) build_programs ;;
install-programs)
    install_programs
    install_pages 1 5 7
    ;;
install-library)
    install_library
    install_pages 3 7
    ;;
uninstall) uninstall ;;
esac

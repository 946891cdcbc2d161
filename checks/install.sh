# make install: what it puts into a folder works without the repository, and make uninstall takes it away.

installs() {
    command -v make >/dev/null || return 0
    for crate in ipcsh_explain ipcsh_journal ipcwho; do has_program "$crate" || return 1; done
    prefix=$scratch/prefix
    refuses_prefix || return 1
    with_make install "$prefix" || return 1
    installed_library_links && installed_programs_run || return 1
    with_make uninstall "$prefix" && leaves_nothing "$prefix" || return 1
    with_make install /usr "$scratch/root" || return 1
    why='its file for pkg-config has another prefix:'
    cp "$scratch/root/usr/lib/pkgconfig/ipcsh.pc" "$scratch/shown"
    grep -q -x 'prefix=/usr' "$scratch/shown" || return 1
    with_make uninstall /usr "$scratch/root" && leaves_nothing "$scratch/root"
}

# with_make TARGET PREFIX [DESTDIR]
with_make() {
    why="make $1 fails:"
    make -s "$1" PREFIX="$2" DESTDIR="${3-}" >"$scratch/shown" 2>&1
}

# refuses_prefix: a prefix that is no whole path is told of, and nothing is written.
refuses_prefix() {
    why='make install PREFIX=relative works, or does not say why not:'
    ! with_make install relative || return 1
    grep -q "PREFIX must begin with a /: 'relative'" "$scratch/shown" && [ ! -e relative ]
}

leaves_nothing() {
    why='make uninstall leaves:'
    find "$1" ! -type d >"$scratch/shown"
    [ ! -s "$scratch/shown" ]
}

# A program is compiled by what pkg-config tells, or without it by the words that it would tell, and runs with the shared library; another one
# has the archive.
installed_library_links() {
    words="-I$prefix/include -L$prefix/lib -lipcsh -lpthread"
    ! command -v pkg-config >/dev/null || words=$(PKG_CONFIG_PATH=$prefix/lib/pkgconfig pkg-config --cflags --libs ipcsh)
    installed_program_runs $words || return 1
    why='it runs without libipcsh.so.0'
    ! "$scratch/installed" >"$scratch/out" 2>"$scratch/shown" || return 1
    why='it does not name libipcsh.so.0:'
    grep -q 'libipcsh\.so\.0' "$scratch/shown" || return 1
    installed_program_runs -I "$prefix/include" "$prefix/lib/libipcsh.a" -lpthread
}

# installed_program_runs WORD..: a program that is compiled with these words prints what is stored.
installed_program_runs() {
    why='cc refuses it:'
    "${CC-cc}" -std=c11 -o "$scratch/installed" checks/c/sysv.c "$@" 2>"$scratch/shown" || return 1
    LD_LIBRARY_PATH=$prefix/lib timeout 120 "$scratch/installed" >"$scratch/out"
    same 'what it prints' checks/c/sysv.out "$scratch/out"
}

# installed WORD..: an installed command, away from the repository.
installed() {
    (
        unset IPCSH_PROGRAM IPCWHO_PROGRAM IPCSH_EXPLAIN_PROGRAM IPCSH_JOURNAL_PROGRAM
        CDPATH='' cd -- "$scratch" && exec env PATH="$prefix/bin:$PATH" "$@"
    )
}

# each_prints FILE WORD..: an installed command prints what is stored.
each_prints() {
    stored=$1
    shift
    installed "$@" >"$scratch/out" 2>"$scratch/shown" || [ $? = 1 ] || return 1
    same "what $1 $2 prints" "$stored" "$scratch/out"
}

installed_programs_run() {
    why='it fails:'
    script=$top/examples/first-run.ipcsh
    each_prints examples/first-run.out ipcsh run "$script" || return 1
    each_prints examples/first-run.ipcsh ipcsh fmt "$script" || return 1
    each_prints examples/traces/ipcmk.verdict ipcsh trace "$top/examples/traces/ipcmk.strace" || return 1
    why='it fails:'
    installed ipcsh journal "$script" >"$scratch/journal" 2>"$scratch/shown" || return 1
    for words in 'ipcsh help' 'ipcsh prompt' 'ipcsh rule owner-bits' "ipcsh why $script 14" "ipcsh replay $scratch/journal" 'ipcsh exec true' 'ipcwho --version'; do
        installed $words </dev/null >"$scratch/out" 2>"$scratch/shown" || return 1
    done
    why='ipcwho --version does not say whether it is proved:'
    cp "$scratch/out" "$scratch/shown"
    grep -q -e '^proved and built' -e '^built without a proof' "$scratch/out"
}


# From here on: what is so where the programs are installed (lib/install.sh). They are there, and nothing is built.

# choose SCRIPT CRATE FILE: sets `program` to this file where it isn't empty, and else to the installed one.
choose() {
    program=$3
    [ -z "$program" ] || return 0
    program=$top/programs/$2
    [ -x "$program" ] || stop "$1" "there is no program $program"
    ask_for_huge_pages
}

# version_of SCRIPT CRATE WHAT: the version, and whether its program is proved.
version_of() {
    printf '%s %s\n' "$1" "$(cat "$top/VERSION")"
    cat "$top/programs/$2.is"
}

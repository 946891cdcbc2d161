# The scripts with stored output: those of examples/ and of crates/rows/data. The program `rows` runs the second too, as two
# compilers build it, but without their words and status. Those of crates/rows/data are handed to the program itself, as
# ./ipcsh answers --help and --version in its place.

check_scripts() { with_program script_checks; }

script_checks() {
    attempt 'names of rows' names_are_whole
    for file in examples/*.ipcsh; do
        attempt "$file" matches "${file%.ipcsh}" ipcsh
    done
    for file in crates/rows/data/*.in; do
        attempt "$file" matches "${file%.in}" in "$(the_program)"
    done
}

# The program `rows` runs every script that needs no words.
names_are_whole() {
    for file in crates/rows/data/*.in; do
        base=${file%.in}
        [ -f "$base.words" ] || printf '%s\n' "${base##*/}"
    done | LC_ALL=C sort >"$scratch/wanted"
    same 'the list of scripts, crates/rows/data/names.txt,' "$scratch/wanted" crates/rows/data/names.txt
}

# matches BASE END [PROGRAM]: ./ipcsh, or this program, on the script BASE.END, with the words of BASE.words, prints
# BASE.out, and BASE.err on standard error, and ends with the status of BASE.status. A file that is absent stands for
# nothing, or for status 0.
matches() {
    base=$1
    script=$1.$2
    runner=${3-./ipcsh}
    wanted=0
    [ ! -f "$base.status" ] || wanted=$(cat "$base.status")
    complaint=/dev/null
    [ ! -f "$base.err" ] || complaint=$base.err
    set --
    if [ -f "$base.words" ]; then
        while IFS= read -r word; do set -- "$@" "$word"; done <"$base.words"
    fi
    status=0
    timeout 60 "$runner" "$@" <"$script" >"$scratch/out" 2>"$scratch/err" || status=$?
    same 'its output' "$base.out" "$scratch/out" || return 1
    same 'its standard error' "$complaint" "$scratch/err" || return 1
    why="status $status, not $wanted"
    [ "$status" = "$wanted" ]
}

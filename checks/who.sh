# The program ipcwho on stored folders in place of /proc, crates/ipcwho/data: NAME.words there has the words, and NAME.out, NAME.err
# and NAME.status what is wanted, as in crates/rows/data.

check_who() { with_crate ipcwho who_checks; }

who_checks() {
    for file in crates/ipcwho/data/*.words; do
        attempt "$file" matches "${file%.words}" words "$(program_to_run ipcwho)"
    done
    attempt 'ipcwho --help' helps_at_once
    attempt 'ipcwho, output that cannot be written' who_cannot_write
}

# --help is answered by ./ipcwho itself, before anything is built.
helps_at_once() {
    why='it fails'
    IPCWHO_PROGRAM=false ./ipcwho --help >"$scratch/out" || return 1
    why='its first line is another'
    [ "$(head -n 1 "$scratch/out")" = 'usage: ipcwho [PID..]' ]
}

who_cannot_write() {
    status=0
    "$(program_to_run ipcwho)" --proc crates/ipcwho/data/proc >/dev/full 2>"$scratch/err" || status=$?
    why="status $status, not 2"
    [ "$status" = 2 ] || return 1
    echo 'ipcwho: write failed' >"$scratch/wanted"
    same 'its standard error' "$scratch/wanted" "$scratch/err"
}

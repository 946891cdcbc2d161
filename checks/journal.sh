# ./ipcsh_journal: the stored journal of a script; broken texts, each with what is told of it; journals of random scripts, replayed as
# they were written and with a row changed (lib/journal.py).

check_journal() { with_crate ipcsh_journal journal_checks; }

journal_checks() {
    journals=crates/ipcsh_journal/data
    program=$(program_to_run ipcsh_journal)
    attempt "$journals/hand-over.ipcsh" has_its_journal
    attempt "$journals/hand-over.journal" journal_ends 0 same --replay "$journals/hand-over.journal"
    attempt "$journals/altered.journal" journal_ends 1 'line 16, row 6: the journal differs' --replay "$journals/altered.journal"
    attempt 'each script of examples' replays_examples
    attempt 'a journal that is handed out in parts' replays_parts
    attempt 'a script without a call' says_no_call
    attempt 'a script without a call, and a bad line' says_no_call_and_a_bad_line
    attempt 'a bad line' tells_a_bad_line
    attempt 'no file' journal_fails 2 'ipcsh_journal: no-such-file: read failed' no-such-file
    attempt 'two files' journal_fails 3 'ipcsh_journal: usage: ipcsh_journal [FILE] | --replay [FILE]' README.md README.md
    attempt 'output that cannot be written' journal_cannot_write
    attempt 'ipcsh_journal --help' journal_helps_at_once
    judged journal broken "$program" "$journals/hand-over.journal" checks/journal.broken
    judged journal random "$program" 1 1000
}

has_its_journal() {
    why='it fails'
    "$program" <"$journals/hand-over.ipcsh" >"$scratch/out" || return 1
    same 'its journal' "$journals/hand-over.journal" "$scratch/out"
}

# journal_ends STATUS LINE ARGUMENT..: it ends so, and its first line is this.
journal_ends() {
    wanted=$1
    line=$2
    shift 2
    status=0
    "$program" "$@" >"$scratch/out" 2>"$scratch/shown" || status=$?
    why="status $status, not $wanted"
    [ "$status" = "$wanted" ] || return 1
    why="its first line isn't '$line'"
    [ "$(head -n 1 "$scratch/out")" = "$line" ]
}

replays_examples() {
    for script in examples/*.ipcsh; do
        why="$script: no journal"
        status=0
        "$program" "$script" >"$scratch/journal" 2>"$scratch/shown" || status=$?
        [ "$status" -le 1 ] && [ -s "$scratch/journal" ] || return 1
        journal_ends 0 same --replay "$scratch/journal" || return 1
    done
}

# Four clients call in threads of their own, and one of them takes the rows after every 1,000 calls: the parts are the journal.
replays_parts() {
    has_program journal_parts || return 1
    why='journal_parts fails'
    "$(program_to_run journal_parts)" 20 >"$scratch/journal" 2>"$scratch/shown" || return 1
    why='it has not just its 20000 calls'
    [ "$(grep -c '^at ' "$scratch/journal")" = 20000 ] || return 1
    journal_ends 0 same --replay "$scratch/journal"
}

# journal_fails STATUS LINE ARGUMENT..: it prints nothing, and this on standard error.
journal_fails() {
    wanted=$1
    line=$2
    shift 2
    status=0
    "$program" "$@" >"$scratch/out" 2>"$scratch/err" </dev/null || status=$?
    why="status $status, not $wanted"
    [ "$status" = "$wanted" ] || return 1
    why='it prints something'
    [ ! -s "$scratch/out" ] || return 1
    printf '%s\n' "$line" >"$scratch/wanted"
    same 'its standard error' "$scratch/wanted" "$scratch/err"
}

says_no_call() {
    journal_fails 2 'ipcsh_journal: the script makes no call, so there is no journal'
}

says_no_call_and_a_bad_line() {
    status=0
    printf 'client alice 100 10\nalice mssget 5 0600\n' | "$program" >"$scratch/out" 2>"$scratch/err" || status=$?
    why="status $status, not 2, or it prints something"
    [ "$status" = 2 ] && [ ! -s "$scratch/out" ] || return 1
    printf '%s\n' 'line 2: bad-line' 'ipcsh_journal: the script makes no call, so there is no journal' >"$scratch/wanted"
    same 'its standard error' "$scratch/wanted" "$scratch/err"
}

tells_a_bad_line() {
    status=0
    printf 'client alice 100 10\nalice mssget 5 0600\nalice msgget 5 01600\n' | "$program" >"$scratch/bad" 2>"$scratch/err" || status=$?
    why="status $status, not 1"
    [ "$status" = 1 ] || return 1
    echo 'line 2: bad-line' >"$scratch/wanted"
    same 'its standard error' "$scratch/wanted" "$scratch/err" && journal_ends 0 same --replay "$scratch/bad"
}

journal_cannot_write() {
    status=0
    "$program" "$journals/hand-over.ipcsh" >/dev/full 2>"$scratch/err" || status=$?
    why="status $status, not 2"
    [ "$status" = 2 ] || return 1
    echo 'ipcsh_journal: write failed' >"$scratch/wanted"
    same 'its standard error' "$scratch/wanted" "$scratch/err"
}

# --help is answered by ./ipcsh_journal itself, before anything is built.
journal_helps_at_once() {
    why='it fails'
    IPCSH_JOURNAL_PROGRAM=false ./ipcsh_journal --help >"$scratch/out" || return 1
    why='its first line is another'
    [ "$(head -n 1 "$scratch/out")" = 'usage: ipcsh_journal [FILE]' ]
}

# The program ipcsh: its start, a dialogue, its faults, a full table and large segments.

check_program() {
    attempt ipcsh built ipcsh_cli
    attempt ipcwho built ipcwho
    attempt ipcsh_explain built ipcsh_explain
    attempt ipcsh_journal built ipcsh_journal
    attempt bench built ipc_bench
    attempt 'bench threads' built thread_bench
}

check_start() { with_program start_checks; }

start_checks() {
    attempt 'first run' runs_the_first_script
    attempt 'another folder' runs_from_another_folder
}

runs_the_first_script() {
    why='it fails'
    printf 'client alice 100 10\nclient bob 200 20\nalice msgget 5 01600\nbob msgget 5 0600\n' |
        ./ipcsh >"$scratch/out" || return 1
    same 'its output' examples/first-run.out "$scratch/out"
}

runs_from_another_folder() {
    why='it fails'
    ln -s "$top/ipcsh" "$scratch/link"
    (cd "$scratch" && ./link <"$top/examples/first-run.ipcsh" >out) || return 1
    same 'its output' examples/first-run.out "$scratch/out"
}

check_pipe() { with_program attempt 'open pipe' answers_each_line; }

# ask LINE ROW: hands one line to the waiting program, whose next row must be ROW.
ask() {
    why="no answer to '$1'"
    (printf '%s\n' "$1" >&3) 2>/dev/null || return 1
    row=$(timeout 20 head -n 1 <&4) || return 1
    why="'$row' answers '$1'"
    [ "$row" = "$2" ]
}

converse() {
    ask 'bob' 'line 1: unknown-client' || return 1
    (printf 'client alice 100 10\n# a comment\n' >&3) 2>/dev/null || return 1
    ask 'alice msgget 5 01600' '1.0 alice id 0' || return 1
    why='no hint on line 1 before line 5'
    grep -q "^ipcsh: line 1: column 1: no client 'bob'" "$scratch/err" || return 1
    ask 'alice msgget 5 03600' '2.0 alice error 17 EEXIST key-exists' || return 1
    ask 'alice msgget 0 0600' '3.0 alice id 1'
}

# A line through a pipe that stays open is answered before the next one is written, and a bad one has its hint by then.
answers_each_line() {
    mkfifo "$scratch/lines" "$scratch/rows"
    timeout 60 ./ipcsh <"$scratch/lines" >"$scratch/rows" 2>"$scratch/err" &
    program=$!
    exec 3>"$scratch/lines" 4<"$scratch/rows"
    answered=0
    converse || answered=1
    exec 3>&- 4<&-
    status=0
    wait "$program" || status=$?
    rm "$scratch/lines" "$scratch/rows"
    [ "$answered" = 0 ] || return 1
    why="status $status, not 1"
    [ "$status" = 1 ]
}

check_faults() { with_program fault_checks; }

fault_checks() {
    attempt 'input that cannot be read' cannot_read
    attempt 'output that cannot be written' cannot_write
    attempt '16777216 bytes' reads_16777216_bytes
    attempt '16777217 bytes' reads_no_byte_more
}

# is_fault TEXT STATUS: the run that left its standard error in $scratch/err ended with this fault.
is_fault() {
    why="status $2, not 2"
    [ "$2" = 2 ] || return 1
    printf 'ipcsh: %s\n' "$1" >"$scratch/wanted"
    same 'its standard error' "$scratch/wanted" "$scratch/err"
}

# These checks of faults hand their words to the program. A folder can be opened as standard input, but not read.
cannot_read() {
    status=0
    ./ipcsh "$@" <. >"$scratch/out" 2>"$scratch/err" || status=$?
    is_fault 'read failed' "$status" || return 1
    same 'its output' /dev/null "$scratch/out"
}

cannot_write() {
    status=0
    ./ipcsh "$@" <examples/first-run.ipcsh >/dev/full 2>"$scratch/err" || status=$?
    is_fault 'write failed' "$status"
}

line_feeds() {
    head -c "$1" /dev/zero | tr '\0' '\n'
}

reads_16777216_bytes() {
    why='it fails'
    line_feeds 16777216 | ./ipcsh "$@" >"$scratch/out" || return 1
    same 'its output' /dev/null "$scratch/out"
}

reads_no_byte_more() {
    status=0
    line_feeds 16777217 | ./ipcsh "$@" >"$scratch/out" 2>"$scratch/err" || status=$?
    is_fault 'input too long' "$status" || return 1
    same 'its output' /dev/null "$scratch/out"
}

check_table() { with_program table_checks; }

table_checks() {
    attempt 'full table' fills_a_table
    attempt 'segments of 1 GiB' serves_large_segments
}

# A table of 32768 slots is filled; then slots 32767 and 5 are freed, and taken again from the lowest on.
table_script() {
    printf 'limit slots 32768\nclient a 100 10\n'
    yes 'a msgget 0 0' | head -n 32769
    printf 'a rmid q %s\n' 32767 5
    yes 'a msgget 0 0' | head -n 3
}

table_rows() {
    seq 1 32768 | awk '{ print $1 ".0 a id " $1 - 1 }'
    printf '32769.0 a error 28 ENOSPC no-slot\n32770.0 a ok\n32771.0 a ok\n'
    printf '32772.0 a id 32773\n32773.0 a id 65535\n32774.0 a error 28 ENOSPC no-slot\n'
}

fills_a_table() {
    why='it fails'
    table_script | ./ipcsh >"$scratch/out" || return 1
    table_rows >"$scratch/wanted"
    same 'its output' "$scratch/wanted" "$scratch/out"
}

# In 512 MiB, 100 segments of 1 GiB each: nobody has written to them, and they take no memory. A read is of zeros. The first write
# to one is refused its memory, but not one of no bytes; and nothing has changed then.
large_script() {
    printf 'limit shmmax 1073741824\nclient a 100 10\n'
    yes 'a shmget 0 1073741824 0600' | head -n 100
    printf 'a %s\n' 'shmat 99 0' 'shmwrite 0 1073741823 t:a' 'shmwrite 0 1073741824 t:' 'shmread 0 1073741822 2' \
        'shmdt 0' 'rmid m 99' 'shmget 0 1073741824 0600'
}

large_rows() {
    seq 1 100 | awk '{ print $1 ".0 a id " $1 - 1 }'
    printf '101.0 a attached 0\n- a error 12 ENOMEM memory\n102.0 a ok\n103.0 a bytes x:0000\n'
    printf '104.0 a ok\n105.0 a ok\n106.0 a id 32867\n'
}

serves_large_segments() {
    why='it fails'
    large_script | (ulimit -v 524288 && exec "$(the_program)") >"$scratch/out" || return 1
    large_rows >"$scratch/wanted"
    same 'its output' "$scratch/wanted" "$scratch/out"
}

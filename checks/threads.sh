# ipcsh threads: its threads come in another order from run to run, so each of its scripts is run many times. Its faults.

rounds=50

check_threads() { with_program threads_checks; }

threads_checks() {
    for file in examples/*.ipcsh crates/rows/data/*.in; do
        ! is_for_threads "${file%.*}" || attempt "$file, $rounds times" matches_each_time "${file%.*}" "${file##*.}"
    done
    attempt 'threads, input that cannot be read' cannot_read threads
    attempt 'threads, output that cannot be written' cannot_write threads
    attempt 'threads, 16777216 bytes' reads_16777216_bytes threads
    attempt 'threads, 16777217 bytes' reads_no_byte_more threads
    attempt 'threads, a bad line and 16777217 bytes' writes_nothing_of_too_much
}

# is_for_threads BASE: the words of this script are `threads` alone, and its run is to end with status 0 or 1.
is_for_threads() {
    [ -f "$1.words" ] || return 1
    wanted=0
    [ ! -f "$1.status" ] || wanted=$(cat "$1.status")
    [ "$(cat "$1.words")" = threads ] && [ "$wanted" -le 1 ]
}

# The program itself is run, since ./ipcsh looks at all sources first, which takes longer than the run.
matches_each_time() {
    round=1
    while [ "$round" -le "$rounds" ]; do
        matches "$1" "$2" "$(the_program)" || {
            why="round $round: $why"
            return 1
        }
        round=$((round + 1))
    done
}

# Not even the row of a bad line is written, where the script turns out to be too long behind it.
writes_nothing_of_too_much() {
    status=0
    { echo bob && line_feeds 16777213; } | ./ipcsh threads >"$scratch/out" 2>"$scratch/err" || status=$?
    is_fault 'input too long' "$status" || return 1
    same 'its output' /dev/null "$scratch/out"
}

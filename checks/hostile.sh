# Hostile use: refused memory, broken streams, and lines that nobody should write (lib/hostile.py).

check_memory() {
    with_program memory_bears
    with_program attempt 'refused allocations of threads' threads_bear_refusals
    attempt 'refused allocations of queues' queues_bear_refusals
    attempt 'refused allocations of a pass' pass_bears_refusals 1
    attempt 'refused allocations of a pass, two in a row' pass_bears_refusals 2
    for test in $quiet_tests; do
        attempt "allocations of $test" takes_no_memory "${test%%/*}" "${test#*/}"
    done
}

# The tests that say between which of their lines nothing is allocated: CRATE/TEST.
quiet_tests='queue_tests/messages::a_message_that_has_a_place_goes_through_without_memory
    queue_tests/parked::calls_are_found_and_leave_without_memory
    space_tests/undo::rows_that_are_there_change_and_go_without_memory
    space_tests/objects::objects_are_found_changed_and_removed_without_memory
    thread_tests/quiet::a_pass_of_calls_that_need_no_memory_takes_none
    thread_tests/quiet::what_is_around_a_call_takes_no_memory'

# The scripts that run without words.
plain_scripts() {
    for file in examples/*.ipcsh crates/rows/data/*.in; do
        [ -f "${file%.*}.words" ] || printf '%s\n' "$file"
    done
}

memory_bears() {
    if preloaded sweep; then
        tries memory "$(the_program)" "$scratch/sweep.so" $(plain_scripts)
    else
        fail memory
    fi
}

# tries PART WORD..: what lib/hostile.py tries, which counts.
tries() {
    status=0
    in_group python3 lib/hostile.py "$@" >"$scratch/tried" 2>&1 || status=$?
    grep '^FAILED ' "$scratch/tried" || :
    count_of "hostile.py $1" "$(tail -n 1 "$scratch/tried")" "$status"
}

# preloaded NAME: builds checks/NAME.c, which a program is run with.
preloaded() {
    why="checks/$1.c does not build"
    cc -shared -fPIC -o "$scratch/$1.so" "checks/$1.c"
}

# The first run in threads, in which each client makes one call, with one allocation refused: it stopped for want of memory
# before a row; or each client's call is in its row, counted as failed for want of memory or not.
threads_bore_refusal() {
    case "$1:$(cat "$scratch/err")" in
    '2:refused
ipcsh: no memory') [ ! -s "$scratch/out" ] ;;
    0:refused)
        ! grep -q ' memory ' "$scratch/out" || failed_calls=$((failed_calls + 1))
        sed 's/ calls 0 refused 0 memory 1$/ once/; s/ calls 1 refused [01]$/ once/' "$scratch/out" | grep -v '^q ' |
            tr '\n' ' ' >"$scratch/clients"
        [ "$(cat "$scratch/clients")" = 'alice once bob once ' ]
        ;;
    *) return 1 ;;
    esac
}

# Each allocation of the first run in threads is refused in turn.
threads_bear_refusals() {
    preloaded refuse || return 1
    number=0
    failed_calls=0
    while :; do
        number=$((number + 1))
        status=0
        timeout 60 env REFUSE="$number" LD_PRELOAD="$scratch/refuse.so" "$(program_of ipcsh_cli)" threads \
            <examples/first-run.ipcsh >"$scratch/out" 2>"$scratch/err" || status=$?
        [ -s "$scratch/err" ] || break
        why="allocation $number refused: status $status, standard error and rows as shown"
        cat "$scratch/err" "$scratch/out" >"$scratch/shown"
        threads_bore_refusal "$status" || return 1
    done
    : >"$scratch/shown"
    why='no call was counted for which an allocation failed'
    [ "$failed_calls" -gt 0 ] || return 1
    why="with no allocation refused: status $status"
    [ "$status" = 0 ]
}

tests_of() { printf 'crates/%s/out/%s_tests\n' "$1" "$1"; }

# has_tests CRATE: its tests are built.
has_tests() {
    why="the tests of crates/$1 are not built"
    [ -x "$(tests_of "$1")" ] || (cd "crates/$1" && rt test) >/dev/null 2>&1
}

# Each second, third, .. allocation of the random lists of calls on queues is refused: they answer as plain lists do.
queues_bear_refusals() {
    preloaded refuse || return 1
    has_tests queue_tests || return 1
    for each in 2 3 5 7 11 101; do
        why="each allocation with a number that $each divides refused: not as a plain list, or none was refused"
        EACH="$each" LD_PRELOAD="$scratch/refuse.so" timeout 60 "$(tests_of queue_tests)" lists::a_queue_answers_as_a_list \
            >"$scratch/out" 2>"$scratch/err" || return 1
        grep -q '^refused$' "$scratch/err" || return 1
    done
}

# Each allocation of a pass of eight clients, two of which complete calls of others, is refused in turn, with so many in a row.
pass_bears_refusals() {
    preloaded refuse || return 1
    has_tests thread_tests || return 1
    number=0
    answered=no
    while :; do
        number=$((number + 1))
        why="allocation $number of the pass refused, $1 in a row: a call is lost, or none was answered for it"
        BETWEEN=pass REFUSE="$number" IN_A_ROW="$1" LD_PRELOAD="$scratch/refuse.so" timeout 60 "$(tests_of thread_tests)" \
            refusals::a_pass_loses_no_call >"$scratch/out" 2>"$scratch/shown" || return 1
        grep -q '^refused$' "$scratch/shown" || break
        ! grep -q 'answered Memory' "$scratch/shown" || answered=yes
    done
    why='no call was answered that an allocation failed'
    [ "$answered" = yes ] || return 1
    why='in the pass that went on to its end there were not as many allocations as were refused'
    grep -q "^allocations $((number - 1))$" "$scratch/shown"
}

# takes_no_memory CRATE TEST: no allocation comes between the lines that the test writes, once or more often.
takes_no_memory() {
    preloaded refuse || return 1
    has_tests "$1" || return 1
    why='it fails, or something is allocated between its lines'
    BETWEEN=quiet LD_PRELOAD="$scratch/refuse.so" timeout 60 "$(tests_of "$1")" "$2" >"$scratch/out" 2>"$scratch/shown" || return 1
    grep -q '^allocations 0$' "$scratch/shown" && ! grep -q '^allocations [1-9]' "$scratch/shown"
}

# A script of each kind, and the row with a removed queue.
streamed='removed-queue-ends-a-waiter stat-after-every-call semaphore-refusals-and-zero-wait times-of-a-segment three-commands semtimedop setcreds
    exit-undoes-and-detaches interrupt busy-behind-bad-lines last-line-without-an-end carriage-returns'

check_streams() { with_program streams_break; }

streams_break() {
    if preloaded streams; then
        tries streams "$(the_program)" "$scratch/streams.so" $(printf 'crates/rows/data/%s.in ' $streamed)
    else
        fail streams
    fi
}

check_lines() { with_program tries_lines; }

tries_lines() { tries lines "$(the_program)" 1000000; }

check_still() {
    for clients in three sixty_four; do
        attempt "each of $clients clients stands still, 10 times" stands_still "still::each_of_${clients}_stands_still"
    done
}

# A test of threads that come in another order each time.
stands_still() {
    has_tests thread_tests || return 1
    for round in 1 2 3 4 5 6 7 8 9 10; do
        why="round $round: it fails"
        timeout 60 "$(tests_of thread_tests)" "$1" >"$scratch/out" 2>"$scratch/shown" || return 1
    done
}

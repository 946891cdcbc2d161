# ./ipcsh_trace: each trace of examples/traces has its stored script and verdict, an answer that is altered in it is told,
# and what is no trace, or none that can be taken whole, has its clear reason. Process numbers are compared where they can be known, and each thread
# is born as the trace tells. A damaged line is a call that isn't taken, and the other lines keep their verdict: those of checks/damaged, and random
# ones (lib/damaged_traces.py). A long trace is judged in time (lib/long_trace.py).

check_traces() { with_program trace_checks; }

trace_checks() {
    IPCSH_PROGRAM=$(the_program)
    export IPCSH_PROGRAM
    for verdict in examples/traces/*.verdict checks/damaged/*.verdict; do
        base=${verdict%.verdict}
        set -- "$base".strace*
        attempt "$verdict" has_its_verdict "$base.verdict" "$@"
        attempt "$base.script" has_its_script "$base.script" "$@"
        attempt "$base.script by ./ipcsh" script_has_no_bad_line "$base.script"
        attempt "$verdict, an answer altered" tells_an_altered_answer "$base.verdict" "$@"
    done
    attempt '8,003 calls of four threads' is_told_in_time
    bad_traces
    process_numbers
    births
    broken_streams
    random_damage
}

# A long trace of calls that overlap, which has an order as defined.
is_told_in_time() {
    python3 lib/long_trace.py 1 4 1000 >"$scratch/long.strace"
    why='it takes more than five minutes'
    timeout 300 ./ipcsh_trace "$scratch/long.strace" >"$scratch/out" 2>"$scratch/shown" || return 1
    why='its last line is another one:'
    tail -n 1 "$scratch/out" >"$scratch/shown"
    [ "$(cat "$scratch/shown")" = '8003 calls: 8003 as defined, 0 otherwise, 0 not taken' ]
}

# random_damage: traces of which one line is damaged. Longer ones take longer.
random_damage() {
    status=0
    set -- ipcmk ipcrm perl python undo segment wait counts
    nice -n 5 timeout 600 python3 lib/damaged_traces.py "$IPCSH_PROGRAM" 1 200 $(printf 'examples/traces/%s.strace ' "$@") >"$scratch/tried" 2>&1 || status=$?
    grep '^FAILED ' "$scratch/tried" || :
    count_of 'damaged_traces.py' "$(tail -n 1 "$scratch/tried")" "$status"
}

# broken_streams: as the programs in Rattle do where a stream fails.
broken_streams() {
    trace=examples/traces/undo.strace
    for option in '' --script; do
        attempt "a full disk $option" fails_to_write ipcsh_trace "./ipcsh_trace $option $trace >/dev/full"
        attempt "standard output closed $option" fails_to_write ipcsh_trace "./ipcsh_trace $option $trace >&-"
        attempt "a reader that has gone $option" fails_to_write ipcsh_trace "without_reader ./ipcsh_trace $option $trace"
    done
    attempt '--help on a full disk' fails_to_write ipcsh_trace './ipcsh_trace --help >/dev/full'
    attempt 'a reader that takes one line' one_line_is_read
    attempt 'no stream at all' ends_alone
    attempt 'standard input closed' says 2 '^ipcsh_trace: standard input: Bad file descriptor$' <&-
    attempt 'standard input a folder' says 2 '^ipcsh_trace: standard input: Is a directory$' <checks
}

one_line_is_read() {
    why='it writes to standard error'
    ./ipcsh_trace "$trace" 2>"$scratch/err" | head -n 1 >"$scratch/out"
    cp "$scratch/err" "$scratch/shown"
    [ -s "$scratch/out" ] && [ ! -s "$scratch/err" ]
}

ends_alone() {
    status=0
    ./ipcsh_trace "$trace" <&- >&- 2>&- || status=$?
    why="status $status, not 2"
    [ "$status" = 2 ]
}

# traced STATUS ARGUMENT..: runs ./ipcsh_trace, which is to end with this status.
traced() {
    wanted=$1
    shift
    status=0
    timeout 60 ./ipcsh_trace "$@" >"$scratch/out" 2>"$scratch/err" || status=$?
    why="status $status, not $wanted: ./ipcsh_trace $*"
    [ "$status" = "$wanted" ]
}

# has_its_verdict STORED FILE..: the status is 1 where a call is answered otherwise.
has_its_verdict() {
    stored=$1
    shift
    wanted=1
    ! grep -q '^[0-9]* calls*: .* 0 otherwise' "$stored" || wanted=0
    traced "$wanted" "$@" && same 'its verdict' "$stored" "$scratch/out"
}

has_its_script() {
    stored=$1
    shift
    ./ipcsh_trace --script "$@" >"$scratch/out" 2>"$scratch/err" || :
    same 'its script' "$stored" "$scratch/out"
}

script_has_no_bad_line() {
    why='the script has a bad line'
    ./ipcsh <"$1" >"$scratch/out" 2>"$scratch/shown"
}

# tells_an_altered_answer VERDICT FILE..: the last answer 0 that is as defined becomes EPERM, which no such call is to be answered.
tells_an_altered_answer() {
    stored=$1
    shift
    mkdir -p "$scratch/altered"
    cp "$@" "$scratch/altered"
    sed -n 's/^\(.* \)\{0,1\}line \([0-9]*\) .* = 0: as defined (.*/\2 \1/p' "$stored" >"$scratch/answers"
    why='no line to alter'
    altered=
    while read -r line file; do
        target=$scratch/altered/${file:-${1##*/}}
        ! sed -n "${line}p" "$target" | grep -q ' = 0$' || altered="$line $target"
    done <"$scratch/answers"
    [ -n "$altered" ] || return 1
    line=${altered%% *}
    target=${altered#* }
    sed "${line}s/ = 0\$/ = -1 EPERM (Operation not permitted)/" "$target" >"$scratch/other"
    mv "$scratch/other" "$target"
    result=0
    traced 1 "$scratch"/altered/* && tells_otherwise "$line" || result=1
    rm -r "$scratch/altered"
    return "$result"
}

# tells_otherwise LINE: the output says of this line that the definitions answer something else.
tells_otherwise() {
    why="line $1 isn't told"
    cp "$scratch/out" "$scratch/shown"
    grep -q "line $1 .* = -1 EPERM (Operation not permitted) but the definitions " "$scratch/out"
}

# bad_traces: a trace that can't be read, or not whole.
bad_traces() {
    bad=$scratch/bad.strace
    : >"$bad"
    attempt 'an empty file' says 2 'bad.strace: it is empty' "$bad"
    head -c 4096 /dev/urandom | tr -d '\n' >"$bad"
    attempt 'random bytes' says 2 'bad.strace: it is no trace: none of its lines is one of strace' "$bad"
    attempt 'a document' says 2 'README.md: it is no trace' README.md
    attempt 'no file' says 2 'no-such-file: No such file or directory' no-such-file
    attempt 'a folder' says 2 'checks: Is a directory' checks
    attempt 'several files without times' says 2 'its lines have no times' examples/traces/wait.strace examples/traces/stderr.strace
    attempt 'an unknown word' says 3 'unrecognized arguments: --foo' --foo
    attempt 'an unknown capability' says 3 'argument --caps' --caps=KILL README.md
    attempt 'a time that is none' says 3 'argument --seconds' --seconds=soon README.md
    attempt 'no time' says 0 '^14 calls: 14 as defined' --seconds=0 examples/traces/perl.strace
    attempt 'a limit out of its range' says 3 "'limit msgmax 0' isn't taken by the language" --limit=msgmax=0 examples/traces/wait.strace
    printf 'msgget(0x5, IPC_CREAT|0600) = 0\nmsgsnd(0, {mtype=1, mtext="hel' >"$bad"
    attempt 'a line that is cut' says 0 '^line 2 msgsnd(0, {mtype=1, mtext="hel: not taken: the line is cut$' "$bad"
    attempt 'a line that is cut is counted' says 0 '^1 call: 1 as defined, 0 otherwise, 0 not taken; 1 other line not taken$' "$bad"
    printf 'msgget(0x5, IPC_CREAT|0600) = 0\n\001\377 not of strace\n' >"$bad"
    attempt 'a line that is none of strace' says 0 '^line 2 .*: not taken: no line of strace$' "$bad"
    attempt 'an object made before' says 0 'not taken: object made before the trace$' -- "$(written 'msgctl(7, IPC_RMID, NULL) = 0')"
    attempt 'values that strace hides' says 0 "not taken: strace doesn't write the values of SETALL" -- "$(written \
        'semget(0x5, 1, IPC_CREAT|0600) = 0
semctl(0, 0, SETALL, 0x7ffd7e3c6a40) = 0')"
    attempt 'shmdt of what an untaken shmat has attached' says 0 'line 2 .*: not taken: attached by a call that isn.t taken, line 1$' -- "$(written \
        'shmat(7, NULL, 0) = 0x7f189c460000
shmdt(0x7f189c460000) = 0')"
    open_calls
    attempt '65 processes' says 0 '^line 65 \[pid 65\] .*: not taken: a script has at most 64 clients, and all are taken$' "$(many_processes)"
    attempt '65 processes are counted' says 0 \
        '^65 calls: 64 as defined, 0 otherwise, 1 not taken; 1 thread left out, since a script has at most 64 clients$' "$(many_processes)"
}

# process_numbers: those of a trace are compared, and no claim is made where they can't be known.
process_numbers() {
    while read -r numbers change; do
        name=${numbers%=*}
        wanted=${numbers#*=}
        attempt "another $name than $wanted" says 1 " but the definitions give $name $wanted\$" "$(changed_daemon "$change")"
    done <<'CHANGES'
lpid=7530 s/shm_lpid=7530/shm_lpid=7528/
cpid=7528 s/shm_cpid=7528/shm_cpid=7541/
lspid=7528 s/msg_lspid=7528/msg_lspid=7530/
lrpid=7530 s/msg_lrpid=7530/msg_lrpid=7528/
pid=7541 /GETPID/s/= 7541$/= 7537/
CHANGES
    for number in 9999 7542; do
        attempt "number $number of no process" says 0 "= $number: as defined (value 7541); pid $number isn't compared\$" \
            "$(changed_daemon "/GETPID/s/= 7541$/= $number/")"
    done
    attempt 'a number without clone' says 0 '^line 3 .*: as defined (value 101); pid 100 isn.t compared$' -- "$(written \
        '100 semget(0x5, 1, IPC_CREAT|0600) = 0
101 semop(0, [{0, 1, 0}], 1) = 0
100 semctl(0, 0, GETPID, NULL) = 100')"
    attempt 'a number after SETALL' says 0 '^line 5 .*: as defined (value 0); pid 100 isn.t compared$' -- "$(traced_by_100 \
        'semget(0x5, 1, IPC_CREAT|0600) = 0
semctl(0, 0, IPC_STAT, {sem_perm={uid=0}, sem_nsems=1}) = 0
semctl(0, 0, SETALL, 0x7ffd7e3c6a40) = 0
semctl(0, 0, GETPID, NULL) = 100')"
    attempt 'a number of another pid namespace' says 0 '^line 4 .*: as defined (queue); lspid 101 isn.t compared$' -- "$(traced_by_100 \
        'clone(child_stack=NULL, flags=CLONE_NEWPID|SIGCHLD) = 101
msgget(0x5, IPC_CREAT|0600) = 0
101 msgctl(0, IPC_STAT, {msg_perm={uid=0}, msg_lspid=101}) = 0')"
}

changed_daemon() {
    sed "$1" examples/traces/daemon.strace >"$scratch/bad.strace"
    printf '%s\n' "$scratch/bad.strace"
}

# births: who is born how, and who takes the client of one that has ended.
births() {
    attempt '100 processes, one after the other' says 0 '^201 calls: 201 as defined, 0 otherwise, 0 not taken$' "$(processes_in_turn)"
    attempt 'a process beyond the 64th' says 0 "^line 132 .*: not taken: the object isn't known since line 130, which isn't taken\$" "$(forks_alive)"
    attempt 'a vfork counts no attachment' says 0 '^4 calls: 4 as defined' -- "$(traced_by_100 \
        'shmget(0x5, 10, IPC_CREAT|0600) = 0
shmat(0, NULL, 0) = 0x7f189c460000
vfork() = 101
101 msgget(0x5, IPC_CREAT|0600) = 0
shmctl(0, IPC_STAT, {shm_perm={uid=0}, shm_nattch=1}) = 0')"
    attempt 'a thread that makes execve' says 0 '^line 6 .*: as defined, it waits until its thread ends$' -- "$(thread_execs)"
    attempt 'which ends the others' says 0 '^6 calls: 6 as defined' -- "$(thread_execs)"
    attempt 'a clone in whose line its child is told' says 0 '^client p102 is thread 102 of process 100: ' -- "$(traced_by_100 \
        'semget(0x5, 1, IPC_CREAT|0600) = 0
clone3({flags=CLONE_VM|CLONE_THREADstrace: Process 102 attached
}, 88) = 102
[pid 102] semop(0, [{0, 1, 0}], 1) = 0
[pid 100] semctl(0, 0, GETPID, NULL) = 100')"
    attempt 'credentials are told' says 0 '^line 4 .*: as defined, group-bits$' -- "$(traced_by_100 \
        'msgget(0x5, IPC_CREAT|0600) = 0
setresuid(1, 2, 3) = 0
msgsnd(0, {mtype=1, mtext="a"}, 1, 0) = -1 EACCES (Permission denied)')"
}

# traced_by_100 TEXT: the file that has the execve of process 100, and these lines, which are its own where no number stands in front.
traced_by_100() {
    {
        echo '100 execve("./a", ["./a"], 0x7ffd00dbe1e0 /* 37 vars */) = 0'
        printf '%s\n' "$1" | sed '/^[a-z]/s/^/100 /'
    } >"$scratch/bad.strace"
    printf '%s\n' "$scratch/bad.strace"
}

thread_execs() {
    traced_by_100 'semget(0x5, 1, IPC_CREAT|0600) = 0
shmget(0x5, 10, IPC_CREAT|0600) = 0
shmat(0, NULL, 0) = 0x7f189c460000
clone3({flags=CLONE_VM|CLONE_THREAD}, 88) = 102
semop(0, [{0, -1, 0}], 1 <unfinished ...>
102 execve("./b", ["./b"], 0x7ffd00dbe1e0 /* 37 vars */ <unfinished ...>
100 <... semop resumed>) = ?
100 +++ superseded by execve in pid 102 +++
100 <... execve resumed>) = 0
100 shmctl(0, IPC_STAT, {shm_perm={uid=0}, shm_lpid=100, shm_nattch=0}) = 0
100 semctl(0, 0, GETNCNT, NULL) = 0
100 +++ exited with 0 +++'
}

processes_in_turn() {
    traced_by_100 "$(awk 'BEGIN {
        print "semget(0x5, 1, IPC_CREAT|0600) = 0"
        for (pid = 101; pid <= 200; pid++) {
            printf "clone(child_stack=NULL, flags=SIGCHLD) = %d\n%d semop(0, [{0, 1, SEM_UNDO}], 1) = 0\n", pid, pid
            printf "%d +++ exited with 0 +++\nsemctl(0, 0, GETPID, NULL) = %d\n", pid, pid
        }
    }')"
}

forks_alive() {
    traced_by_100 "$(awk 'BEGIN {
        print "shmget(0x5, 10, IPC_CREAT|0600) = 0\nshmat(0, NULL, 0) = 0x7f189c460000"
        for (pid = 101; pid <= 164; pid++) printf "clone(child_stack=NULL, flags=SIGCHLD) = %d\n%d msgget(0x5, IPC_CREAT|0600) = 0\n", pid, pid
        print "shmctl(0, IPC_STAT, {shm_perm={uid=0}, shm_nattch=65}) = 0"
    }')"
}

# open_calls: calls whose end isn't in the trace.
open_calls() {
    attempt 'a wait at the end' says 0 '^line 2 .*: as defined, it waits at the end of the trace$' -- "$(written \
        'semget(0x5, 1, IPC_CREAT|0600) = 0
semop(0, [{0, -1, SEM_UNDO}], 1 <unfinished ...>')"
    attempt 'no wait at the end' says 0 "^line 2 .*: its answer isn't in the trace; the definitions answer ok\$" -- "$(written \
        'semget(0x5, 1, IPC_CREAT|0600) = 0
semop(0, [{0, 1, SEM_UNDO}], 1 <unfinished ...>')"
    attempt 'a receive at the end' says 0 "^line 2 .*: not taken: it has no end, so strace didn't write what it asks for$" -- "$(written \
        'msgget(0x5, IPC_CREAT|0600) = 0
msgrcv(0,  <unfinished ...>')"
    attempt 'an end without a beginning' says 0 "^line 2 .*: not taken: msgrcv resumed, whose beginning isn't there$" -- "$(written \
        'msgget(0x5, IPC_CREAT|0600) = 0
<... msgrcv resumed>{mtype=1, mtext="a"}, 9, 0, 0) = 1')"
}

# written TEXT: the file that has these lines.
written() {
    printf '%s\n' "$1" >"$scratch/bad.strace"
    printf '%s\n' "$scratch/bad.strace"
}

many_processes() {
    awk 'BEGIN { for (pid = 1; pid <= 65; pid++) printf "%d msgget(IPC_PRIVATE, 0600) = %d\n", pid, pid }' >"$scratch/many.strace"
    printf '%s\n' "$scratch/many.strace"
}

# says STATUS LINE ARGUMENT..: a line of the output or of standard error is this.
says() {
    status=$1
    line=$2
    shift 2
    traced "$status" "$@" || return 1
    why="it doesn't say '$line'"
    cat "$scratch/out" "$scratch/err" >"$scratch/shown"
    grep -q -e "$line" "$scratch/shown"
}

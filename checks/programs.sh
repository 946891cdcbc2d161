# C programs over ./ipcrun: those of examples/programs print their stored output, over the program ipcsh and on the machine's own kernel; those of
# checks/programs are hostile, and print theirs over ipcsh alone. No run leaves an object in the kernel.

check_programs() { with_program programs_checks; }

programs_checks() {
    why='there is no C compiler'
    if ! command -v "${CC-cc}" >/dev/null; then
        fail programs
        return
    fi
    IPCSH_PROGRAM=$(the_program)
    export IPCSH_PROGRAM
    kernel_objects >"$scratch/objects"
    for file in examples/programs/*.c; do
        attempt "$file" prints_over_ipcsh "${file%.c}"
        attempt "$file, its script" script_is_whole "${file%.c}"
        ! has_kernel_calls || attempt "$file, on the kernel" prints_on_the_kernel "${file%.c}"
    done
    has_kernel_calls || echo 'programs: this kernel has no System V IPC, so it is no second judge'
    for name in forks crowd longest storm; do
        attempt "checks/programs/$name.c" prints_over_ipcsh "checks/programs/$name"
    done
    # Without a proof the program also looks at each access, and takes minutes for so many bytes.
    [ -n "${unproved-}" ] || attempt 'checks/programs/endless.c' prints_over_ipcsh checks/programs/endless
    attempt 'the program behind is killed' outlives_the_program_behind
    attempt 'the program behind cannot be started' goes_on_without_a_program
    attempt 'ipcrun, its status and its words' ipcrun_tells_its_status
    attempt 'a program that is linked statically' warns_of_a_static_program
    [ -n "${unproved-}" ] || unset IPCSH_PROGRAM
}

has_kernel_calls() { [ -r /proc/sysvipc/msg ]; }

# kernel_objects: all objects of System V IPC that the kernel has, by key and identifier.
kernel_objects() {
    ! has_kernel_calls || awk '{ print FILENAME, $1, $2 }' /proc/sysvipc/msg /proc/sysvipc/sem /proc/sysvipc/shm
}

leaves_no_object() {
    kernel_objects >"$scratch/objects_after"
    same 'what the kernel has' "$scratch/objects" "$scratch/objects_after"
}

# compiled BASE: the program BASE.c is $scratch/compiled.
compiled() {
    why='cc refuses it:'
    "${CC-cc}" -std=c11 -O1 -Wall -Wextra -Werror -o "$scratch/compiled" "$1.c" -lpthread 2>"$scratch/shown"
}

prints_over_ipcsh() {
    compiled "$1" || return 1
    status=0
    timeout 120 ./ipcrun --script "$scratch/script" "$scratch/compiled" >"$scratch/out" 2>"$scratch/err" || status=$?
    same 'what it prints' "$1.out" "$scratch/out" || return 1
    why="status $status"
    [ "$status" = 0 ] && leaves_no_object
}

# The script that the run left has no bad line, and all its lines are answered.
script_is_whole() {
    why='ipcsh refuses a line of it'
    timeout 120 "$IPCSH_PROGRAM" <"$scratch/script" >"$scratch/out" 2>"$scratch/shown" && [ -s "$scratch/out" ]
}

prints_on_the_kernel() {
    status=0
    timeout 60 "$scratch/compiled" >"$scratch/out" 2>"$scratch/shown" || status=$?
    same 'what it prints' "$1.out" "$scratch/out" || return 1
    why="status $status"
    [ "$status" = 0 ] && leaves_no_object
}

# A program that stands in the place of ipcsh: it leaves its process number, and is ipcsh then.
stand_in() {
    printf '#!/bin/sh\necho $$ >"%s"\nexec "%s"\n' "$scratch/pid" "$IPCSH_PROGRAM" >"$scratch/stand_in"
    chmod +x "$scratch/stand_in"
}

# Two threads wait when the program behind is killed: each call gets EIO, and one line says why.
outlives_the_program_behind() {
    stand_in
    compiled checks/programs/waits || return 1
    IPCSH_PROGRAM=$scratch/stand_in timeout 60 ./ipcrun "$scratch/compiled" >"$scratch/out" 2>"$scratch/err" &
    runner=$!
    timeout 50 sh -c 'until grep -q ready "$1" 2>/dev/null; do sleep 0.1; done; sleep 1' sh "$scratch/out" || :
    kill -9 "$(cat "$scratch/pid")"
    status=0
    wait "$runner" || status=$?
    same 'what it prints' checks/programs/waits.out "$scratch/out" || return 1
    echo 'ipcrun: the program behind has ended (without a word); calls get EIO from now on' >"$scratch/wanted"
    same 'its standard error' "$scratch/wanted" "$scratch/err" || return 1
    why="status $status, not 3"
    [ "$status" = 3 ]
}

goes_on_without_a_program() {
    compiled checks/programs/waits || return 1
    status=0
    IPCSH_PROGRAM=$scratch/none timeout 60 ./ipcrun "$scratch/compiled" >"$scratch/out" 2>"$scratch/err" || status=$?
    same 'what it prints' checks/programs/waits.out "$scratch/out" || return 1
    printf 'ipcrun: the program behind has ended (ipcsh: %s: No such file or directory); calls get EIO from now on\n' \
        "$scratch/none" >"$scratch/wanted"
    same 'its standard error' "$scratch/wanted" "$scratch/err"
}

# ends_with STATUS WORD..: ./ipcrun with these words has this status.
ends_with() {
    wanted=$1
    shift
    status=0
    ./ipcrun "$@" >"$scratch/out" 2>"$scratch/err" || status=$?
    why="status $status, not $wanted, of ./ipcrun $*"
    [ "$status" = "$wanted" ]
}

ipcrun_tells_its_status() {
    ends_with 0 true && ends_with 1 false && ends_with 7 sh -c 'exit 7' && ends_with 64 && ends_with 64 --nothing && ends_with 64 --script &&
        ends_with 64 --script "$scratch/none/script" true && ends_with 127 no-such-program && ends_with 127 ./no-such-program &&
        ends_with 126 ./VERSION && ends_with 126 ./docs && ends_with 0 --help && ends_with 0 -- true && CC=no-such-cc ends_with 70 true
}

# Where the compiler can link statically: the calls are then the kernel's, and a line says so.
warns_of_a_static_program() {
    printf 'int main(void) { return 0; }\n' >"$scratch/static.c"
    "${CC-cc}" -static -o "$scratch/static" "$scratch/static.c" 2>/dev/null || return 0
    ends_with 0 "$scratch/static" || return 1
    printf "ipcrun: %s is linked statically; its calls are the kernel's\n" "$scratch/static" >"$scratch/wanted"
    same 'its standard error' "$scratch/wanted" "$scratch/err"
}

# perl's own tests of IPC::SysV, each with how many of its lines are to be `ok`.
check_perl() { with_program perl_checks; }

perl_checks() {
    why='the tests of perl cannot be fetched'
    if ! lib/fetch_perl_tests.sh; then
        fail perl
        return
    fi
    IPCSH_PROGRAM=$(the_program)
    export IPCSH_PROGRAM
    kernel_objects >"$scratch/objects"
    attempt ipcsysv.t passes_over_ipcsh ipcsysv 39
    attempt msg.t passes_over_ipcsh msg 9
    attempt sem.t passes_over_ipcsh sem 11
    attempt shm.t passes_over_ipcsh shm 23
    [ -n "${unproved-}" ] || unset IPCSH_PROGRAM
}

# passes_over_ipcsh NAME COUNT: perl's test of this name prints its plan and as many lines `ok`, and no other but comments.
passes_over_ipcsh() {
    status=0
    (cd out/perl-tests && timeout 120 ../../ipcrun perl "$1.t") >"$scratch/out" 2>"$scratch/shown" || status=$?
    why="status $status, $(grep -c '^ok' "$scratch/out") ok"
    [ "$status" = 0 ] && [ "$(grep -c '^ok' "$scratch/out")" = "$2" ] && ! grep -q -e '^not ok' -e '# skip' "$scratch/out" && leaves_no_object
}

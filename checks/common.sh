# What the parts of ./check share. `scratch` is a folder that goes when the run ends.

# attempt NAME COMMAND..: one check, which passes where the command does. The command says why not in `why`, and may
# leave lines to be shown in $scratch/shown.
attempt() {
    name=$1
    why='it failed'
    : >"$scratch/shown"
    shift
    if "$@"; then
        passed=$((passed + 1))
    else
        fail "$name"
    fi
}

# fail NAME: counts and prints a failure.
fail() {
    failed=$((failed + 1))
    printf 'FAILED %s: %s\n' "$1" "$why"
    sed 's/^/    /' "$scratch/shown"
}

# same WHAT WANTED PRINTED: two files are alike. Where they aren't, their first lines that differ are shown.
same() {
    why="$1 differs: - wanted, + printed"
    ! diff -U 1 "$2" "$3" >"$scratch/diff" || return 0
    sed -n '3,12p' "$scratch/diff" >"$scratch/shown"
    return 1
}

# in_group COMMAND..: runs a command that takes minutes, with all that it starts in a process group of its own, so that a
# signal to this script ends it.
in_group() {
    setsid "$@" &
    group=$!
    result=0
    wait "$group" || result=$?
    group=
    return "$result"
}

end_group() {
    [ -z "$group" ] || kill -s TERM -- "-$group" 2>/dev/null || :
}

# built CRATE: its program is current, after a build where need be, of which a run makes one at most; none where rt ci has run, which would have
# built it.
tried=
has_run_ci=
built() {
    ! is_current "$1" || return 0
    if [ -n "$has_run_ci" ]; then
        why='rt ci has not proved and built it'
        return 1
    fi
    why="it is not proved and built; the whole log is out/$1.failed.log"
    case " $tried " in
    *" $1 "*) ;;
    *)
        tried="$tried $1"
        in_group sh -c "$build_apart" sh "$top" "$1" && return 0
        ;;
    esac
    tail -n 5 "out/$1.failed.log" >"$scratch/shown" 2>&1 || :
    return 1
}

# has_program CRATE: there is a program of the crate to run, the proved one but under --unproved.
has_program() {
    if [ -z "${unproved-}" ]; then
        built "$1"
        return
    fi
    why='it cannot be built without a proof'
    is_kept "$1" || keep "$1"
}

# program_to_run CRATE: the file of this program.
program_to_run() {
    if [ -n "${unproved-}" ]; then unproved_of "$1"; else program_of "$1"; fi
}

# the_program: that of ipcsh, which is run by itself where ./ipcsh would look at all sources each time.
the_program() {
    program_to_run ipcsh_cli
}

# with_crate CRATE COMMAND..: the checks of a part that runs the program of the crate. Without it that is one failure.
with_crate() {
    : >"$scratch/shown"
    crate=$1
    shift
    if has_program "$crate"; then
        "$@"
    else
        fail "$crate"
    fi
}

# with_program COMMAND..: the checks of a part that runs ./ipcsh.
with_program() {
    with_crate ipcsh_cli "$@"
}

# without_reader COMMAND..: its standard output is a pipe that nobody reads any more.
without_reader() {
    python3 -c '
import os, subprocess, sys
ends = os.pipe()
os.close(ends[0])
sys.exit(subprocess.run(sys.argv[1:], stdout=ends[1]).returncode)' "$@"
}

# fails_to_write NAME COMMAND: the status is 2, and on standard error is that it can't write, under this name, and nothing else.
fails_to_write() {
    status=0
    eval "$2" 2>"$scratch/err" || status=$?
    why="status $status, not 2"
    [ "$status" = 2 ] || return 1
    echo "$1: write failed" >"$scratch/wanted"
    same 'its standard error' "$scratch/wanted" "$scratch/err"
}

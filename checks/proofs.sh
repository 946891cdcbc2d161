# Proofs and times.

programs='ipcsh_cli ipcwho ipcsh_explain ipcsh_journal ipc_bench clients_bench thread_bench member_bench journal_parts ipcsh_c'

check_bench() {
    attempt bench measures
    attempt 'bench threads' measures_threads
    attempt 'memory of begin and exit' begins_in_flat_memory
    ! command -v valgrind >/dev/null || attempt 'bench instructions' counts_instructions
    ! command -v valgrind >/dev/null || ! command -v cc >/dev/null || attempt 'bench c' counts_calls_from_c
}

# The instructions of docs/SPEED.md are those that valgrind counts, within a fifth, since they differ between environments.
# Those of more than 64 objects, bytes or the like take long, and aren't counted here.
counts_instructions() {
    built ipc_bench && built clients_bench && built member_bench && built ipcsh_cli || return 1
    ./bench instructions 64 >"$scratch/out" || return 1
    why='docs/SPEED.md has other figures, or less than ten of them:'
    awk -f lib/instructions.awk "$scratch/out" docs/SPEED.md >"$scratch/shown"
    [ ! -s "$scratch/shown" ] || return 1
    waiting_costs_little "$scratch/out" && clients_cost_little "$scratch/out"
}

# So are those of docs/C.md.
counts_calls_from_c() {
    built member_bench || return 1
    built ipcsh_c || return 1
    ./bench c >"$scratch/out" || return 1
    why='docs/C.md has other figures, or less than five rows of them:'
    awk -f lib/c_instructions.awk "$scratch/out" docs/C.md >"$scratch/shown"
    [ ! -s "$scratch/shown" ]
}

# Calls of others that wait elsewhere cost a call at most a tenth more: none of them is tried.
waiting_costs_little() {
    why='beside 62 calls that wait elsewhere a call takes more than 1.1 times its instructions, or none was counted:'
    awk '
        /while others wait|semop beside waiting/ { name = substr($0, 1, 35); of[name, $(NF - 2)] = $NF; names[name] }
        END {
            for (name in names) if (of[name, 62] > 0 && of[name, 62] <= 1.1 * of[name, 0]) fine++; else print name, of[name, 0], of[name, 62]
            if (fine != 2) print fine + 0 " kinds of calls"
        }' "$1" >"$scratch/shown"
    [ ! -s "$scratch/shown" ]
}

# Nor do 4,094 clients more that have ended or wait elsewhere.
clients_cost_little() {
    why='of 4,096 clients a call takes more than 1.1 times the instructions of one of 2, or less than five were counted:'
    awk '
        /^Space::apply.* (2|4096) clients / { name = substr($0, 1, 35); of[name, $(NF - 2)] = $NF; names[name] }
        END {
            for (name in names) if (of[name, 4096] > 0 && of[name, 4096] <= 1.1 * of[name, 2]) fine++; else print name, of[name, 2], of[name, 4096]
            if (fine != 5) print fine + 0 " kinds of calls"
        }' "$1" >"$scratch/shown"
    [ ! -s "$scratch/shown" ]
}

# A client of 4,096 begins and exits 100,000 times in the memory in which it does so 1,000 times: its journal isn't kept.
begins_in_flat_memory() {
    built clients_bench || return 1
    program=$(program_of clients_bench)
    least=$(least_memory "$program" 1000 begin 4096)
    why="100,000 times begin and exit don't fit into the $least KiB in which 1,000 just do"
    fits_in "$least" "$program" 100000 begin 4096
}

measures() {
    built ipc_bench || return 1
    ./bench 1000 >"$scratch/out" || return 1
    rows=$(wc -l <crates/ipc_bench/stdout)
    why="it prints no table of $rows rows"
    [ "$(grep -c '\.' "$scratch/out")" = "$rows" ]
}

# Two rows of a head, and one for each of 11 tasks and 5 numbers of clients. Where the kernel is measured, it is in each.
measures_threads() {
    built thread_bench || return 1
    mkdir "$scratch/drawn"
    ./bench threads 200 "$scratch/drawn" >"$scratch/out" || return 1
    why='it prints no table of 55 rows'
    [ "$(sed 1,2d "$scratch/out" | grep -c '^[a-z].*\.\.')" = 55 ] || return 1
    why='it draws no pictures'
    for picture in threads one-object one-client hand-over; do
        [ "$(tail -n 1 "$scratch/drawn/$picture.svg")" = '</svg>' ] || return 1
    done
}

# programs_made: what the programs are made of.
programs_made() {
    for crate in $programs; do sources_of "$crate"; done
}

# rt ci, with what it counts. It builds the programs, and proves the library for C, which is built then.
check_proofs() {
    mkfifo "$scratch/ci.pipe"
    tee "$scratch/ci" <"$scratch/ci.pipe" &
    before=$(programs_made)
    touch "$scratch/began"
    status=0
    in_group rt ci </dev/null >"$scratch/ci.pipe" || status=$?
    wait
    has_run_ci=yes
    count_of 'rt ci' "$(tail -n 1 "$scratch/ci")" "$status"
    [ "$status" != 0 ] || attempt 'library for C' builds_the_library
    [ "$before" != "$(programs_made)" ] || note_programs
}

builds_the_library() {
    why='it is not built over what rt ci has proved:'
    in_group python3 lib/crates.py archive ipcsh_c >"$scratch/shown" 2>&1
}

# count_of COMMAND LINE STATUS: adds what the last line of a command counts.
count_of() {
    case $2 in
    [0-9]*' passed, '[0-9]*' failed')
        passed=$((passed + ${2%% passed,*}))
        counted=${2##* passed, }
        failed=$((failed + ${counted%% failed}))
        if [ "$3" != 0 ] && [ "${counted%% failed}" = 0 ]; then
            failed=$((failed + 1))
            printf 'FAILED %s: status %s\n' "$1" "$3"
        fi
        ;;
    *)
        failed=$((failed + 1))
        printf 'FAILED %s: it ended without a count\n' "$1"
        ;;
    esac
}

# The programs that rt ci has built are current, and the library that was built over it.
note_programs() {
    for crate in $programs; do
        if [ -n "$(find "$(program_of "$crate")" -newer "$scratch/began" 2>/dev/null)" ]; then
            note "$crate"
        fi
    done
}

# ipcsh COMMAND: checks/front.table has command lines, with the status of each and the first lines that it prints, and checks/front/lines.table lines of
# scripts; and what a line can't show.

check_front() { with_program with_crate ipcwho with_crate ipcsh_explain with_crate ipcsh_journal front_checks; }

front_checks() {
    holds_table checks/front.table
    holds_table checks/front/lines.table
    attempt 'helps of commands' helps_are_short
    attempt 'rules and refusals' rules_are_whole
    attempt 'lines of a script' why_tells_each_line
    attempt 'lines as they were written' lines_are_told_as_written
    attempt 'three tasks of a new user' tasks_are_done
    attempt 'rows as JSON' rows_are_objects
    attempt 'output as JSON' prints_objects
    attempt 'who by credentials' shares_lines
    attempt 'colours' is_coloured
    attempt 'an open pipe' front_answers_each_line
    attempt 'an interrupt' front_is_interrupted
}

# holds_table FILE: each command begins and ends as it has it.
holds_table() {
    command=
    while IFS= read -r line; do
        case $line in
        '$ '*)
            end_of_row
            command=${line#??}
            : >"$scratch/first"
            ;;
        '' | '#'*) ;;
        *) printf '%s\n' "$line" >>"$scratch/first" ;;
        esac
    done <"$1"
    end_of_row
}

end_of_row() {
    [ -z "$command" ] || attempt "$command" begins_so
}

# line LINE: runs a script in which this line follows those of two clients, and prints the last row. easy LINE: the same, as people write it.
line() { line_by '' "$1"; }
easy() { line_by 'run --easy' "$1"; }
line_by() {
    printf 'client a 1 1\nclient p 101 4\n%b\n' "$2" >"$scratch/line"
    ended=0
    ipcsh $1 - <"$scratch/line" >"$scratch/line.rows" || ended=$?
    tail -n 1 "$scratch/line.rows"
    return "$ended"
}

# begins_so: what $scratch/first has of a command: its status, and the first line of each stream that isn't empty, behind `> ` and `! `.
begins_so() {
    status=0
    PATH=$top:$PATH scratch=$scratch timeout 60 sh -c '. checks/common.sh && . checks/front.sh && eval "$1"' sh "$command" </dev/null >"$scratch/out" 2>"$scratch/err" || status=$?
    {
        echo "$status"
        sed -n '1s/^/> /p' "$scratch/out"
        sed -n '1s/^/! /p' "$scratch/err"
    } >"$scratch/began"
    same 'its status, or a first line,' "$scratch/first" "$scratch/began"
}

# The list and each help fit 24 lines of 80 columns, and each command of the list has one, by `help`, --help and -h.
helps_are_short() {
    ./ipcsh help >"$scratch/out"
    is_short "$scratch/out" || return 1
    sed -n 's/^  \([a-z][a-z]*\) .*/\1/p' "$scratch/out" >"$scratch/commands"
    ls lib/front/help >"$scratch/wanted"
    LC_ALL=C sort "$scratch/commands" | same 'the list of commands' "$scratch/wanted" /dev/stdin || return 1
    for name in $(cat "$scratch/commands"); do
        ./ipcsh help "$name" >"$scratch/out"
        is_short "$scratch/out" || return 1
        for word in -h --help; do
            ./ipcsh "$name" $word | same "$name $word" "$scratch/out" /dev/stdin || return 1
        done
    done
}

is_short() {
    why='it does not fit the screen:'
    awk 'length > 80 || NR > 24' "$1" >"$scratch/shown"
    [ ! -s "$scratch/shown" ]
}

# The list has as many rules and refusals as ./check --numbers counts, and each is told by its number or its name.
rules_are_whole() {
    ./ipcsh rule >"$scratch/out"
    sed -n '/^Refusals/,$d; s/^ *\([0-9][0-9]*\) .*/\1/p' "$scratch/out" >"$scratch/rules"
    sed -n '1,/^Refusals/d; s/^  \([a-z-][a-z-]*\) .*/\1/p' "$scratch/out" >"$scratch/refusals"
    echo "$(wc -l <"$scratch/rules") rules of behaviour, $(grep -c -v -x memory "$scratch/refusals") refusals" >"$scratch/counted"
    numbers | grep ' rules of behaviour' | same 'its count' /dev/stdin "$scratch/counted" || return 1
    why='one of them is not told'
    ./ipcsh rule $(cat "$scratch/rules" "$scratch/refusals") >"$scratch/out" 2>"$scratch/shown"
}

# why on each line of a script prints the rows of the whole script, each with its line and its notes.
why_tells_each_line() {
    script=examples/explained/two-locks.ipcsh
    for number in $(seq "$(wc -l <"$script")"); do
        status=0
        ./ipcsh why "$script" "$number" 2>"$scratch/err" || status=$?
        why="status $status on line $number"
        [ "$status" -le 1 ] || return 1
    done >"$scratch/out"
    same 'the rows of all lines' "${script%.ipcsh}.out" "$scratch/out"
}

# What is told of the lines of a script that is rewritten names those that were written.
lines_are_told_as_written() {
    script=checks/front/moved
    status=0
    ./ipcsh run --easy $script.ipcsh >"$scratch/out" 2>"$scratch/err" || status=$?
    why="status $status, not 1"
    [ "$status" = 1 ] && same 'its rows' $script.run "$scratch/out" && same 'its hints' $script.said "$scratch/err" || return 1
    ./ipcsh explain $script.ipcsh >"$scratch/out" 2>/dev/null || :
    same 'what explain prints' $script.explained "$scratch/out"
}

# A new user's three tasks, as he types them: checks/front/tasks has two sessions of the prompt and a program in C. At most three lines are refused
# in all, and each answer fits a screen. The program runs where the library is built.
tasks_are_done() {
    : >"$scratch/refused"
    answers denied ':why' 'class group.* supplementary group' && answers deadlock ':who' 'deadlock.*p1 waits for p2.*p2 waits for p1' || return 1
    if command -v "${CC-cc}" >/dev/null; then
        "${CC-cc}" -std=c11 -Wall -Wextra -I include -c -o "$scratch/server.o" checks/front/tasks/server.c 2>"$scratch/err" || :
        grep -e 'error:' -e 'warning:' "$scratch/err" >>"$scratch/refused" || :
        ! is_current ipcsh_c || [ ! -f out/c/libipcsh.a ] || serves || return 1
    fi
    why='more than three lines are refused:'
    cp "$scratch/refused" "$scratch/shown"
    [ "$(wc -l <"$scratch/refused")" -le 3 ]
}

# answers TASK WORD TEXT: what this word of the session is answered has this text, and fits 24 lines of 80 columns. Users that this machine hasn't go by their numbers.
answers() {
    cp checks/front/tasks/$1.typed "$scratch/typed"
    { getent passwd www-data && getent group www-data adm; } >/dev/null 2>&1 || sed -i 's/groups=adm/groups=4/; s/ adm$/ 4/; s/www-data www-data www-data/www-data 33 33/' "$scratch/typed"
    ./ipcsh prompt <"$scratch/typed" >"$scratch/out" 2>/dev/null
    grep -e '^column [0-9]*: [^w]' -e ' is no command' -e ' is no call' "$scratch/out" >>"$scratch/refused" || :
    awk -v word="$2" '/^t=.*> / { on = $NF == word; next } on' "$scratch/out" >"$scratch/shown"
    why="$2 of the task $1 is another answer:"
    tr '\n' ' ' <"$scratch/shown" | grep -q "$3" || return 1
    why="the answer to the task $1 does not fit a screen:"
    [ "$(awk '{ rows += 1 + int((length - 1) / 80) } END { print rows + 0 }' "$scratch/shown")" -le 24 ]
}

# serves: the program runs over the library.
serves() {
    why='the server is not linked:'
    "${CC-cc}" -o "$scratch/server" "$scratch/server.o" out/c/libipcsh.a -lpthread 2>"$scratch/shown" || return 1
    timeout 60 "$scratch/server" >"$scratch/out"
    same 'what the server prints' checks/front/tasks/server.out "$scratch/out"
}

# The rows of every stored script become objects of JSON, and these the rows again.
rows_are_objects() {
    set -- crates/rows/data/*.out examples/*.out
    cat "$@" >"$scratch/wanted"
    why='it fails:'
    python3 checks/json_rows.py "$@" >"$scratch/out" 2>"$scratch/shown" || return 1
    same 'the rows of the objects' "$scratch/wanted" "$scratch/out"
}

# Each line of these is an object.
prints_objects() {
    why='a line is no object of JSON, or there is none:'
    for words in 'run examples/groups-and-capabilities.ipcsh' 'run --threads examples/threads.ipcsh' 'explain examples/explained/two-locks.ipcsh' \
        'journal examples/waiting.ipcsh' 'who --proc crates/ipcwho/data/proc' 'who --proc crates/ipcwho/data/proc queue 3' \
        'who --script examples/groups-and-capabilities.ipcsh queue 0' 'orphans --proc crates/ipcwho/data/proc' 'rule' 'rule 38 owner-bits' \
        'why examples/explained/two-locks.ipcsh 11' 'why --proc crates/ipcwho/data/proc 4711 shm 6' 'replay crates/ipcsh_journal/data/altered.journal' \
        'trace examples/traces/undo.strace'; do
        set -- $words
        command=$1
        shift
        ./ipcsh "$command" --json "$@" >"$scratch/out" 2>"$scratch/err" || :
        python3 -c '
import json, sys
found = [json.loads(it) for it in sys.stdin]
sys.exit(not found or not all(isinstance(it, dict) for it in found) or sum(list(it) == ["text"] for it in found) > 1)' <"$scratch/out" 2>"$scratch/shown" || {
            echo "ipcsh $command --json $*" >>"$scratch/shown"
            return 1
        }
    done
}

# Processes with the same credentials share a line of who, with the answers that ipcwho has for each; of one that has ended nothing is said, one of another
# IPC namespace is left out and counted, and where there is no object that is said.
shares_lines() {
    rm -rf "$scratch/proc"
    cp -r crates/ipcwho/data/proc "$scratch/proc"
    cp -r "$scratch/proc/4711" "$scratch/proc/4720"
    sed -i 's/postgres/psql/' "$scratch/proc/4720/status"
    mkdir "$scratch/proc/4721" "$scratch/proc/self/ns" "$scratch/proc/4713/ns"
    ln -s 'ipc:[1]' "$scratch/proc/self/ns/ipc"
    ln -s 'ipc:[2]' "$scratch/proc/4713/ns/ipc"
    status=0
    ./ipcsh who --proc "$scratch/proc" >"$scratch/out" 2>"$scratch/err" || status=$?
    why="status $status, not 0"
    [ "$status" = 0 ] || return 1
    echo 'ipcsh who: processes of other IPC namespaces, which have objects of their own, are left out: 1' >"$scratch/wanted"
    grep -v unproved "$scratch/err" | same 'its standard error' "$scratch/wanted" /dev/stdin || return 1
    ./ipcwho --proc "$scratch/proc" 1 4711 4712 4714 4720 2>/dev/null | sed 's/^  pid \([0-9]*\) (.*): read/  \1: read/' >"$scratch/wanted"
    # Each pid of a line on a line of its own.
    awk '!/^  pids? / { print; next }
        { head = $0; sub(/: read.*/, "", head); sub(/ \(.*/, "", head); sub(/^  pids? /, "", head)
          answers = $0; sub(/.*: read/, ": read", answers); count = split(head, pid, " ")
          for (i = 1; i <= count; i++) print "  " pid[i] answers }' "$scratch/out" | sort >"$scratch/each"
    sort "$scratch/wanted" | same 'the lines of each process' /dev/stdin "$scratch/each" || return 1
    why='two processes do not share a line:'
    grep '^  pids 4711 4720 (postgres, psql), user 100, group 10: ' "$scratch/out" >"$scratch/shown" || return 1
    for kind in msg sem shm; do
        sed -i 1q "$scratch/proc/sysvipc/$kind"
    done
    ./ipcsh who --proc "$scratch/proc" 2>/dev/null >"$scratch/out"
    echo 'no objects' | same 'what it prints' /dev/stdin "$scratch/out"
}

# Refusals are red and waits yellow where that is asked for, or at a terminal that has colours; without the colours the rows are as they are.
is_coloured() {
    script=examples/waiting.ipcsh
    red=$(printf '\033[31m')
    yellow=$(printf '\033[33m')
    ./ipcsh run --color=always $script >"$scratch/out"
    why='its refusals are not red, or its waits not yellow:'
    sed -n 1,9p "$scratch/out" >"$scratch/shown"
    [ "$(grep -c "^$red[0-9.]* [a-z]* error " "$scratch/out")" = "$(grep -c ' error ' "${script%.ipcsh}.out")" ] || return 1
    [ "$(grep -c "^$yellow[0-9.]* [a-z]* waits" "$scratch/out")" = "$(grep -c ' waits$' "${script%.ipcsh}.out")" ] || return 1
    sed 's/\x1b\[[0-9]*m//g' "$scratch/out" | same 'what it prints but for colours' "${script%.ipcsh}.out" /dev/stdin || return 1
    for setting in NO_COLOR=1 TERM=dumb TERM=xterm; do
        wanted=$([ $setting = TERM=xterm ] && echo yes || echo no)
        why="at a terminal with $setting it is coloured otherwise:"
        env -u NO_COLOR TERM=xterm $setting python3 -c '
import os, pty, sys
text = b""
def keep(fd):
    global text
    try:
        part = os.read(fd, 4096)
    except OSError:
        part = b""
    text += part
    return part
pty.spawn(sys.argv[1:], keep)
print("yes" if b"\x1b[31m" in text else "no")' ./ipcsh run $script </dev/null >"$scratch/shown" 2>&1 || return 1
        [ "$(tail -n 1 "$scratch/shown")" = $wanted ] || return 1
    done
}

# A line through an open pipe is answered before the next one is written, where a pipe is read too.
front_answers_each_line() {
    mkfifo "$scratch/front.lines" "$scratch/front.rows"
    timeout 60 ./ipcsh run - <"$scratch/front.lines" >"$scratch/front.rows" 2>/dev/null &
    exec 3>"$scratch/front.lines" 4<"$scratch/front.rows"
    answered=0
    ask 'bob' 'line 1: unknown-client' && ask 'bob' 'line 2: unknown-client' || answered=1
    exec 3>&- 4<&-
    wait $! || :
    rm "$scratch/front.lines" "$scratch/front.rows"
    [ "$answered" = 0 ]
}

# A signal to the front ends the program behind it, and the front as that ends.
front_is_interrupted() {
    mkfifo "$scratch/front.lines"
    ./ipcsh run - <"$scratch/front.lines" >"$scratch/out" 2>/dev/null &
    front=$!
    exec 3>"$scratch/front.lines"
    echo 'bob' >&3
    for turn in $(seq 100); do [ -s "$scratch/out" ] || sleep 0.1; done
    kill -s TERM "$front"
    status=0
    wait "$front" 2>/dev/null || status=$?
    why='the program behind it goes on'
    ! (echo >&3) 2>/dev/null || return 1
    exec 3>&-
    rm "$scratch/front.lines"
    why="status $status, not 143"
    [ "$status" = 143 ]
}

# ./ipcsh_fmt: good lines of every stored script, and random ones (lib/fmt_lines.py), stay as they are. checks/fmt has scripts as people
# write them, NAME.easy, the exact ones, NAME.exact, with what ./ipcsh prints for these, and NAME.said, what is said of words that can't be read.

check_fmt() { with_program with_crate ipcsh_explain fmt_checks; }

fmt_checks() {
    attempt 'stored scripts stay' stored_scripts_stay
    attempt 'scripts of the documents stay' document_scripts_stay
    for file in checks/fmt/*.easy; do
        attempt "$file" becomes_exact "${file%.easy}"
        attempt "${file%.easy}.exact by ./ipcsh" matches "${file%.easy}" exact "$(the_program)"
        attempt "$file by ipcsh run --easy and explain" is_read_alike "${file%.easy}"
    done
    attempt 'lines that are refused' refused_lines_are_taken
    attempt 'columns of rewritten lines' columns_are_told
    attempt 'exact scripts stay' exact_scripts_stay
    attempt 'table of docs/FMT.md' table_is_true
    attempt 'users and groups of this machine' accounts_are_known
    attempt 'random lines' random_lines_stay
    attempt '100,000 lines' is_rewritten_in_time
    fmt_words
    fmt_streams
}

# stay FILE..: each is left as it is, byte for byte. One run looks at all of them.
stay() {
    why='a script is rewritten:'
    ! timeout 60 ./ipcsh_fmt --check "$@" >"$scratch/shown" 2>&1 || return 0
    for file; do
        ./ipcsh_fmt --check "$file" >>"$scratch/shown" 2>&1 || printf '%s\n' "$file" >>"$scratch/shown"
    done
    return 1
}

# without_bad_lines SCRIPT ROWS: the script without the lines that its rows call bad.
without_bad_lines() {
    LC_ALL=C sed -n 's/^line \([0-9]*\): .*/\1d/p' "$2" >"$scratch/bad.sed"
    LC_ALL=C sed -f "$scratch/bad.sed" "$1"
}

stored_scripts_stay() {
    mkdir -p "$scratch/good"
    for file in examples/*.ipcsh examples/explained/*.ipcsh crates/rows/data/*.in; do
        without_bad_lines "$file" "${file%.*}.out" >"$scratch/good/${file##*/}"
    done
    stay "$scratch/good"/*
}

document_scripts_stay() {
    mkdir -p "$scratch/fmt" "$scratch/from-documents"
    cut_blocks "$scratch/fmt" $documents
    for block in $(grep -l -x ipcsh "$scratch"/fmt/*.kind); do
        number=$(basename "$block" .kind)
        rows=$(printf '%s/%04d.body' "$scratch/fmt" "$(expr "$number" + 1)")
        without_bad_lines "$scratch/fmt/$number.body" "$rows" >"$scratch/from-documents/$number"
    done
    stay "$scratch/from-documents"/*
}

# is_read_alike BASE: ipcsh run --easy and ipcsh explain print the same of a script as people write it and of the exact one, but for the lines above rows
# and the numbers of bad lines, which are those of each.
is_read_alike() {
    for words in 'run --easy' explain; do
        for file in "$1.easy" "$1.exact"; do
            status=0
            timeout 60 ./ipcsh $words "$file" >"$scratch/rows" 2>"$scratch/shown" || status=$?
            why="status $status of ipcsh $words $file"
            [ "$status" -le 1 ] || return 1
            sed '/^> /d; s/^line [0-9]*: /line: /; s/^    column [0-9]*: /    /; s/\bline [0-9]*/line/' "$scratch/rows" >"$scratch/read${file##*.}"
        done
        same "what ipcsh $words prints" "$scratch/readexact" "$scratch/readeasy" || return 1
    done
}

# Each line of checks/fmt/refused, with \n between two, is bad as it stands, and good when it is rewritten.
refused_lines_are_taken() {
    count=0
    while IFS= read -r line; do
        printf 'client p 1 1\n%b\n' "$(printf '%s' "$line" | sed 's/\\x/\\\\x/g')" >"$scratch/easy"
        why="it is taken as it stands: $line"
        ! "$(the_program)" <"$scratch/easy" >"$scratch/shown" 2>/dev/null || return 1
        formatted 0 "$scratch/easy" || return 1
        why="it is refused when it is rewritten: $line"
        "$(the_program)" <"$scratch/out" >"$scratch/shown" 2>&1 || return 1
        count=$((count + 1))
    done <checks/fmt/refused
    why="these are $count lines"
    [ "$count" -ge 20 ]
}

columns_are_told() {
    why='a word is told elsewhere:'
    python3 checks/fmt_columns.py checks/fmt/*.easy checks/front/moved.ipcsh >"$scratch/shown" 2>&1 && [ ! -s "$scratch/shown" ]
}

# Those that come of scripts without a fault.
exact_scripts_stay() {
    set --
    for file in checks/fmt/*.exact; do
        [ -f "${file%.exact}.said" ] || set -- "$@" "$file"
    done
    stay "$@"
}

# formatted STATUS ARGUMENT..: runs ./ipcsh_fmt, which is to end with this status.
formatted() {
    wanted=$1
    shift
    status=0
    timeout 60 ./ipcsh_fmt "$@" >"$scratch/out" 2>"$scratch/err" || status=$?
    why="status $status, not $wanted: ./ipcsh_fmt $*"
    cp "$scratch/err" "$scratch/shown"
    [ "$status" = "$wanted" ]
}

# becomes_exact BASE: a file, and the same on standard input. The status is 1 where something can't be read.
becomes_exact() {
    said=/dev/null
    wanted=0
    if [ -f "$1.said" ]; then
        said=$1.said
        wanted=1
    fi
    formatted "$wanted" "$1.easy" && same 'its exact script' "$1.exact" "$scratch/out" || return 1
    same 'its standard error' "$said" "$scratch/err" || return 1
    formatted "$wanted" <"$1.easy" && same 'its exact script from standard input' "$1.exact" "$scratch/out" || return 1
    formatted 1 --check - <"$1.easy" || return 1
    why='--check prints something'
    [ ! -s "$scratch/out" ]
}

# What is written there becomes what stands beside it. The lines are one script.
table_is_true() {
    for column in 1 2; do
        sed -n 's/^| `\(.*\)` | `\(.*\)` |$/\'"$column"'/p' docs/FMT.md | sed 's/\\|/|/g' >"$scratch/column$column"
    done
    formatted 0 "$scratch/column1" && [ -s "$scratch/column1" ] && same 'its second column' "$scratch/column2" "$scratch/out"
}

# Each name of a user and of a group becomes the number that getent(1) has.
accounts_are_known() {
    {
        echo 'client a 0 0'
        getent passwd | awk -F : '/^[A-Za-z_]/ && !seen[$1]++ { print "a setcreds " $1 " 0" }'
        getent group | awk -F : '/^[A-Za-z_]/ && !seen[$1]++ { print "a setcreds 0 " $1 " groups=" $1 }'
    } >"$scratch/easy"
    {
        echo 'client a 0 0'
        getent passwd | awk -F : '/^[A-Za-z_]/ && !seen[$1]++ { print "a setcreds " $3 " 0" }'
        getent group | awk -F : '/^[A-Za-z_]/ && !seen[$1]++ { print "a setcreds 0 " $3 " groups=" $3 }'
    } >"$scratch/wanted"
    formatted 0 "$scratch/easy" && same 'the numbers' "$scratch/wanted" "$scratch/out"
}

# Those of 5,000 that the program takes.
random_lines_stay() {
    why='a good line is rewritten:'
    timeout 120 python3 lib/fmt_lines.py "$(the_program)" 1 5000 >"$scratch/shown"
}

is_rewritten_in_time() {
    awk 'BEGIN {
        print "client www-data root root"
        for (i = 1; i < 20000; i++) {
            print "www-data msgget " i " IPC_CREAT|0640 # make it\nwww-data msgsnd " i " 1 \"text " i "\" IPC_NOWAIT"
            print "www-data semop 0 0:-1:SEM_UNDO 1:+1\nwww-data shmget " i " 16K 0600\nwww-data rmid queue " i
        }
    }' >"$scratch/easy"
    why='it takes more than 20 s'
    timeout 20 ./ipcsh_fmt "$scratch/easy" >"$scratch/out" 2>"$scratch/shown" || return 1
    why="its last line is another: $(tail -n 1 "$scratch/out")"
    [ "$(tail -n 1 "$scratch/out")" = 'wwwdata rmid q 19999' ]
}

# fmt_says STATUS TEXT ARGUMENT..: it ends with this status, and the first line that it prints is this one.
fmt_says() {
    status=$1
    line=$2
    shift 2
    formatted "$status" "$@" || return 1
    why="its first line isn't '$line'"
    cat "$scratch/out" "$scratch/err" >"$scratch/shown"
    [ "$(head -n 1 "$scratch/shown")" = "$line" ]
}

# The words of the command line, and files that can't be read, besides which the others are rewritten.
fmt_words() {
    for word in -h --help; do attempt "$word" fmt_says 0 'usage: ipcsh_fmt [--check] [FILE..]' "$word"; done
    for word in -V --version; do attempt "$word" fmt_says 0 "ipcsh_fmt $(cat VERSION)" "$word"; done
    attempt 'another word' fmt_says 3 'ipcsh_fmt: unrecognized arguments: --chek; ./ipcsh_fmt --help has the words' --chek
    attempt 'no such file' fmt_says 2 'ipcsh_fmt: checks/nosuch: No such file or directory' checks/nosuch
    attempt 'a folder' fmt_says 2 'ipcsh_fmt: checks: Is a directory' checks
    attempt 'files of which one is not there' reads_the_others
    attempt 'standard input closed' fmt_says 2 'ipcsh_fmt: standard input: Bad file descriptor' <&-
    attempt 'standard input a folder' fmt_says 2 'ipcsh_fmt: standard input: Is a directory' <checks
}

reads_the_others() {
    formatted 2 checks/fmt/names.easy checks/nosuch checks/fmt/texts.easy || return 1
    cat checks/fmt/names.exact checks/fmt/texts.exact >"$scratch/wanted"
    same 'what it prints' "$scratch/wanted" "$scratch/out"
}

fmt_streams() {
    attempt 'a full disk' fails_to_write ipcsh_fmt './ipcsh_fmt checks/fmt/first.easy >/dev/full'
    attempt 'standard output closed' fails_to_write ipcsh_fmt './ipcsh_fmt checks/fmt/first.easy >&-'
    attempt 'a reader that has gone' fails_to_write ipcsh_fmt 'without_reader ./ipcsh_fmt checks/fmt/first.easy'
    attempt '--help on a full disk' fails_to_write ipcsh_fmt './ipcsh_fmt --help >/dev/full'
}

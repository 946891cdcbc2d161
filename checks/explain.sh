# ipcsh_explain: over every script of examples/ and crates/rows/data it prints the stored rows once its lines and notes are taken out, the line above
# each row is that of the script, no note is wider than a screen, and each refusal, bad line, wait and end of a wait has one; the stored explanations of crates/ipcsh_explain/data and of
# examples/; the stored pictures of docs/pictures; and how long it takes beside ipcsh.

check_explain() { with_program with_crate ipcsh_explain explain_checks; }

explain_checks() {
    for file in examples/*.ipcsh; do
        attempt "explained $file" explains "$file" "${file%.ipcsh}"
    done
    for file in crates/rows/data/*.in; do
        attempt "explained $file" explains "$file" "${file%.in}"
    done
    attempt 'lines above the rows of these' lines_stand_above
    for file in crates/ipcsh_explain/data/*.in examples/explained/*.ipcsh; do
        attempt "$file" matches "${file%.*}" "${file##*.}" "$(program_to_run ipcsh_explain)"
    done
    for file in examples/*.ipcsh examples/explained/*.ipcsh crates/ipcsh_explain/data/*.in; do
        attempt "picture of $file" draws "$file"
    done
    for picture in docs/pictures/*.svg; do
        attempt "$picture" is_stored "$picture"
    done
    attempt 'pictures are XML' are_well_formed
    attempt 'changes that would grant 1,000 random refusals' changes_grant
    attempt 'ipcsh_explain --svg, a file that cannot be written' draws_nowhere
    attempt 'ipcsh_explain --svg, a script in place of the picture' keeps_file examples/waiting.ipcsh
    attempt 'ipcsh_explain --svg, a file that is shorter than its beginning' keeps_file crates/ipcsh_explain/stdin
    attempt 'ipcsh_explain --svg, the script twice' keeps_script
    attempt 'ipcsh_explain --svg, over a picture and an empty file' draws_again
    attempt 'ipcsh_explain --svg, into a pipe' draws_into_pipe
    attempt 'ipcsh_explain --svg with --who' takes_one_option
    attempt 'ipcsh_explain --who, no such object and a bad line' finds_no_object
    attempt 'ipcsh_explain of a file' explains_a_file
    attempt 'ipcsh_explain of no file' explains_no_file
    attempt 'ipcsh_explain, output that cannot be written' explain_cannot_write
    [ -n "${unproved-}" ] || ! command -v valgrind >/dev/null || attempt 'ipcsh_explain, 30,000 lines in six times the instructions of ipcsh' explains_in_time
}

# explains SCRIPT BASE: without the lines and the notes its output is that of BASE.out, with the status of BASE.status, and each row that wants
# a note has one. It is kept for lines_stand_above. The scripts of threads are others.
explains() {
    [ ! -f "$2.words" ] || return 0
    wanted=0
    [ ! -f "$2.status" ] || wanted=$(cat "$2.status")
    status=0
    timeout 60 "$(program_to_run ipcsh_explain)" <"$1" >"$scratch/explained" 2>"$scratch/err" || status=$?
    mkdir -p "$scratch/explained-all"
    cp "$scratch/explained" "$scratch/explained-all/$(echo "$1" | tr / _)"
    grep -v -e '^> ' -e '^    ' "$scratch/explained" >"$scratch/out" || :
    same 'its output without the lines and the notes' "$2.out" "$scratch/out" || return 1
    why="status $status, not $wanted"
    [ "$status" = "$wanted" ] || return 1
    why='a row has no note:'
    each_has_a_note "$scratch/explained" >"$scratch/shown"
}

# What was printed of the scripts so far has the lines of the scripts above its rows, and nothing wider than a screen.
lines_stand_above() {
    set --
    for file in examples/*.ipcsh crates/rows/data/*.in; do
        told=$scratch/explained-all/$(echo "$file" | tr / _)
        [ ! -f "$told" ] || set -- "$@" "$file" "$told"
    done
    why='there are none'
    [ $# -gt 400 ] || return 1
    why='a line is another:'
    python3 checks/explained_lines.py "$@" >"$scratch/shown" 2>&1 && [ ! -s "$scratch/shown" ]
}

# each_has_a_note FILE: below each row of a refusal, a wait, the end of a wait or a bad line stands a note. A row of which memory
# was refused wants none.
each_has_a_note() {
    awk '
        wants != "" && !/^    / { print wants; missing = 1 }
        { wants = "" }
        /^line [0-9]+: / || /^[0-9]+\.[0-9]+ [a-z0-9]+ (error |waits$)/ || /^[0-9]+\.[1-9]/ { wants = $0 }
        END { if (wants != "") { print wants; missing = 1 }; exit missing }' "$1"
}

# Of each of 1,000 random calls that are refused for rights explain names a change, and with each that it names the call is granted.
changes_grant() {
    why='a change is lacking, or the call is refused with it:'
    python3 lib/refusals.py "$(program_to_run ipcsh_explain)" "$(program_to_run ipcsh_cli)" >"$scratch/shown" 2>&1
}

# draws SCRIPT: with --svg its standard output and its status are those without, and the picture goes to $scratch/pictures. A script
# with no picture, since it has a fault, is none of these.
draws() {
    mkdir -p "$scratch/pictures"
    plain=0
    "$(program_to_run ipcsh_explain)" <"$1" >"$scratch/wanted" 2>/dev/null || plain=$?
    status=0
    picture=$(basename "${1%.*}")
    "$(program_to_run ipcsh_explain)" --svg "$scratch/pictures/$picture.svg" <"$1" >"$scratch/out" 2>/dev/null || status=$?
    why="status $status, not $plain"
    [ "$status" = "$plain" ] || return 1
    same 'its output' "$scratch/wanted" "$scratch/out" || return 1
    why='it has no picture'
    [ "$(tail -n 1 "$scratch/pictures/$picture.svg")" = '</svg>' ]
}

# is_stored PICTURE: it is the one that was drawn of the example of its name.
is_stored() {
    same 'the picture' "$1" "$scratch/pictures/${1##*/}"
}

# Each picture is well-formed.
are_well_formed() {
    why='a picture is no well-formed XML:'
    python3 -c '
import sys, xml.etree.ElementTree as tree
for name in sys.argv[1:]:
    try:
        tree.parse(name)
    except tree.ParseError as error:
        sys.exit(f"{name}: {error}")' docs/pictures/*.svg "$scratch"/pictures/*.svg 2>"$scratch/shown"
}

draws_nowhere() {
    status=0
    "$(program_to_run ipcsh_explain)" --svg "$scratch/no folder/picture.svg" examples/waiting.ipcsh >"$scratch/out" 2>"$scratch/err" || status=$?
    why="status $status, not 2, or standard error is another"
    [ "$status" = 2 ] && grep -q '^ipcsh_explain: .*no folder' "$scratch/err" || return 1
    "$(program_to_run ipcsh_explain)" examples/waiting.ipcsh >"$scratch/wanted" || return 1
    same 'its output' "$scratch/wanted" "$scratch/out"
}

# keeps_file FILE: a copy of it isn't overwritten, and nothing is run.
keeps_file() {
    cp "$1" "$scratch/kept"
    [ -s "$scratch/kept" ] || printf '<sv' >"$scratch/kept"
    cp "$scratch/kept" "$scratch/copy"
    status=0
    "$(program_to_run ipcsh_explain)" --svg "$scratch/kept" examples/waiting.ipcsh </dev/null >"$scratch/out" 2>"$scratch/err" || status=$?
    why="status $status, not 2, or it printed"
    [ "$status" = 2 ] && [ ! -s "$scratch/out" ] || return 1
    echo "ipcsh_explain: $scratch/kept: it is no picture, so --svg doesn't overwrite it" >"$scratch/wanted"
    same 'its standard error' "$scratch/wanted" "$scratch/err" || return 1
    same 'the file' "$scratch/copy" "$scratch/kept"
}

keeps_script() {
    cp examples/waiting.ipcsh "$scratch/kept"
    status=0
    "$(program_to_run ipcsh_explain)" --svg "$scratch/kept" "$scratch/kept" >"$scratch/out" 2>"$scratch/err" || status=$?
    why="status $status, not 3, or it printed"
    [ "$status" = 3 ] && [ ! -s "$scratch/out" ] && grep -q '^ipcsh_explain: usage: ' "$scratch/err" || return 1
    same 'the script' examples/waiting.ipcsh "$scratch/kept"
}

draws_again() {
    : >"$scratch/empty.svg"
    cp docs/pictures/deadlines.svg "$scratch/other.svg"
    for picture in empty other; do
        why="it fails over $picture.svg"
        "$(program_to_run ipcsh_explain)" --svg "$scratch/$picture.svg" examples/waiting.ipcsh >"$scratch/out" 2>"$scratch/shown" || return 1
        same 'the picture' docs/pictures/waiting.svg "$scratch/$picture.svg" || return 1
    done
}

draws_into_pipe() {
    why='it fails'
    mkfifo "$scratch/pipe.svg"
    cat "$scratch/pipe.svg" >"$scratch/piped.svg" &
    timeout 60 "$(program_to_run ipcsh_explain)" --svg "$scratch/pipe.svg" examples/waiting.ipcsh >"$scratch/out" 2>"$scratch/shown" || return 1
    wait $!
    same 'the picture' docs/pictures/waiting.svg "$scratch/piped.svg"
}

takes_one_option() {
    status=0
    "$(program_to_run ipcsh_explain)" --svg "$scratch/picture.svg" --who queue 0 examples/waiting.ipcsh >"$scratch/out" 2>"$scratch/err" || status=$?
    why="status $status, not 3, or it printed"
    [ "$status" = 3 ] && [ ! -s "$scratch/out" ] && grep -q '^ipcsh_explain: usage: ' "$scratch/err"
}

finds_no_object() {
    status=0
    printf 'client alice 100 10\nalice mssget 5 0600\n' |
        "$(program_to_run ipcsh_explain)" --who queue 0 >"$scratch/out" 2>"$scratch/err" || status=$?
    why="status $status, not 2, or it printed"
    [ "$status" = 2 ] && [ ! -s "$scratch/out" ] || return 1
    printf 'ipcsh_explain: %s\n' 'bad lines in the script: 1; a run without --who tells of each' \
        'at the end of the script there is no queue 0' >"$scratch/wanted"
    same 'its standard error' "$scratch/wanted" "$scratch/err"
}

explains_a_file() {
    "$(program_to_run ipcsh_explain)" examples/waiting.ipcsh >"$scratch/wanted" || return 1
    "$(program_to_run ipcsh_explain)" <examples/waiting.ipcsh >"$scratch/out" || return 1
    same 'its output' "$scratch/wanted" "$scratch/out"
}

explains_no_file() {
    status=0
    "$(program_to_run ipcsh_explain)" "$scratch/there is no such file" >"$scratch/out" 2>"$scratch/err" || status=$?
    why="status $status, not 2, or it printed"
    [ "$status" = 2 ] && [ ! -s "$scratch/out" ] && grep -q '^ipcsh_explain: ' "$scratch/err"
}

explain_cannot_write() {
    status=0
    "$(program_to_run ipcsh_explain)" examples/waiting.ipcsh >/dev/full 2>"$scratch/err" || status=$?
    why="status $status, not 2"
    [ "$status" = 2 ] || return 1
    echo 'ipcsh_explain: write failed' >"$scratch/wanted"
    same 'its standard error' "$scratch/wanted" "$scratch/err"
}

# Thirty thousand lines, of which half is refused and a sixth waits, take at most six times the instructions of ipcsh, of which more than four times the
# bytes are printed. Valgrind counts: instructions don't vary with what else the machine does, as times do.
explains_in_time() {
    {
        printf 'client alice 100 10\nclient bob 200 20\nalice msgget 5 01600\nalice msgget 6 01666\n'
        seq 5000 | awk '{
            print "bob msgget 5 0600\nbob msgsnd 0 1 t:x 0\nbob msgrcv 1 10 0 0\nalice msgsnd 1 1 t:x 0\nalice getval 0 0\nalice stat q 1" }'
    } >"$scratch/long.ipcsh"
    plain=$(instructions_of "$(program_of ipcsh_cli)" <"$scratch/long.ipcsh")
    explained=$(instructions_of "$(program_of ipcsh_explain)" <"$scratch/long.ipcsh")
    why="it takes $explained instructions, and ipcsh $plain"
    [ "${plain:-0}" -gt 0 ] && [ "${explained:-0}" -gt 0 ] && [ "$explained" -le $((6 * plain)) ]
}

# The documents: what stands in their blocks between lines of ``` is true. A block's first line names its kind:
#
#   console      commands, each after `$ `, with what it prints on standard output and standard error, in 60 s at most.
#                A command with the comment `# about TIME` takes long and isn't run.
#   ipcsh        a script. The next block, of kind `rows`, is what ./ipcsh prints for it on standard output.
#   KIND FILE    lines that stand in this file as they are; of the kinds `c` and `rust` always.
#   sh, text     what has no output: commands to be copied, a picture, a grammar.
#
# Their links lead somewhere, the pictures and tables of threads are those of docs/threads.rows, and the man pages those that lib/man_pages.py
# makes of the documents. What the part `wrong` tries fits the code.

documents='README.md CHANGELOG.md docs/*.md examples/README.md examples/traces/README.md crates/*/CALLING.md'

# A command of the documents that checks them again would never end, so there this fails.
check_docs() {
    if [ -z "${in_documents-}" ]; then with_program with_crate ipcwho with_crate ipcsh_explain with_crate ipcsh_journal docs_checks; else attempt docs false; fi
}

docs_checks() {
    mkdir "$scratch/blocks"
    cut_blocks "$scratch/blocks" $documents
    script=
    for block in "$scratch"/blocks/*.kind; do
        block=${block%.kind}
        read -r kind file <"$block.kind" || :
        attempt "$(cat "$block.place")" holds
        script=
        [ "$kind" != ipcsh ] || script=$block.body
    done
    attempt 'docs/PROFILE.md' names_each_refusal
    attempt 'links' links_lead_somewhere
    attempt 'pictures of docs/threads.rows' threads_are_drawn
    attempt 'tables of docs/threads.rows' threads_are_told
    attempt 'docs/ASSUMED.md, crates of the kit' names_kit_crates
    attempt 'docs/ASSUMED.md, programs' names_programs
    attempt 'wrong bodies' edits_are_current
    attempt 'man/' man_pages_are_current
    ! command -v man >/dev/null || attempt 'man -l' man_pages_show
}

# names_kit_crates: the table of docs/ASSUMED.md has each crate of the kit that crates.txt names, and no other; and a crate that it
# says uses one does so there.
names_kit_crates() {
    kit_uses >"$scratch/uses"
    assumed_uses >"$scratch/assumed"
    cut -d ' ' -f 1 "$scratch/uses" | sort -u >"$scratch/wanted"
    cut -d ' ' -f 1 "$scratch/assumed" | sort -u >"$scratch/named"
    same 'its list of the crates of the kit' "$scratch/wanted" "$scratch/named" || return 1
    why='crates.txt has no such use of a crate of the kit:'
    ! grep -v -x -F -f "$scratch/uses" "$scratch/assumed" >"$scratch/shown"
}

# kit_uses: a line `CRATE USER` for each crate of the kit and each crate of the repository that names it, by crates.txt.
kit_uses() {
    awk '
        { sub(/#.*/, ""); at = index($0, ":") }
        at { split(substr($0, 1, at), head, /[ :]/); own[head[1]] = 1; uses[head[1]] = substr($0, at + 1) }
        END {
            for (user in uses) {
                count = split(uses[user], list, " ")
                for (i = 1; i <= count; i++) if (!(list[i] in own)) print list[i], user
            }
        }' crates.txt
}

# assumed_uses: the same by the table of docs/ASSUMED.md.
assumed_uses() {
    awk -F '|' '
        function names(cell, list) {
            gsub(/[^a-z0-9_]+/, " ", cell)
            return split(cell, list, " ")
        }
        /^## / { inside = /The statements of the kit/ }
        inside && $2 ~ /`/ {
            crates = names($2, crate)
            users = names($3, user)
            for (i = 1; i <= crates; i++) for (j = 1; j <= users; j++) print crate[i], user[j]
        }' docs/ASSUMED.md
}

# names_programs: the row of scripts of docs/ASSUMED.md has each program at the top of the repository, and no other.
names_programs() {
    for file in *; do
        [ ! -f "$file" ] || [ ! -x "$file" ] || printf '%s\n' "$file"
    done | LC_ALL=C sort >"$scratch/wanted"
    sed -n 's/^| the shell scripts \([^|]*\), the Python.*/\1/p' docs/ASSUMED.md | grep -o '`[^`]*`' | tr -d '`' | LC_ALL=C sort >"$scratch/named"
    same 'its list of programs' "$scratch/wanted" "$scratch/named"
}

# Each edit of the part `wrong`, which takes long, can be tried on the code as it stands.
edits_are_current() {
    why='edits that can not be tried:'
    python3 lib/wrong_bodies.py --read >"$scratch/shown"
}

man_pages_are_current() {
    why='python3 lib/man_pages.py man makes others:'
    python3 lib/man_pages.py "$scratch/man" || return 1
    ! diff -r -U 1 man "$scratch/man" >"$scratch/diff" || return 0
    sed -n '1,12p' "$scratch/diff" >"$scratch/shown"
    return 1
}

# Each man page is shown without a warning.
man_pages_show() {
    why='man warns:'
    for file in man/*; do
        LC_ALL=C.UTF-8 man --warnings -l "$file" 2>>"$scratch/shown" >"$scratch/page" || return 1
        [ -s "$scratch/page" ] || return 1
    done
    [ ! -s "$scratch/shown" ]
}

links_lead_somewhere() {
    why='a link leads nowhere:'
    python3 lib/links.py $documents >"$scratch/shown"
}

# The pictures of docs/ are those of docs/threads.rows, which `./bench threads` has printed.
threads_are_drawn() {
    why='./bench threads draws another picture of docs/threads.rows:'
    mkdir -p "$scratch/drawn-threads"
    draw_threads docs/threads.rows "$scratch/drawn-threads"
    for file in "$scratch/drawn-threads"/*; do
        cmp "$file" "docs/${file##*/}" >>"$scratch/shown" 2>&1 || return 1
    done
}

# The tables of docs/SPEED.md and docs/THREADS.md are those of docs/threads.rows.
threads_are_told() {
    why='docs/SPEED.md or docs/THREADS.md lacks a row of docs/threads.rows:'
    for objects in own one; do
        table_of_threads docs/threads.rows "$objects" | grep -v -x -F -f docs/SPEED.md >>"$scratch/shown" || :
    done
    table_of_threads docs/threads.rows one | grep -v -x -F -f docs/THREADS.md >>"$scratch/shown" || :
    [ ! -s "$scratch/shown" ]
}

# cut_blocks FOLDER FILE..: of each block a file NUMBER.place, NUMBER.kind and NUMBER.body in the folder.
cut_blocks() {
    folder=$1
    shift
    awk -v folder="$folder" '
        function begin(kind) {
            block = sprintf("%s/%04d", folder, ++count)
            print FILENAME ":" FNR >(block ".place")
            print kind >(block ".kind")
            printf "" >(block ".body")
        }
        function end() {
            close(block ".place"); close(block ".kind"); close(block ".body")
        }
        FNR == 1 { inside = 0; blank = 1 }
        /^```/ {
            inside = !inside
            if (inside) begin(substr($0, 4)); else end()
            next
        }
        inside { print >(block ".body"); next }
        blank && /^    / { begin("indented"); end() }
        { blank = /^$/ }' "$@"
}

# holds: what stands in the block is true.
holds() {
    case $kind in
    console)
        transcribe "$block.body" >"$scratch/transcript"
        same 'what the commands print' "$block.body" "$scratch/transcript"
        ;;
    ipcsh) follows_rows ;;
    rows) prints_the_rows ;;
    c | rust) stands_in ;;
    sh | text) [ -z "$file" ] || stands_in ;;
    *)
        why="'$kind' is no kind of block"
        return 1
        ;;
    esac
}

follows_rows() {
    why='no rows follow this script'
    next=$(printf '%s/%04d' "${block%/*}" "$(expr "${block##*/}" + 1)")
    [ "$(cat "$next.kind" 2>/dev/null)" = rows ]
}

prints_the_rows() {
    why='no script stands before these rows'
    [ -n "$script" ] || return 1
    timeout 60 ./ipcsh <"$script" >"$scratch/out" 2>/dev/null || :
    same 'what the script prints' "$block.body" "$scratch/out"
}

# stands_in: the block's lines stand in its file, one after the other.
stands_in() {
    why="there is no file '$file' in which they stand"
    [ -f "$file" ] || return 1
    why="its lines do not stand in $file; the first that is not one of its lines:"
    grep -n -v -x -F -f "$file" "$block.body" | sed -n 1p >"$scratch/shown" || :
    awk 'NR == FNR { part = part $0 "\n"; next } { whole = whole $0 "\n" } END { exit !index("\n" whole, "\n" part) }' \
        "$block.body" "$file"
}

# transcribe FILE: the commands of a block, each followed by what it prints; $? is the status of the one before it.
transcribe() {
    status=0
    kept=yes
    while IFS= read -r line; do
        case $line in
        '$ '*) printf '%s\n' "$line" ;;
        *) [ "$kept" = no ] || printf '%s\n' "$line" ;;
        esac
        case $line in
        '$ '*'# about '*) kept=yes ;;
        '$ '*)
            kept=no
            in_documents=yes timeout 60 sh -c "(exit $status); ${line#??}" </dev/null >"$scratch/out" 2>&1 && status=0 || status=$?
            cat "$scratch/out"
            [ "$status" != 124 ] || echo 'it has not ended after 60 s'
            ;;
        esac
    done <"$1"
}

# The table of rules has each refusal that a stored row tells.
names_each_refusal() {
    why='its table of rules lacks a refusal of the stored rows:'
    cat crates/rows/data/*.out examples/*.out |
        sed -n 's/^[-0-9.]* [a-z0-9]* error \([0-9]*\) \([A-Z0-9]*\) \([a-z-]*\)$/| \1 | \2 | `\3` |/p' | sort -u >"$scratch/told"
    while IFS= read -r row; do
        grep -q -F "$row" docs/PROFILE.md || printf '%s\n' "$row"
    done <"$scratch/told" >"$scratch/shown"
    [ ! -s "$scratch/shown" ]
}

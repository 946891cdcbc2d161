# The library for C: examples print their stored output, bad arguments get their errors, a program with the usual prototypes prints what it prints
# over the kernel, and random calls in threads are answered as ./ipcsh answers them in the order of their places; without a complaint of valgrind
# where that is there. What make install installs works (checks/install.sh). The crate for Rust over it, where there is cargo: its tests,
# and its examples, which print what those in C do.

check_c() { with_program c_checks; }

c_checks() {
    why='there is no C compiler'
    if ! command -v "${CC-cc}" >/dev/null; then
        fail c
        return
    fi
    attempt 'build c' library_is_built || return 0
    attempt 'include/*.h, as C++' is_cpp
    attempt 'the header names the rules in their order' names_the_rules
    attempt 'the header has the operations in their order' has_the_operations include/ipcsh.h
    attempt 'the header has the fields of what goes to the library' has_the_fields include/ipcsh.h
    attempt 'checks/c/layout.c' is_laid_out
    for file in examples/c/*.c checks/c/bad.c checks/c/errors.c checks/c/processes.c checks/c/sysv.c checks/c/waits.c; do
        attempt "$file" prints_with_the_library "${file%.c}"
    done
    attempt 'docs/C.md, numbers below 0' tells_each_number
    attempt 'checks/c/sysv.c, with the headers of the system' is_for_the_kernel
    for name in shmat shmdt semtimedop; do
        attempt "a program that uses $name" is_refused "$name"
    done
    attempt 'make install' installs
    for seed in 1 2 3 4 5 6 7 8 9 10; do
        attempt "2,000 random calls, $seed" random_calls_replay "$seed"
    done
    attempt 'random calls under valgrind' random_calls_replay 11 "$(watch)"
    attempt 'memory of ten million calls' stays_flat_in_c
    if command -v cargo >/dev/null; then rust_checks; else echo 'c: there is no cargo, so rust/ was not tried'; fi
}

rust_checks() {
    ! command -v rustfmt >/dev/null || attempt 'rust/, its layout' with_cargo fmt --check
    attempt 'rust/ names the rules in their order' names_the_rules_in_rust
    attempt 'rust/ has the operations in their order' has_the_operations rust/src/raw.rs
    attempt 'rust/ has the fields of what goes to the library' has_the_fields rust/src/*.rs
    attempt 'rust/, its tests' with_cargo test --offline --quiet
    for file in rust/examples/*.rs; do
        attempt "$file" prints_in_rust "$file"
    done
    attempt 'memory of ten million calls from Rust' stays_flat_in_rust
}

# with_cargo WORD..: what cargo makes of rust/ is in out/rust.
with_cargo() {
    why="cargo $1 fails:"
    (cd rust && CARGO_TARGET_DIR=$top/out/rust CARGO_INCREMENTAL=0 exec cargo "$@") >"$scratch/said" 2>&1 && return 0
    tail -n 12 "$scratch/said" >"$scratch/shown"
    return 1
}

# prints_in_rust FILE: an example prints what that of its name in C prints, where there is one. Rust's library holds the name of the first thread by
# an address within it, which valgrind calls possibly lost.
prints_in_rust() {
    name=$(basename "$1" .rs)
    wanted=examples/c/$name.out
    [ -f "$wanted" ] || wanted=${1%.rs}.out
    with_cargo build --offline --quiet --example "$name" || return 1
    prints "$wanted" "out/rust/debug/examples/$name" definite
}

stays_flat_in_c() {
    with_library checks/c/flat && stays_flat "$scratch/with_library"
}

stays_flat_in_rust() {
    with_cargo build --offline --quiet --release --example flat && stays_flat out/rust/release/examples/flat
}

# stays_flat PROGRAM: ten million calls, with texts and in C by processes that end and begin between them, leave no more in memory than ten
# thousand, also where the journal is read every thousand calls; and what is read of a journal, one part behind another, is replayed as the same.
stays_flat() {
    for file in '' /dev/null; do
        why="memory grows, with journal '$file':"
        timeout 300 "$1" 10000000 $file >"$scratch/out" 2>"$scratch/shown" || return 1
    done
    why='it fails'
    timeout 300 "$1" 1000000 "$scratch/journal" >"$scratch/out" 2>"$scratch/shown" || return 1
    why='its journal has not just its calls'
    [ "$(grep -c '^at ' "$scratch/journal")" = 1000002 ] || return 1
    is_replayed
}

library_is_built() {
    built ipcsh_c && ./build c 2>"$scratch/shown"
}

# watch [KINDS]: the words before a command that run it under valgrind, where that is there. It ends with 99 for a complaint or for memory that is
# lost, of all kinds or of those that are named.
watch() {
    ! command -v valgrind >/dev/null ||
        echo "valgrind --quiet --error-exitcode=99 --leak-check=full --errors-for-leak-kinds=${1-definite,possible} --log-file=$scratch/shown"
}

# with_library BASE: the program BASE.c is $scratch/with_library.
with_library() {
    why='cc refuses it:'
    "${CC-cc}" -std=c11 -O1 -g -Wall -Wextra -Werror -I out/c -o "$scratch/with_library" "$1.c" out/c/libipcsh.a -lpthread 2>"$scratch/shown"
}

prints_with_the_library() {
    with_library "$1" || return 1
    prints "$1.out" "$scratch/with_library"
}

# prints FILE PROGRAM [KINDS]: the program prints what stands in the file, also under valgrind, which refuses lost memory of all kinds or of those.
prints() {
    for how in '' "$(watch ${3-})"; do
        status=0
        timeout 120 $how "$2" >"$scratch/out" 2>"$scratch/err" || status=$?
        same 'what it prints' "$1" "$scratch/out" || return 1
        why="status $status"
        [ "$status" = 0 ] || return 1
    done
}

# random_calls_replay SEED [WORDS]: ./ipcsh answers the calls alike in their order, and the journal is replayed as the same. Where words are
# given, they run the program.
random_calls_replay() {
    with_library checks/c/random || return 1
    why='it failed'
    timeout 120 ${2-} "$scratch/with_library" "$1" "$scratch/script" "$scratch/rows" "$scratch/journal" 2>"$scratch/shown" || return 1
    "$(the_program)" <"$scratch/script" >"$scratch/wanted" 2>"$scratch/shown" || return 1
    same 'what the calls are answered' "$scratch/wanted" "$scratch/rows" && is_replayed
}

# is_replayed: the journal that a program left.
is_replayed() {
    has_program ipcsh_journal || return 1
    why='its journal is not replayed as the same:'
    "$(program_to_run ipcsh_journal)" --replay "$scratch/journal" >"$scratch/shown" 2>&1
}

is_cpp() {
    why='the C++ compiler refuses it:'
    command -v c++ >/dev/null || return 0
    printf '#include "ipcsh_sysv.h"\n' | c++ -Wall -Wextra -Werror -I include -fsyntax-only -x c++ - 2>"$scratch/shown"
}

# The table of docs/C.md has each number below 0 with its name and its text.
tells_each_number() {
    grep '^| -' checks/c/errors.out >"$scratch/wanted"
    grep '^| -' docs/C.md >"$scratch/printed" || :
    same 'its table' "$scratch/wanted" "$scratch/printed"
}

# The program with the usual prototypes is one for the kernel too.
is_for_the_kernel() {
    why='cc refuses it:'
    "${CC-cc}" -std=c11 -Wall -Wextra -Werror -DKERNEL -fsyntax-only checks/c/sysv.c 2>"$scratch/shown"
}

# is_refused NAME: a program that uses what include/ipcsh_sysv.h leaves out isn't compiled, and is with the headers of the system.
is_refused() {
    why='the headers of the system do not have it:'
    printf '#define _GNU_SOURCE\n#include <sys/sem.h>\n#include <sys/shm.h>\nvoid *use(void) { return (void *)%s; }\n' "$1" >"$scratch/use.c"
    "${CC-cc}" -std=c11 -w -I include -fsyntax-only "$scratch/use.c" 2>"$scratch/shown" || return 1
    why='cc takes it'
    ! "${CC-cc}" -std=c11 -w -I include -include ipcsh_sysv.h -fsyntax-only "$scratch/use.c" 2>"$scratch/shown" || return 1
    why='cc does not name it:'
    grep -q "$1" "$scratch/shown"
}

# The header has the names of rules in the order of their codes in the proved source.
names_the_rules() {
    sed -n '/ipcsh_rule_name/,/};/p' include/ipcsh.h | grep -o '"[a-z-]\{1,\}"' | tr -d '"' >"$scratch/printed"
    are_the_rules
}

names_the_rules_in_rust() {
    sed -n 's/^    [A-Za-z]* "\([a-z-]*\)"$/\1/p' rust/src/rules.rs >"$scratch/printed"
    are_the_rules
}

# are_the_rules: the lines of $scratch/printed are those names.
are_the_rules() {
    sed -n 's/^ *Rule::\([A-Za-z]*\) => \([0-9]*\),$/\2 \1/p' crates/ipc_abi/src/rules.rt | sort -n >"$scratch/codes"
    sed -n 's/.*Rule::\([A-Za-z]*\) => (Errno::[A-Z0-9]*, "\([a-z-]*\)").*/\1 \2/p' crates/ipc_call/src/rules.rt >"$scratch/named"
    awk 'NR == FNR { name[$1] = $2; next } { print name[$2] }' "$scratch/named" "$scratch/codes" >"$scratch/wanted"
    same 'the names' "$scratch/wanted" "$scratch/printed"
}

# operations_in FILE: the names of the operations, in lower case and without the word before them.
operations_in() {
    sed -n '/^enum ipcsh_op {/,/^};/p; /enum Operation {/,/^}/p' "$1" | grep -v '^[a-z}]' | tr -d ' _' | tr ',' '\n' | tr A-Z a-z |
        sed -n 's/^ipcsh//; s/^ipc//; /^[a-z]\{1,\}$/p'
}

# has_the_operations FILE: in the order of their codes in the proved source.
has_the_operations() {
    sed -n '/^const OPERATIONS/,/^];/s/^ *Operation::\([A-Za-z]*\),$/\1/p' crates/ipc_abi/src/operations.rt | tr A-Z a-z |
        sed 's/^ipc//' >"$scratch/wanted"
    operations_in "$1" >"$scratch/printed"
    same 'the operations' "$scratch/wanted" "$scratch/printed"
}

# has_the_fields FILE..: its structs have fields of the types that the proved source has, in their order.
has_the_fields() {
    awk -f checks/c/fields.awk crates/ipc_abi/src/*.rt | LC_ALL=C sort >"$scratch/wanted"
    awk -f checks/c/fields.awk "$@" | LC_ALL=C sort >"$scratch/printed"
    why='not six structs cross to C'
    [ "$(wc -l <"$scratch/wanted")" = 6 ] || return 1
    same 'the types of the fields' "$scratch/wanted" "$scratch/printed"
}

is_laid_out() {
    why='cc refuses it:'
    "${CC-cc}" -std=c11 -Wall -Wextra -Werror -I include -fsyntax-only checks/c/layout.c 2>"$scratch/shown"
}

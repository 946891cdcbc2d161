# What the documents give in numbers, counted.

# files PATTERN..: how many files there are of these names.
files() {
    ls -d "$@" 2>/dev/null | wc -l | tr -d ' '
}

# lines FOLDER PATTERN: the lines of all files of a name below crates/*/FOLDER.
lines() {
    find crates/*/"$1" -name "$2" -exec cat {} + | wc -l | tr -d ' '
}

# edits_with PATTERN FILE..: how many of these edits have such a line.
edits_with() {
    grep -l -e "$@" | wc -l | tr -d ' '
}

# Of an edit a line `file:` says what it changes, definitions of specs/ or code of src/, and a line `bound:` that the compiler refuses it.
numbers() {
    wrong=$(files crates/*/wrong/*.edit)
    edits=$(files crates/*/must-fail/*.edit)
    weak=$(files checks/weakened/*.edit)
    compiled=$(edits_with '^bound: ' crates/*/wrong/*.edit)
    defined=$(edits_with '^file: specs/' crates/*/must-fail/*.edit)
    printf '%s wrong versions: the prover must refuse %s wrong bodies and constants, %s wrong definitions and %s weakened plans, the compiler %s wrong body\n' \
        "$((wrong + edits + weak))" "$((wrong - compiled + edits - defined))" "$defined" "$weak" "$compiled"
    printf '%s scripts with stored output, and %s examples\n' "$(files crates/rows/data/*.in)" "$(files examples/*.ipcsh)"
    printf '%s rules of behaviour, %s refusals\n' "$(grep -c '^[0-9]*\. ' docs/PROFILE.md)" \
        "$(grep '^| [0-9]* | E[A-Z0-9]* | `' docs/PROFILE.md | grep -c -v ' `memory` ')"
    printf '%s lines of code, %s of definitions, %s of proofs, in %s crates\n' \
        "$(lines src '*.rt')" "$(lines specs '*.antt')" "$(lines proofs '*.antt')" "$(grep -c '^[a-z].*:' crates.txt)"
}

# Wrong bodies and weakened plans, which the prover must refuse, or of an edit with a line `bound:` the compiler, over what `rt ci` has proved (lib/wrong_bodies.py).
#
# What a caller knows of a function are its clauses alone. So wrong bodies of several functions are tried in one check, in a
# fifth of the time that one check for each takes, and of the other functions the clauses are left alone (lib/stubs.py):
# crates/CRATE/wrong has them. `rt ci` tries those of must-fail/ one by
# one, most of which change what several functions or a whole law stand on.
#
# The law of access speaks of the plans of the calls, so it says as much as these. A plan from which a need is dropped, or in
# which two checks are turned round, isn't that of the code: checks/weakened has such plans.

check_wrong() {
    status=0
    in_group python3 lib/wrong_bodies.py >"$scratch/edits" 2>&1 || status=$?
    grep '^FAILED \|^wrong_bodies: ' "$scratch/edits" || :
    count_of wrong_bodies.py "$(tail -n 1 "$scratch/edits")" "$status"
}

# Pairs of worlds: what others do with objects that are hidden from a client doesn't change what it is answered. That is
# proved of the definitions (ipc_laws); this shows it of the program, and that the pairs can tell.

pairs=1000

check_worlds() {
    worlds=$scratch/worlds
    with_program world_checks
}

world_checks() {
    attempt 'worlds that agree' worlds_agree
    attempt 'worlds that differ are told apart' worlds_are_told_apart
}

# rows_in WORLD: the rows of the client in this world of each pair, in $worlds/WORLD. A line of a client that waits is bad,
# which is status 1 of the program.
rows_in() {
    program=$(the_program)
    number=1
    : >"$worlds/rows"
    while [ "$number" -le "$pairs" ]; do
        echo "pair $number" >>"$worlds/rows"
        status=0
        "$program" <"$worlds/$number.$1" >>"$worlds/rows" 2>/dev/null || status=$?
        [ "$status" -le 1 ] || return 1
        number=$((number + 1))
    done
    awk -v client=eve -f lib/rows_of.awk "$worlds/rows" >"$worlds/$1"
}

# both_worlds SEED ALL: makes the pairs, and runs them.
both_worlds() {
    mkdir -p "$worlds"
    awk -v pairs="$pairs" -v seed="$1" -v all="$2" -v folder="$worlds" -f lib/worlds.awk
    rows_in with && rows_in without
}

worlds_agree() {
    why='a world does not run to its end'
    both_worlds 1 '' || return 1
    why='the rows of eve are missing'
    [ "$(wc -l <"$worlds/without")" -gt $((pairs * 20)) ] || return 1
    same 'what eve is answered, without and with the calls of others,' "$worlds/without" "$worlds/with"
}

worlds_are_told_apart() {
    pairs=20
    why='a world does not run to its end'
    both_worlds 2 1 || return 1
    why='no pair differs where others call at objects that eve may notice'
    ! cmp -s "$worlds/without" "$worlds/with"
}

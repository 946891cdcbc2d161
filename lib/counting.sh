# How many instructions a program takes, and what memory. ./bench and ./check read it.

# The function in which instructions are counted, with all that it calls; all are where it is -.
counted_in=-

# instructions_of PROGRAM WORD..: those of one run, as valgrind counts them. It runs in the program's folder and with an environment of its own: the
# counts differ between environments, by up to 8 % for small sizes.
instructions_of() (
    CDPATH='' cd -- "${1%/*}"
    program=./${1##*/}
    shift
    [ "$counted_in" = - ] || set -- "--toggle-collect=$counted_in" "$program" "$@"
    [ "$counted_in" != - ] || set -- "$program" "$@"
    env -i GLIBC_TUNABLES=glibc.malloc.hugetlb=1 "$(command -v valgrind)" --tool=callgrind --callgrind-out-file=/dev/null "$@" \
        2>&1 >/dev/null | sed -n 's/.*Collected : //p'
)

# instructions_a_call PROGRAM WORD..: those that a call takes, of a program whose first word is how many calls it makes.
instructions_a_call() {
    counted=$1
    shift
    echo $((($(instructions_of "$counted" 1000 "$@") - $(instructions_of "$counted" 0 "$@") + 500) / 1000))
}

# fits_in KIB PROGRAM WORD..: the program runs in so much memory. What it and the shell say of less is left out.
fits_in() (
    exec >/dev/null 2>&1
    ulimit -c 0
    ulimit -v "$1"
    shift
    exec "$@"
)

# least_memory PROGRAM WORD..: in how much memory it just runs, in KiB, to the next 64 below 1 GiB.
least_memory() {
    low=0
    high=1048576
    while [ $((high - low)) -gt 64 ]; do
        middle=$(((low + high) / 2))
        if fits_in "$middle" "$@"; then high=$middle; else low=$middle; fi
    done
    echo "$high"
}

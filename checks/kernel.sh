# The machine's own kernel as a second judge (lib/kernel.py): as root, where it lets identifiers be chosen and system calls be seen.
# It isn't among the parts that run unasked, since few machines have all that.

check_kernel() {
    with_program kernel_judges
    with_crate ipcwho kernel_judges_who
}

# What ipcwho says of processes and objects, beside what the kernel lets them do (lib/who_kernel.py).
kernel_judges_who() {
    why='it wants root on x86-64'
    if [ "$(id -u)" = 0 ] && [ "$(uname -m)" = x86_64 ]; then
        for seed in 1 2 3; do
            judged who_kernel "$(program_to_run ipcwho)" "$seed" 100
        done
    else
        fail 'kernel, ipcwho'
    fi
}

kernel_judges() {
    why='it wants root, a C compiler, and a kernel with /proc/sys/kernel/msg_next_id and /proc/PID/syscall'
    if [ "$(id -u)" = 0 ] && [ -w /proc/sys/kernel/msg_next_id ] && [ -r /proc/self/syscall ] &&
        cc -O1 -o "$scratch/client" lib/kernel_client.c; then
        judged kernel compare "$scratch/client" checks/kernel.differences $(plain_scripts)
        for seed in 1 2 3; do
            judged kernel random "$scratch/client" "$(the_program)" "$seed" 1000
        done
    else
        fail kernel
    fi
}

# judged SCRIPT WORD..: what lib/SCRIPT.py compares, which counts.
judged() {
    status=0
    judge=$1
    shift
    in_group python3 "lib/$judge.py" "$@" >"$scratch/judged" 2>&1 || status=$?
    grep -v ' passed, ' "$scratch/judged" || :
    count_of "$judge.py" "$(tail -n 1 "$scratch/judged")" "$status"
}

# The table of `./bench`: that of the program ipc_bench, with two columns of the machine's own kernel, which are read first as
# rows `NAME|SIZE|NANOSECONDS`: what the same takes there, and how many times as long as here.
FILENAME == ARGV[1] { split($0, part, "|"); kernel[part[1], part[2]] = part[3]; next }
FNR == 1 { printf "%s%12s%8s\n", $0, "kernel ns", "ratio"; next }
{
    name = substr($0, 1, 35)
    sub(/ +$/, "", name)
    split(substr($0, 36), column, " ")
    if ((name, column[1]) in kernel && column[3] > 0) {
        told = kernel[name, column[1]]
        printf "%s%12.1f%8.2f\n", $0, told, told / column[3]
    } else print
}

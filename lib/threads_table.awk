# The table of `./bench threads`, of rows `TASK WAY CLIENTS MEDIAN LOWER UPPER`: a row for each task and number of clients.
{
    row = $1 " " $3
    if (!(row in known)) { known[row] = 1; order[++rows] = row }
    median[row, $2] = $4
    told[row, $2] = sprintf("%.0f (%.0f..%.0f)", $4, $5, $6)
}

function shown(row, way) { return (row, way) in told ? told[row, way] : "" }

# How many times as long as another way the service takes.
function ratio(row, way) {
    return (row, way) in median && (row, "service") in median ? sprintf("%.2f", median[row, "service"] / median[row, way]) : ""
}

END {
    format = "%-13s %7s %22s %22s %22s %22s %9s %9s\n"
    printf format, "nanoseconds a", "", "service", "mutex", "kernel", "one owner", "service", "service"
    printf format, "call", "clients", "", "", "", "", "to mutex", "to kernel"
    for (r = 1; r <= rows; r++) {
        split(order[r], part, " ")
        printf format, part[1], part[2], shown(order[r], "service"), shown(order[r], "mutex"), shown(order[r], "kernel"), \
            shown(order[r], "space"), ratio(order[r], "mutex"), ratio(order[r], "kernel")
    }
}

# Of rows `TASK WAY CLIENTS NS` of several rounds: the median and the quartiles of each measurement, as
# `TASK WAY CLIENTS MEDIAN LOWER UPPER`, in the order in which they came first.
NF == 4 {
    measurement = $1 " " $2 " " $3
    if (!(measurement in count)) order[++measurements] = measurement
    times[measurement, ++count[measurement]] = $4
}

# The time at a place of the sorted rounds, from 0 for the least to 1 for the most; between two it is the nearer one's.
function at(place, n) { return sorted[1 + int(place * (n - 1) + 0.5)] }

END {
    for (m = 1; m <= measurements; m++) {
        n = count[order[m]]
        for (i = 1; i <= n; i++) sorted[i] = times[order[m], i]
        for (i = 2; i <= n; i++) {
            time = sorted[i]
            for (j = i - 1; j > 0 && sorted[j] + 0 > time + 0; j--) sorted[j + 1] = sorted[j]
            sorted[j + 1] = time
        }
        print order[m], at(0.5, n), at(0.25, n), at(0.75, n)
    }
}

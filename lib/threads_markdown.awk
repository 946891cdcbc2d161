# The table of the documents, of rows `TASK WAY CLIENTS MEDIAN LOWER UPPER`: medians, by tasks, ways and numbers of clients. With `objects` it
# has some of the tasks: `own`, clients at objects of their own, or `one`, all at the same.
function figure(number,  text, shown) {
    text = sprintf("%.0f", number)
    while (length(text) > 3) {
        shown = "," substr(text, length(text) - 2) shown
        text = substr(text, 1, length(text) - 3)
    }
    return text shown
}

!is_drawn($1, objects) { next }
{
    if (!($1 in known)) { known[$1] = 1; tasks[++count] = $1 }
    median[$1, $2, $3] = $4
}

END {
    ways = split("service mutex kernel", way, " ")
    sizes = split("1 4 64", size, " ")
    head = "| Nanoseconds a call, by clients |"
    rule = "|---|"
    for (w = 1; w <= ways; w++) for (s = 1; s <= sizes; s++) {
        head = head (s == 1 ? " " way[w] ": " : " ") size[s] " |"
        rule = rule "---|"
    }
    print head
    print rule
    for (t = 1; t <= count; t++) {
        row = "| " words_of(tasks[t]) " |"
        for (w = 1; w <= ways; w++) for (s = 1; s <= sizes; s++) row = row " " figure(median[tasks[t], way[w], size[s]]) " |"
        print row
    }
}

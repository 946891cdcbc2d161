# A picture of rows `TASK WAY CLIENTS MEDIAN LOWER UPPER`: what the calls of one client take by the service, and by the kernel. Nanoseconds a
# call to the right, on a linear scale; a pair of bars for each task.
$3 == 1 && $1 !~ /^(message-8192|hand-over|one-queue|one-counter|one-lock)$/ && ($2 == "service" || $2 == "kernel") {
    if (!($1 in known)) { known[$1] = 1; tasks[++count] = $1 }
    median[$1, $2] = $4
    if ($4 > most) most = $4
}

function wide(time) { return time / scale * 360 }

function bar(y, way, time, fill) {
    printf "<rect x=\"220\" y=\"%d\" width=\"%.1f\" height=\"12\" fill=\"%s\" stroke=\"%s\"/>\n", y, wide(time), fill, colour[way]
    text(226 + wide(time), y + 10, "start", sprintf("%.0f", time))
}

END {
    colour["service"] = "#b30000"
    colour["kernel"] = "#222222"
    scale = int(most / 100 + 1) * 100
    height = count * 38 + 64
    printf "<svg xmlns=\"http://www.w3.org/2000/svg\" width=\"660\" height=\"%d\" font-family=\"sans-serif\" font-size=\"12\">\n", height
    print "<title>The calls of one client, in nanoseconds: by the service, and by the kernel</title>"
    print "<rect width=\"100%\" height=\"100%\" fill=\"white\"/>"
    printf "<rect x=\"220\" y=\"10\" width=\"24\" height=\"12\" fill=\"%s\" stroke=\"%s\"/>\n", colour["service"], colour["service"]
    text(250, 20, "start", "the service")
    printf "<rect x=\"340\" y=\"10\" width=\"24\" height=\"12\" fill=\"white\" stroke=\"%s\"/>\n", colour["kernel"]
    text(370, 20, "start", "the kernel")
    for (t = 1; t <= count; t++) {
        y = t * 38 - 4
        text(210, y + 17, "end", words_of(tasks[t]))
        bar(y, "service", median[tasks[t], "service"], colour["service"])
        bar(y + 14, "kernel", median[tasks[t], "kernel"], "white")
    }
    text(400, height - 10, "middle", "nanoseconds a call of one client (medians)")
    print "</svg>"
}

# A picture of one task in rows `TASK WAY CLIENTS MEDIAN LOWER UPPER`: a message that is handed over between two clients. Nanoseconds a call
# upwards, on a linear scale, and the number of clients to the right. Each way has a mark and a stroke of its own.
BEGIN { number["service"] = 1; number["mutex"] = 2; number["kernel"] = 3 }

$1 == "hand-over" && $2 in number {
    if (!($3 in place)) { place[$3] = ++count; clients[count] = $3 }
    median[number[$2], place[$3]] = $4
}

function across(i) { return 90 + (i - 1) * 120 }
function up(time) { return 356 - time / 3500 * 260 }

function mark(way, x, y) {
    if (way == 1) printf "<circle cx=\"%.1f\" cy=\"%.1f\" r=\"5\" fill=\"%s\"/>\n", x, y, colour[1]
    if (way == 2) printf "<rect x=\"%.1f\" y=\"%.1f\" width=\"9\" height=\"9\" fill=\"white\" stroke=\"%s\" stroke-width=\"2\"/>\n", x - 4.5, y - 4.5, colour[2]
    if (way == 3) printf "<path d=\"M%.1f %.1f l6 10 h-12 z\" fill=\"%s\"/>\n", x, y - 6, colour[3]
}

function way_of(way,  i, points) {
    for (i = 1; i <= count; i++) points = points sprintf("%.1f,%.1f ", across(i), up(median[way, i]))
    printf "<polyline points=\"%s\" fill=\"none\" stroke=\"%s\" stroke-width=\"2\" stroke-dasharray=\"%s\"/>\n", points, colour[way], stroke[way]
    for (i = 1; i <= count; i++) mark(way, across(i), up(median[way, i]))
    mark(way, 100, 30 + way * 18 - 4)
    text(114, 30 + way * 18, "start", name[way])
}

END {
    split("#b30000 #1f4e9c #222222", colour, " ")
    split("none,7 4,2 4", stroke, ",")
    split("this service,the same calls under a mutex,the kernel", name, ",")
    print "<svg xmlns=\"http://www.w3.org/2000/svg\" width=\"640\" height=\"412\" font-family=\"sans-serif\" font-size=\"13\">"
    print "<title>A message handed over between two clients: nanoseconds a call, by the number of clients</title>"
    print "<rect width=\"100%\" height=\"100%\" fill=\"white\"/>"
    text(70, 20, "start", "A message handed over between two clients (medians)")
    for (time = 0; time <= 3500; time += 500) {
        printf "<line x1=\"70\" x2=\"600\" y1=\"%.1f\" y2=\"%.1f\" stroke=\"#ddd\"/>\n", up(time), up(time)
        text(64, up(time) + 4, "end", time)
    }
    for (i = 1; i <= count; i++) text(across(i), 376, "middle", clients[i])
    text(330, 400, "middle", "clients")
    print "<text transform=\"translate(20 226) rotate(-90)\" text-anchor=\"middle\">nanoseconds a call</text>"
    for (i = 1; i <= 3; i++) way_of(i)
    print "</svg>"
}

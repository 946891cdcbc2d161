# A picture of rows `TASK WAY CLIENTS MEDIAN LOWER UPPER`, as SVG: for each task a panel, with a line for each way from 1 to 64 clients, each
# way with a mark and a stroke of its own. Both axes are logarithmic: clients from left to right, nanoseconds a call upwards. With `objects`
# it draws some of the tasks: `own`, clients at objects of their own, or `one`, all at the same.
function keep(task, way, clients, time) {
    if (!(task in known)) { known[task] = 1; tasks[++count] = task }
    median[task, way, clients] = time
    has[way] = 1
    if (time > most) most = time
    if (!least || time < least) least = time
}

is_drawn($1, objects) { keep(words_of($1), $2, $3, $4) }

function across(clients) { return left + 54 + log(clients) / log(64) * 170 }
function up(time) { return top + 150 - log(time / lowest) / log(highest / lowest) * 130 }

# A power of ten at or below a number.
function power(number,  p) { p = 1; while (p * 10 <= number) p *= 10; return p }

function mark(way, x, y) {
    if (way == "service") printf "<circle cx=\"%.1f\" cy=\"%.1f\" r=\"3.5\" fill=\"%s\"/>\n", x, y, colour[way]
    if (way == "mutex") printf "<rect x=\"%.1f\" y=\"%.1f\" width=\"7\" height=\"7\" fill=\"white\" stroke=\"%s\" stroke-width=\"1.5\"/>\n", x - 3.5, y - 3.5, colour[way]
    if (way == "kernel") printf "<path d=\"M%.1f %.1f l4.5 8 h-9 z\" fill=\"%s\"/>\n", x, y - 5, colour[way]
    if (way == "space") printf "<path d=\"M%.1f %.1f l4 4 l-4 4 l-4 -4 z\" fill=\"none\" stroke=\"%s\"/>\n", x, y - 4, colour[way]
}

function line_of(task, way,  points, i) {
    for (i = 1; i <= 5; i++) if ((task, way, sizes[i]) in median)
        points = points sprintf("%.1f,%.1f ", across(sizes[i]), up(median[task, way, sizes[i]]))
    if (points) printf "<polyline points=\"%s\" fill=\"none\" stroke=\"%s\" stroke-width=\"1.5\" stroke-dasharray=\"%s\"/>\n", points, colour[way], stroke[way]
    for (i = 1; i <= 5; i++) if ((task, way, sizes[i]) in median)
        mark(way, across(sizes[i]), up(median[task, way, sizes[i]]))
}


function panel(task,  i, time) {
    text(left + 50, top + 10, "start", task)
    for (time = lowest; time <= highest; time *= 10) {
        printf "<line x1=\"%d\" x2=\"%d\" y1=\"%.1f\" y2=\"%.1f\" stroke=\"#ddd\"/>\n", left + 52, left + 228, up(time), up(time)
        text(left + 48, up(time) + 4, "end", time)
    }
    for (i = 1; i <= 5; i++) text(across(sizes[i]), top + 166, "middle", sizes[i])
    text(left + 139, top + 180, "middle", "clients")
    printf "<text transform=\"translate(%d %d) rotate(-90)\" text-anchor=\"middle\">ns a call</text>\n", left + 6, top + 85
    for (i = 1; i <= ways; i++) line_of(task, names[i])
}

# The ways that have a median, each with its mark.
function legend(  i, x) {
    x = 40
    for (i = 1; i <= ways; i++) if (names[i] in has) {
        mark(names[i], x, 16)
        text(x + 12, 20, "start", legends[i])
        x += 190
    }
}

END {
    split("1 2 4 16 64", sizes, " ")
    ways = split("service mutex kernel space", names, " ")
    split("#b30000 #1f4e9c #222222 #777777", colours, " ")
    split("none,6 3,2 3,none", strokes, ",")
    split("the service,a Space under a mutex,the kernel,a Space with one owner", legends, ",")
    for (i = 1; i <= ways; i++) { colour[names[i]] = colours[i]; stroke[names[i]] = strokes[i] }
    lowest = power(least)
    highest = power(most) * 10
    height = int((count + 3) / 4) * 200 + 40
    printf "<svg xmlns=\"http://www.w3.org/2000/svg\" width=\"1000\" height=\"%d\" font-family=\"sans-serif\" font-size=\"12\">\n", height
    print "<rect width=\"100%\" height=\"100%\" fill=\"white\"/>"
    print "<title>Nanoseconds a call, by the number of clients, for each task; both on logarithmic scales, medians</title>"
    legend()
    for (t = 1; t <= count; t++) {
        left = 16 + ((t - 1) % 4) * 246
        top = 40 + int((t - 1) / 4) * 200
        panel(tasks[t])
    }
    print "</svg>"
}

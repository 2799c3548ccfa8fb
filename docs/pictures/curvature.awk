# Draws a field along a line, its gradient and its curvature, one below the other, from lines `node PLACE FIELD` and
# `point PLACE FIELD GRADIENT CURVATURE`. Where the gradient or the curvature changes its sign a dashed line goes through all three.

# Words have a white rim, so that they are read on any line.
function text(x, y, size, anchor, colour, words) {
    printf "<text x=\"%g\" y=\"%g\" font-size=\"%d\" text-anchor=\"%s\" fill=\"%s\" ", x, y, size, anchor, colour
    printf "stroke=\"white\" stroke-width=\"4\" paint-order=\"stroke\">%s</text>\n", words
}

function line(x1, y1, x2, y2, look) {
    printf "<line x1=\"%g\" y1=\"%g\" x2=\"%g\" y2=\"%g\" %s/>\n", x1, y1, x2, y2, look
}

function across(x) { return 90 + x * 6.2 }

function down(k, y) { return top[k] + height * (high[k] - y) / (high[k] - low[k]) }

# A panel: its frame, lines at its steps, what it shows, and the curve.
function panel(k,    y, i, path) {
    for (y = low[k]; y <= high[k] + step[k] / 1000; y += step[k]) {
        line(across(0), down(k, y), across(100), down(k, y), "stroke=\"" (y > -step[k] / 2 && y < step[k] / 2 ? "#555" : "#ddd") "\"")
        text(across(0) - 6, down(k, y) + 4, 11, "end", "#333", sprintf(form[k], y > -step[k] / 2 && y < step[k] / 2 ? 0 : y))
    }
    text(across(0), top[k] - 8, 13, "start", colour[k], name[k])
    for (i = 1; i <= points; i++) path = path sprintf("%s%.2f %.2f", i == 1 ? "M" : "L", across(place[i]), down(k, found[k, i]))
    printf "<path d=\"%s\" fill=\"none\" stroke=\"%s\" stroke-width=\"2\"/>\n", path, colour[k]
}

# Where what a panel shows goes through 0, between two points.
function zeros(k, list,    i, count) {
    for (i = 2; i <= points; i++) {
        if (found[k, i - 1] * found[k, i] < 0 || found[k, i] == 0) {
            list[++count] = place[i - 1] + (place[i] - place[i - 1]) * found[k, i - 1] / (found[k, i - 1] - found[k, i])
        }
    }
    return count
}

function mark(x, look, first, second) {
    line(across(x), top[1] - 4, across(x), top[3] + height, "stroke=\"" look "\" stroke-dasharray=\"5 4\"")
    text(across(x), top[3] + height + 38, 12, "middle", look, first)
    text(across(x), top[3] + height + 54, 12, "middle", look, second)
}

BEGIN {
    height = 120
    split("60 222 384", top, " ")
    split("#33567f #2f7a46 #b03030", colour, " ")
    name[1] = "the field: oxygen, % (dots: its numbers at the nodes, from which all three curves are made)"
    name[2] = "its gradient, % per metre"
    name[3] = "its curvature, % per square metre"
    low[1] = 11; high[1] = 18; step[1] = 1; form[1] = "%d"
    low[2] = -0.15; high[2] = 0.15; step[2] = 0.05; form[2] = "%.2f"
    low[3] = -0.002; high[3] = 0.008; step[3] = 0.002; form[3] = "%.3f"
}

$1 == "node" { node[++nodes] = $2; number[nodes] = $3 }

$1 == "point" {
    place[++points] = $2
    for (k = 1; k <= 3; k++) found[k, points] = $(k + 2)
}

END {
    if (points < 2 || zeros(2, flat) != 1 || zeros(3, steep) != 2) exit 1
    print "<svg xmlns=\"http://www.w3.org/2000/svg\" viewBox=\"0 0 760 590\" font-family=\"sans-serif\">"
    print "<rect width=\"760\" height=\"590\" fill=\"white\"/>"
    text(380, 24, 15, "middle", "black", "A gallery of 100 m: the oxygen, its gradient and its curvature")
    mark(flat[1], "#555", sprintf("lowest at %.1f m:", flat[1]), "the gradient is 0")
    for (k = 1; k <= 2; k++) mark(steep[k], colour[3], sprintf("steepest at %.1f m:", steep[k]), "the curvature is 0")
    for (k = 1; k <= 3; k++) panel(k)
    for (k = 1; k <= nodes; k++) {
        printf "<circle cx=\"%.2f\" cy=\"%.2f\" r=\"3.5\" fill=\"%s\"/>\n", across(node[k]), down(1, number[k]), colour[1]
    }
    for (k = 0; k <= 100; k += 20) text(across(k), top[3] + height + 18, 11, "middle", "#333", k (k == 100 ? " m" : ""))
    print "</svg>"
}

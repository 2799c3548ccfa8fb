# Draws two maps of Graham's ratio side by side from a line a point: the floor, the place to the right and down, the answer (0 a ratio, 1
# unusable field, 2 fresh air), and the ratio or a minus. The ratio is in colours up to `top`, and what is over that is marked.

function text(x, y, size, anchor, words) {
    printf "<text x=\"%g\" y=\"%g\" font-size=\"%d\" text-anchor=\"%s\">%s</text>\n", x, y, size, anchor, words
}

# Words on a map: with a white rim, so that they are read on any colour.
function label(x, y, words) {
    printf "<text x=\"%g\" y=\"%g\" font-size=\"13\" text-anchor=\"middle\" stroke=\"white\" stroke-width=\"4\" ", x, y
    printf "paint-order=\"stroke\">%s</text>\n", words
}

function line(x1, y1, x2, y2, look) {
    printf "<line x1=\"%g\" y1=\"%g\" x2=\"%g\" y2=\"%g\" %s/>\n", x1, y1, x2, y2, look
}

function box(x, y, width, height, look) {
    printf "<rect x=\"%g\" y=\"%g\" width=\"%g\" height=\"%g\" %s/>\n", x, y, width, height, look
}

# What a point is drawn as: a colour of the scale from 0 on, or over it, or no ratio.
function class_of(answer, ratio) {
    if (answer == 1) return "unusable"
    if (answer == 2) return "fresh"
    if (ratio > top) return "over"
    return ratio <= 0 ? 0 : int(ratio / top * classes * 0.999999)
}

function look_of(class) {
    if (class == "unusable") return "url(#unusable)"
    if (class == "fresh") return "url(#fresh)"
    return class == "over" ? "black" : colour[class]
}

# A white cross in a square at (x, y).
function cross(x, y) { return "M" x + 1.5 " " y + 1.5 "l4 4m0-4l-4 4" }

function crosses(path) { printf "<path fill=\"none\" stroke=\"white\" d=\"%s\"/>\n", path }

# One map, its upper left corner at (x, y): a path for each class, of stretches of a row that are alike.
function map(floor, x, y,    row, column, start, class, path, marks, k) {
    for (row = 0; row < count; row++) {
        for (column = 0; column < count; column = start) {
            class = found[floor, column, row]
            for (start = column; start < count && found[floor, start, row] == class; start++) {
                if (class == "over") marks = marks cross(x + start * step, y + row * step)
            }
            path[class] = path[class] "M" x + column * step " " y + row * step "h" (start - column) * step "v" step "H" x + column * step
        }
    }
    for (k = 1; k <= looks; k++) {
        class = look[k]
        if (class in path) printf "<path fill=\"%s\" shape-rendering=\"crispEdges\" d=\"%s\"/>\n", look_of(class), path[class]
    }
    if (marks != "") crosses(marks)
    for (k = 1; k < cells; k++) {
        line(x + k * side / cells, y, x + k * side / cells, y + side, "stroke=\"#333\" stroke-opacity=\"0.35\" stroke-width=\"0.7\"")
        line(x, y + k * side / cells, x + side, y + k * side / cells, "stroke=\"#333\" stroke-opacity=\"0.35\" stroke-width=\"0.7\"")
    }
    box(x, y, side, side, "fill=\"none\" stroke=\"#333\"")
}

function pattern(name, ground, ink, width, path) {
    printf "<pattern id=\"%s\" width=\"7\" height=\"7\" patternUnits=\"userSpaceOnUse\">", name
    printf "<rect width=\"7\" height=\"7\" fill=\"%s\"/>", ground
    printf "<path stroke=\"%s\" stroke-width=\"%s\" d=\"%s\"/></pattern>\n", ink, width, path
}

# How many points of a map are what, in two lines at (x, y).
function summary(floor, x, y) {
    text(x, y, 12, "middle", sprintf("%d ratios, the largest %.3g, %d over %s", number[floor, 0], largest[floor], over[floor], top))
    text(x, y + 16, 12, "middle", sprintf("%d points in fresh air, %d unusable", number[floor, 2], number[floor, 1]))
}

# A square of a look, and words beside it.
function sample(x, y, class, words) {
    box(x, y, 21, 14, "fill=\"" look_of(class) "\" stroke=\"#333\"")
    if (class == "over") crosses(cross(x, y + 3.5) cross(x + 7, y + 3.5) cross(x + 14, y + 3.5))
    text(x + 28, y + 12, 12, "start", words)
}

function legend(x, y,    k, width) {
    width = 28
    for (k = 0; k < classes; k++) box(x + k * width, y, width, 14, "fill=\"" colour[k] "\"")
    box(x, y, classes * width, 14, "fill=\"none\" stroke=\"#333\"")
    for (k = 0; k <= classes; k += 2) text(x + k * width, y + 28, 12, k == 0 ? "start" : "middle", sprintf("%.1f", k * top / classes))
    text(x + classes * width / 2, y + 46, 12, "middle", "Graham's ratio")
    text(x + classes * width / 2, y + 66, 12, "middle", "the grid: cells of 100 m")
    sample(x + 364, y, "over", "a ratio over " top)
    sample(x + 364, y + 24, "fresh", "fresh air: the deficiency is below the floor, no ratio")
    sample(x + 364, y + 48, "unusable", "unusable field, no ratio: a reading failed in this cell")
}

BEGIN {
    top = 1.2
    classes = split("#ffffcc #fff1a9 #fee187 #feca66 #feab49 #fd8c3c #fc5b2e #ed2e21 #d41020 #b00026 #8e0026 #6b0022", listed, " ")
    for (k = 1; k <= classes; k++) {
        colour[k - 1] = listed[k]
        look[++looks] = k - 1
    }
    look[++looks] = "over"
    look[++looks] = "fresh"
    look[++looks] = "unusable"
    cells = 4
}

{
    if (!(($1, 0) in number)) floors[++maps] = $1
    found[$1, $2, $3] = class_of($4, $5)
    number[$1, $4]++
    number[$1, 0] += 0
    if (found[$1, $2, $3] == "over") over[$1]++
    if ($4 == 0 && $5 > largest[$1]) largest[$1] = $5
    if ($2 >= count) count = $2 + 1
}

END {
    if (maps != 2) exit 1
    step = 7
    side = count * step
    print "<svg xmlns=\"http://www.w3.org/2000/svg\" viewBox=\"0 0 760 550\" font-family=\"sans-serif\">"
    print "<defs>"
    pattern("fresh", "white", "#7a9cc0", 1, "M-1 1l2-2M0 7l7-7M6 8l2-2")
    pattern("unusable", "#a8a8a8", "#444", 1, "M-1 1l2-2M0 7l7-7M6 8l2-2M-1 6l2 2M0 0l7 7M6-1l2 2")
    print "</defs>"
    box(0, 0, 760, 550, "fill=\"white\"")
    text(380, 24, 15, "middle", "The same fields, the same points: what a floor changes")
    for (k = 1; k <= 2; k++) {
        x = k == 1 ? 30 : 394
        text(x + side / 2, 52, 13, "middle", "floor " (floors[k] < 0.001 ? sprintf("%.6f", floors[k]) : floors[k]) " %")
        map(floors[k], x, 62)
        summary(floors[k], x + side / 2, 62 + side + 18)
        label(x + 19 * step, 62 + 42 * step, "warm spot")
        if (k == 1) {
            line(x + 16 * step, 62 + 12 * step, x + 27 * step, 62 + 7 * step, "stroke=\"black\"")
            label(x + 11 * step, 62 + 13 * step, "false peaks")
        } else {
            label(x + 36 * step, 62 + 10 * step, "fresh air")
        }
    }
    legend(30, 466)
    print "</svg>"
}

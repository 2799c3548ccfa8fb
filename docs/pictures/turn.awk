# Draws the reference block and the original one, with their neighbours, from three lines: the reference vector, the table and
# its inverse. Axis 0 goes down and axis 1 to the right. One pair of nodes is joined in both halves.

function text(x, y, size, anchor, words) {
    printf "<text x=\"%g\" y=\"%g\" font-size=\"%d\" text-anchor=\"%s\">%s</text>\n", x, y, size, anchor, words
}

function line(x1, y1, x2, y2, look) {
    printf "<line x1=\"%g\" y1=\"%g\" x2=\"%g\" y2=\"%g\" %s/>\n", x1, y1, x2, y2, look
}

# A block with its upper left corner at (x, y), and its nodes: node k of the reference stands where `at` says.
function block(x, y) {
    printf "<rect x=\"%g\" y=\"%g\" width=\"%g\" height=\"%g\" fill=\"#f4f7fb\" stroke=\"#33567f\"/>\n", x, y, side, side
}

function nodes(x, y, name,    k, row, column) {
    for (k = 0; k < p * p; k++) {
        row = int(at[k] / p)
        column = at[k] % p
        printf "<circle cx=\"%g\" cy=\"%g\" r=\"9\" fill=\"%s\" stroke=\"#33567f\"/>\n", x + place(column), y + place(row), mark[name, k]
        text(x + place(column), y + place(row) + 4, 10, "middle", k)
    }
}

function place(i) { return step / 2 + i * step }

# A target block at (x, y), and its source block a vector (a, b) of blocks away.
function pair(x, y, a, b) {
    block(x, y)
    block(x + b * side, y + a * side)
    line(x + place(at[from] % p), y + place(int(at[from] / p)),
        x + b * side + place(at[to] % p), y + a * side + place(int(at[to] / p)), "stroke=\"#b03030\" stroke-width=\"2\"")
    nodes(x, y, "target")
    nodes(x + b * side, y + a * side, "source")
    text(x + side / 2, y - 8, 12, "middle", "target block")
    text(x + b * side + side / 2, y + a * side + side + 16, 12, "middle", "source block")
}

{ sub(/^[^:]*: /, "") }
NR == 1 { down = $1; right = $2 }
NR == 2 { for (k = 0; k < p * p; k++) table[k] = $(k + 1) }
NR == 3 { for (k = 0; k < p * p; k++) inverse[k] = $(k + 1) }

END {
    for (k = 0; k < p * p; k++) if (inverse[table[k]] != k) exit 1
    step = 30
    side = p * step
    from = 1
    to = 14
    for (k = 0; k < p * p; k++) mark["target", k] = mark["source", k] = "white"
    mark["target", from] = mark["source", to] = "#f3c9c9"
    print "<svg xmlns=\"http://www.w3.org/2000/svg\" viewBox=\"0 0 760 480\" font-family=\"sans-serif\">"
    print "<rect width=\"760\" height=\"480\" fill=\"white\"/>"
    text(150, 24, 15, "middle", "stored: reference (" down ", " right ")")
    for (k = 0; k < p * p; k++) at[k] = k
    pair(90, 60, down, right)
    text(540, 24, 15, "middle", "wanted: vector (0, -2), turned by case " case)
    for (k = 0; k < p * p; k++) at[k] = table[k]
    pair(600, 60, 0, -2)
    # the axes
    line(30, 60, 30, 120, "stroke=\"#333\"")
    text(30, 136, 12, "middle", "axis 0")
    line(30, 60, 66, 60, "stroke=\"#333\"")
    text(34, 52, 12, "middle", "axis 1")
    text(540, 250, 13, "middle", "Node k of the stored block stands where the number k is.")
    text(540, 272, 13, "middle", "Every pair of nodes keeps its distances, such as the joined one:")
    text(540, 294, 13, "middle", "what lies along axis 0 on the left lies along axis 1 on the right.")
    text(540, 338, 13, "middle", "table: node k goes to place " row_of(table, 0) " ..")
    text(540, 360, 13, "middle", "inverse: at place n is node " row_of(inverse, 0) " ..")
    print "</svg>"
}

function row_of(list, first,    words, k) {
    for (k = first; k < first + 8; k++) words = words (k > first ? " " : "") list[k]
    return words
}

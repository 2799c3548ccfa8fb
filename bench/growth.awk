# Draws for each call that the text has how its instructions grow with the operations that its rule needs: ours and the text's, both
# axes by powers of ten.

function log10(x) { return log(x) / log(10) }

function across(panel, x) { return 60 + panel % 4 * 240 + log10(x) / 8 * 190 }

function down(panel, y) { return 190 + int(panel / 4) * 210 - log10(y) / 10 * 150 }

function text(x, y, size, anchor, colour, words) {
    printf "<text x=\"%g\" y=\"%g\" font-size=\"%d\" text-anchor=\"%s\" fill=\"%s\">%s</text>\n", x, y, size, anchor, colour, words
}

function curve(panel, colour, list,    i, points) {
    for (i = 1; i <= sizes[panel]; i++) {
        points = points sprintf("%g,%g ", across(panel, floor[panel, i]), down(panel, list[panel, i]))
        printf "<circle cx=\"%g\" cy=\"%g\" r=\"3\" fill=\"%s\"/>\n", across(panel, floor[panel, i]), down(panel, list[panel, i]), colour
    }
    printf "<polyline points=\"%s\" fill=\"none\" stroke=\"%s\" stroke-width=\"1.5\"/>\n", points, colour
}

# The frame of a panel, with lines at every second power of ten.
function frame(panel,    k) {
    for (k = 0; k <= 8; k += 2) {
        printf "<line x1=\"%g\" y1=\"%g\" x2=\"%g\" y2=\"%g\" stroke=\"#ddd\"/>\n", across(panel, 10 ^ k), down(panel, 1), across(panel, 10 ^ k), down(panel, 10 ^ 10)
        text(across(panel, 10 ^ k), down(panel, 1) + 14, 10, "middle", "#333", "10^" k)
    }
    for (k = 0; k <= 10; k += 2) {
        printf "<line x1=\"%g\" y1=\"%g\" x2=\"%g\" y2=\"%g\" stroke=\"#ddd\"/>\n", across(panel, 1), down(panel, 10 ^ k), across(panel, 10 ^ 8), down(panel, 10 ^ k)
        text(across(panel, 1) - 4, down(panel, 10 ^ k) + 3, 10, "end", "#333", "10^" k)
    }
    words = name[panel]
    sub(/_chebyshev/, "", words)
    # The two calls in turn have a name that is wider than a panel.
    sub(/scale_points and get_approximation_coefficients/, "scaling and coefficients", words)
    text(across(panel, 10 ^ 4), down(panel, 10 ^ 10) - 8, 10, "middle", "black", words)
}

BEGIN {
    FS = "\t"
    panels = 0
}

$5 != "-" {
    if (!($1 in number)) { number[$1] = panels; name[panels++] = $1 }
    panel = number[$1]
    i = ++sizes[panel]
    floor[panel, i] = $3
    ours[panel, i] = $4
    rust[panel, i] = $5
}

END {
    height = int((panels + 3) / 4) * 210 + 60
    printf "<svg xmlns=\"http://www.w3.org/2000/svg\" viewBox=\"0 0 1010 %d\" font-family=\"sans-serif\">\n", height
    printf "<rect width=\"1010\" height=\"%d\" fill=\"white\"/>\n", height
    for (panel = 0; panel < panels; panel++) {
        frame(panel)
        curve(panel, "#b03030", rust)
        curve(panel, "#33567f", ours)
    }
    text(60, height - 14, 13, "start", "#33567f", "blue: ours")
    text(150, height - 14, 13, "start", "#b03030", "red: the Rust")
    text(270, height - 14, 13, "start", "black", "upwards: instructions of a call; to the right: the operations that its rule needs")
    print "</svg>"
}

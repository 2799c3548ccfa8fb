# Draws the lines of proof that each request brought and took away, from the table of docs/landings/README.md.
BEGIN {
    FS = " *\\| *"
    print "<svg xmlns=\"http://www.w3.org/2000/svg\" viewBox=\"0 0 760 500\" font-family=\"sans-serif\">"
    print "<rect width=\"760\" height=\"500\" fill=\"white\"/>"
    print "<text x=\"380\" y=\"24\" font-size=\"15\" text-anchor=\"middle\">Lines of proof that each request brought and took away</text>"
    legend(330, "#30588c", "in")
    legend(390, "#b03030", "out: what stood and went")
}

function legend(x, colour, words) {
    printf "<rect x=\"%d\" y=\"38\" width=\"12\" height=\"12\" fill=\"%s\"/>\n", x, colour
    printf "<text x=\"%d\" y=\"49\" font-size=\"12\">%s</text>\n", x + 17, words
}

function bar(y, lines, colour) {
    printf "<rect x=\"310\" y=\"%d\" width=\"%g\" height=\"10\" fill=\"%s\"/>\n", y, lines / 24, colour
    printf "<text x=\"%g\" y=\"%d\" font-size=\"11\">%d</text>\n", 315 + lines / 24, y + 9, lines
}

/^\| \[E[0-9]+\]/ {
    name = $2
    sub(/^\[/, "", name)
    sub(/\].*$/, "", name)
    gsub(/,/, "")
    y = 62 + 30 * drawn++
    printf "<text x=\"300\" y=\"%d\" font-size=\"12\" text-anchor=\"end\">%s: %s</text>\n", y + 14, name, $3
    bar(y, $8, "#30588c")
    bar(y + 11, $9, "#b03030")
}

END { print "</svg>" }

# Draws a block that was filled late, with the entries that were read in colour, from what unread.c prints: its last 16 lines.

function text(x, y, size, anchor, words) {
    printf "<text x=\"%g\" y=\"%g\" font-size=\"%d\" text-anchor=\"%s\">%s</text>\n", x, y, size, anchor, words
}

function square(x, y, colour) {
    printf "<rect x=\"%g\" y=\"%g\" width=\"18\" height=\"18\" fill=\"%s\" stroke=\"#c8d0da\"/>\n", x, y, colour
}

/^[rc.]+$/ { lines[rows++] = $0; next }
{ turns++ }
/filled in/ { if (/row [0-9]+ is/) row_count++; else column_count++ }

END {
    colour["r"] = "#33567f"
    colour["c"] = "#d98c3f"
    colour["."] = "white"
    print "<svg xmlns=\"http://www.w3.org/2000/svg\" viewBox=\"0 0 640 360\" font-family=\"sans-serif\">"
    print "<rect width=\"640\" height=\"360\" fill=\"white\"/>"
    text(184, 24, 15, "middle", "a block of " rows " by " length(lines[0]) ", filled late")
    for (i = 0; i < rows; i++) {
        text(32, 53 + 18 * i, 10, "end", i)
        for (j = 0; j < length(lines[i]); j++) {
            mark = substr(lines[i], j + 1, 1)
            count[mark]++
            square(40 + 18 * j, 40 + 18 * i, colour[mark])
        }
    }
    for (j = 0; j < length(lines[0]); j++) text(49 + 18 * j, 36, 10, "middle", j)
    square(360, 80, colour["r"])
    text(388, 94, 13, "start", row_count " rows listed: " count["r"] " entries filled in")
    square(360, 110, colour["c"])
    text(388, 124, 13, "start", column_count " columns listed: " count["c"] " more")
    square(360, 140, colour["."])
    text(388, 154, 13, "start", count["."] " entries that nobody asked for")
    text(360, 200, 13, "start", turns " runs; the last one lists nothing")
    text(360, 220, 13, "start", "that is missing, and its answer")
    text(360, 240, 13, "start", "is that of the full block.")
    print "</svg>"
}
